#!/usr/bin/env python3
"""What the library must answer about blocks, pages and lines, by the model (tests/model) and the Rust.

    expect.py ROOT DRIVER > expected.txt

The file is kept beside this one and read by pages.c; README.md says what is in it. DRIVER is that of tests/oracle.
"""
import itertools
import re
import sys
from pathlib import Path

ROOT, DRIVER = (Path(word) for word in sys.argv[1:])
sys.path += [str(ROOT / "tests/model"), str(ROOT / "tests/sweep")]

import listing  # noqa: E402
import record  # noqa: E402
import rust  # noqa: E402
from cases import EXAMPLE_ADDRESS, EXAMPLE_WORDS, packed, real_words  # noqa: E402
from listing import Body  # noqa: E402
from record import ADDR, COP0, FREG, IMM, MEM, REG, Operand, Record  # noqa: E402
from splitmix import Splitmix  # noqa: E402
from vectors import accepted, names_of  # noqa: E402

SEED = 20261115
TOP64 = 2**64
# Indexes and places so large that a sum or a product with them passes 2^64.
HUGE = (2**61, 2**62, 2**62 + 1, 2**63, 2**63 + 1, TOP64 - 64, TOP64 - 4, TOP64 - 1)
ANSWERS_PER_BODY = 60
LONGEST_BUFFER = 200
LONGEST_RUN = 5
REAL_WORDS = 300
# The mnemonics whose records are changed byte by byte.
FEW_NAMES = (b"ext", b"jal", b"sw", b"lui", b"beq", b"mtc0", b"madd.s", b"bc1f", b"addiu")

PLAIN, MARK, REFUSED = 0x24020005, 0x1000FFFF, 0x7C000001


def answer_text(parts):
    return ":".join(str(part) for part in parts)


# ── blocks ──


def runs():
    """Every run of plain, marked and refused words up to a length, with 0 to 3 bytes after it."""
    for length in range(LONGEST_RUN + 1):
        for k, words in enumerate(itertools.product((PLAIN, MARK, REFUSED), repeat=length)):
            big, wide = bool(k & 1), bool(k & 2)
            yield Body(packed(words, big) + bytes([0x24] * (k % 4)), 0x80001000, big, wide)


def class_bodies(kept):
    """A word of each mnemonic and flow, with a nop after it, under either flag and byte order."""
    first = {}
    for each in kept:
        first.setdefault((each.name, record.unpacked(each.record).flow), each.question.word)
    words = [word for each in first.values() for word in (each, 0)]
    for flags in range(4):
        big, wide = bool(flags & 1), bool(flags & 2)
        yield Body(packed(words, big), 0x0FFFFF00, big, wide)


def end_bodies():
    """What does not end a block, and what does: eret, break, syscall and traps beside every kind of mark; refusals of
    every number."""
    plain = (0x42000018, 0x0000000D, 0x0000000C, 0x00000034, 0x42000020, 0x0000000F)
    marks = (0x03E00008, 0x00800008, 0x0080F809, 0x08000000, 0x0C000000)
    marks += (0x04110001, 0x04100001, 0x45000001, 0x50000001, 0x10000001)
    refused = (0x4C000000, 0x00000001, 0x04040000, 0x40200000, 0x44600000, 0x70000003, 0x7C000001)
    yield Body(packed(plain), TOP64 - 8, False, False)
    yield Body(packed(marks), TOP64 - 8, False, True)
    for word in marks:
        for after in (*plain[:2], *marks[:2], *refused):
            yield Body(packed((*plain, word, after)), 0x1000, False, False)
        yield Body(packed((*plain, word)), 0x1000, False, False)
    for word in refused:
        yield Body(packed((PLAIN, word, PLAIN)), 0x1000, False, False)


def write_blocks(body, read):
    # The last answer is that of every index from there on.
    answers = ",".join(answer_text(listing.block(body, index, read)) for index in range(len(body) + 1))
    print("blocks", *fields(body), answers)


def fields(body):
    return f"{body.address:x}", int(body.big), int(body.wide), body.data.hex() or "-"


# ── pages ──


def page_bodies(real):
    yield Body(packed(EXAMPLE_WORDS, big=True), EXAMPLE_ADDRESS, True, False)
    yield Body(b"", 0, False, False)
    yield Body(b"\x24\x02\x00", 0, True, False)
    yield Body(packed((0,)) + b"\x24", TOP64 - 1, False, True)
    # Short lines, refused ones of every number, and long ones; addresses that pass 2^64.
    yield Body(packed((0, 0x40, 0x0000000F, 0x42000018)) + b"\0\0\0", 0xFFFFFFFF00000000, False, False)
    refused = (0x4C000000, 0x00000001, 0x04040000, 0x40200000, 0x44600000, 0x70000003, 0x7C000001)
    yield Body(packed(refused, big=True), TOP64 - 8, True, True)
    long = (0x7C821944, 0x5483FFFF, 0x4620000D, 0x0080102D, 0xD7BF8000, 0x0C000001, 0x03E0F809)
    yield Body(packed(long) + b"\0\0", TOP64 - 12, False, False)
    yield Body(packed((0x0080102D, 0x7C0003C4)), 3, False, True)
    yield Body(packed(real), 0x9800000000100000, False, True)


def write_pages(body, read, random):
    print("pages", *fields(body))
    for n in range(len(body)):
        print("text", listing.line(body, n, read).decode(), end="")
    # Some answers of the model itself, with which the loops of pages.c are compared.
    for _ in range(ANSWERS_PER_BODY):
        index = random.below(len(body) + 2) if random.below(8) else random.choose(HUGE)
        size = random.below(LONGEST_BUFFER + 1)
        place = random.below(size + 3) if random.below(8) else random.choose(HUGE)
        number, words, text = listing.page(body, index, size, place, read)
        print("page", index, size, place, number, words, len(text))


# ── lines ──


def values(random):
    ends = (0, 1, 9, 10, 99, 2**15, 2**31, 2**63 - 1, 2**63, 2**63 + 1, TOP64 - 1, TOP64 - 10, 10**19)
    return random.choose((*ends, random.next(), random.next() >> random.below(64)))


def any_operand(random):
    kind = 1 + random.below(6)
    register = random.below(32) if kind in record.WITH_REGISTER else 0
    return Operand(kind, register, values(random) if kind in record.WITH_VALUE else 0)


def any_effect(random):
    kind = random.below(len(record.EFFECT_PARTS))
    parts = (random.below(256), random.below(256), random.below(256), random.next())
    return (kind, *(part if has else 0 for has, part in zip(record.EFFECT_PARTS[kind], parts)))


def any_reading(random, names):
    """One that most often no word has: the printer takes any reading."""
    operands = [any_operand(random) for _ in range(random.below(5))]
    marks = random.below(4)
    target = random.next() if marks & record.HAS_TARGET else 0
    return Record(random.choose(names), 0, random.below(6), marks, len(operands), target, any_effect(random), operands)


def longest():
    """Document 01's 120 bytes, filled to the last."""
    return Record(b"trunc.w.s", count=4, operands=[Operand(MEM, 0, 2**63)] * 4)


def operand_records():
    """Each kind of operand alone and with its register and value at the ends."""
    for kind in (REG, FREG, IMM, MEM, ADDR, COP0):
        for register in (0, 1, 31, 32, 33, 255):
            for value in (0, 1, 2**63, TOP64 - 1):
                yield Record(b"nop", count=1, operands=[Operand(kind, register, value)])
    for kind in (0, 7, 255):
        yield Record(b"nop", count=1, operands=[Operand(kind, 0, 0)])
    # A register in each slot, used and unused.
    for slot in range(4):
        for count in range(6):
            for register in (31, 32):
                kinds = [REG if k < count else 0 for k in range(4)]
                operands = [Operand(kind, register if k == slot else 0, 0) for k, kind in enumerate(kinds)]
                yield Record(b"addu", count=count, operands=operands)


def count_records():
    full = [Operand(REG, k, 0) for k in range(4)]
    for used in range(5):
        for count in (0, 1, 2, 3, 4, 5, 6, 128, 255):
            yield Record(b"ext", count=count, operands=full[:used])
    # 10 in two ways at once, and 9 before it.
    yield Record(b"ext", count=5, operands=[*full[:3], Operand(FREG, 32, 0)])
    yield Record(b"extr", count=5, operands=full)
    yield Record(b"ext", flow=6, count=5, operands=full)


def part_records():
    for number in (*range(1, 18), 128, 255):
        yield Record(b"nop", number)
    for flow in (5, 6, 255):
        yield Record(b"nop", flow=flow)
    for marks in (0, 1, 2, 3, 4, 5, 128, 255):
        for target in (0, 1, 2**63):
            yield Record(b"b", marks=marks, target=target)
    for kind in (0, 1, 2, 3, 4, 5, 255):
        for parts in itertools.product((0, 200), (0, 32), (0, 9), (0, 2**40)):
            yield Record(b"nop", effect=(kind, *parts))
    near = (b"", b"no", b"nopp", b"NOP", b"nop ", b"nop\0p", b"\0nop", b"trunc.w.", b"trunc.w.s\0\0\0\0\0\0s")
    for name in (*near, b"\xff" * 16, b"sll", b"add.w", b"li"):
        yield Record(name)


def changed_bytes(bases, random):
    """Records with one byte changed, at each place."""
    for base in bases:
        for at in range(record.RECORD_BYTES):
            data = bytearray(base)
            data[at] ^= 1 << random.below(8) if random.below(2) else 1 + random.below(255)
            yield bytes(data)


def records(kept, random):
    names = sorted(names_of(kept))
    few = [each.record for each in kept if each.name in FEW_NAMES]
    yield longest().packed()
    for each in itertools.chain(operand_records(), count_records(), part_records()):
        yield each.packed()
    for name in names:
        yield Record(name).packed()
    for _ in range(300):
        yield any_reading(random, names).packed()
    yield from changed_bytes([longest().packed(), *few[:12]], random)
    for _ in range(50):
        yield b"".join(random.next().to_bytes(8, "little") for _ in range(10))


def short(data):
    """The bytes in hex, with the length between dots for a run of zeros."""
    runs_of = re.findall(rb"\0+|[^\0]+", data)
    return "".join(f".{len(run)}." if len(run) > 2 and not any(run) else run.hex() for run in runs_of)


def answer_line(number, text):
    return f"{number} {text}".rstrip()


def check_lines(kept, read):
    """The model's lines are those of the Rust; inputs.py makes them without it."""
    names = names_of(kept)
    for each in kept:
        text = record.line(each.record, names)[1]
        if text != read(each.question).text:
            sys.exit(f"the model prints {text!r}, the Rust {read(each.question).text!r}")


def write_lines(kept, random):
    names = names_of(kept)
    known = set()
    for data in records(kept, random):
        if data not in known:
            known.add(data)
            print(f"line {short(data)} {answer_line(*record.line(data, names))}")


def main():
    random = Splitmix(SEED)
    kept = accepted(ROOT)
    block_bodies = [*runs(), *class_bodies(kept), *end_bodies()]
    page_list = list(page_bodies(real_words(ROOT)[:REAL_WORDS]))
    asked = [each for body in block_bodies + page_list for each in body.questions()]
    read = rust.answers(DRIVER, asked + [each.question for each in kept])
    check_lines(kept, read)
    for body in block_bodies + page_list:
        write_blocks(body, read)
    for body in page_list:
        write_pages(body, read, random)
    write_lines(kept, random)


main()
