#!/usr/bin/env python3
"""Make the words that are compared: the same list on every run.

    words.py REPOSITORY FOLDER

writes to FOLDER words.bin (big-endian, for objdump), words.hex (bytes as text, a word a line, for llvm-mc) and base
(the address of the first word, in hex).
"""
import itertools
import struct
import sys
from pathlib import Path

sys.path.append(str(Path(__file__).resolve().parents[1] / "model"))

from pages import COLUMNS, WORD_BITS, WORD_BYTES, pages_of  # noqa: E402
from splitmix import Splitmix  # noqa: E402

SEED = 20261115
PER_PAGE = 700  # words of each page with its fields at random
FLIP_ONE_IN = 4  # one in this many of them has a fixed bit wrong
PER_FIXED_BIT = 3  # allowed words of each page for every fixed bit, with that bit wrong
TRIES = 100  # to find an allowed word
PER_PAIR = 6  # words of each page for every pair of columns, with the same number in both
PER_CELL = 5  # words for every op and every number in one more column
ANY_WORDS = 60000  # words of no page in particular
REGISTERS = 32  # how many numbers a column of five bits has
EVERY_BIT = 2**WORD_BITS - 1
# A jump is in the last word below this address, so that it goes to the region above; others are on either side of it.
REGION_START = 0x50000000
JUMP = "j"


class Random(Splitmix):
    def word(self):
        return self.next() & EVERY_BIT


def bits_of(mask):
    return [1 << bit for bit in range(WORD_BITS) if mask >> bit & 1]


def fields_of(page):
    """The bits of each field as a mask."""
    found = {}
    for name, top, low in page.pieces:
        found[name] = found.get(name, 0) | 2 ** (top + 1) - 2**low
    return list(found.values())


def at_limits(page, random):
    """Every field at 0 or all ones; and each field at 0, all ones and each single bit, with the others at random."""
    fields = fields_of(page)
    for limits in itertools.product(*((0, field) for field in fields)):
        yield page.value | sum(limits)
    for field in fields:
        for limit in [0, field] + bits_of(field):
            yield page.value | random.word() & ~page.mask & ~field | limit


def allowed_word(page, random):
    """A word of the page at random; one that its Restrictions allow, unless that fails for long."""
    for _ in range(TRIES):
        word = page.value | random.word() & ~page.mask
        if page.allowed(word):
            break
    return word


def wrong_by_one_bit(page, random):
    """Each fixed bit wrong, and nothing else: in a word with all fields 0, with all ones, and in words that are
    allowed."""
    for bit in bits_of(page.mask):
        yield page.value ^ bit
        yield (page.value | EVERY_BIT & ~page.mask) ^ bit
        for _ in range(PER_FIXED_BIT):
            yield allowed_word(page, random) ^ bit


def within(column, number):
    return number << COLUMNS[column][0]


def every_bit_of(column):
    return within(column, 2 ** COLUMNS[column][1] - 1)


def equal_columns(page, random):
    """The same number in two columns: what is allowed in one often depends on another."""
    for one, other in itertools.combinations(("rs", "rt", "rd", "sa"), 2):
        both = every_bit_of(one) | every_bit_of(other)
        for _ in range(PER_PAIR):
            number = random.below(REGISTERS)
            word = random.word() & ~both | within(one, number) | within(other, number)
            yield page.value | word & ~page.mask


def words_of(page):
    # Its own generator, so that a page's words do not depend on other pages.
    random = Random(SEED ^ page.mask << WORD_BITS ^ page.value)
    yield from at_limits(page, random)
    yield from wrong_by_one_bit(page, random)
    yield from equal_columns(page, random)
    for index in range(PER_PAGE):
        word = allowed_word(page, random) if index % 2 else page.value | random.word() & ~page.mask
        yield word if random.below(FLIP_ONE_IN) else word ^ random.choose(bits_of(page.mask))


def words_of_cell(columns, numbers, others):
    """Words with these numbers in these columns, and otherwise as each of the others has it."""
    fixed = sum(map(within, columns, numbers))
    mask = sum(map(every_bit_of, columns))
    return (fixed | other & ~mask for other in others)


def words_of_cells(pages, random):
    """Every op with every number in each other column and, where a page depends on funct, with every pair of funct and
    rs or sa: so that a page that the table lacks has words too."""
    by_funct = {page.value >> COLUMNS["op"][0] for page in pages if page.mask & every_bit_of("funct")}
    for op in range(2 ** COLUMNS["op"][1]):
        for column in ("rs", "rt", "rd", "sa", "funct"):
            for number in range(2 ** COLUMNS[column][1]):
                yield from words_of_cell(("op", column), (op, number), [random.word() for _ in range(PER_CELL)])
        pairs = itertools.product(("rs", "sa"), range(REGISTERS), range(2 ** COLUMNS["funct"][1]))
        for column, number, funct in pairs if op in by_funct else ():
            yield from words_of_cell(("op", column, "funct"), (op, number, funct), (0, random.word()))


def all_words(pages):
    """The words without repetitions, page by page, and the address of the first."""
    found = {}
    jumps = []
    for page in pages:
        for word in words_of(page):
            found.setdefault(word, len(found))
            if page.name == JUMP and page.drawn(word):
                jumps.append(found[word])
    random = Random(SEED)
    for word in itertools.chain(words_of_cells(pages, random), (random.word() for _ in range(ANY_WORDS))):
        found.setdefault(word, len(found))
    below = jumps[len(jumps) // 2] + 1
    return list(found), REGION_START - below * WORD_BYTES


def hex_line(word):
    return " ".join(f"{byte:#04x}" for byte in word.to_bytes(WORD_BYTES, "big")) + "\n"


def main():
    repository, folder = sys.argv[1:]
    words, base = all_words(pages_of(repository))
    with open(f"{folder}/words.bin", "wb") as file:
        file.write(struct.pack(f">{len(words)}I", *words))
    with open(f"{folder}/words.hex", "w", encoding="ascii") as file:
        file.writelines(map(hex_line, words))
    with open(f"{folder}/base", "w", encoding="ascii") as file:
        print(f"{base:#x}", file=file)


if __name__ == "__main__":
    main()
