"""The section files that `sweep` and the library are tried on: `cases(root)` gives the name and the bytes of each, the
same on every run.

Files are made here from their fields, good or not, since tools/make_section makes good ones only.
"""
import struct
from pathlib import Path

import vectors
from splitmix import Splitmix

SEED = 20261115
HEADER_BYTES = 8
RECORD_BYTES = 16
MOST_SECTIONS = 64
MOST_BYTES = 65535
TOP32 = 2**32
TOP64 = 2**64

# Words that keep a listing short: a load, a branch, a refused word.
LOAD, BRANCH, REFUSED = 0x8C820010, 0x1000FFFF, 0x7C000001
# Document 01's example.
EXAMPLE_WORDS = (0x3C048000, 0x0C000403, 0x8C820010, 0x03E00008, 0x00000000, 0x7C000001)
EXAMPLE_ADDRESS = 0x80001000

REAL_WORDS = 16000
REAL_ADDRESSES = (0x80001000, 0xFFFFFFFFFFFFE000, 0x0FFFE000, 0x7FFFFFFFFFFFF003)
RANDOM_CASES = 300
LONGEST_CUT = 64


def packed(words, big=False):
    return struct.pack(f"{'>' if big else '<'}{len(words)}I", *words)


def file_of(records, rest, count=None, flags=0, total=None):
    """A file of records (address, offset, length) and the bytes after them; what is not given is as it should be."""
    length = HEADER_BYTES + RECORD_BYTES * len(records) + len(rest)
    count = len(records) if count is None else count
    total = length if total is None else total
    made = struct.pack("<HHI", count, flags, total % TOP32)
    return made + b"".join(struct.pack("<QII", *record) for record in records) + rest


def good(bodies, flags=0):
    """A file of addresses and bodies, one after the other without gaps."""
    offset = HEADER_BYTES + RECORD_BYTES * len(bodies)
    records = []
    for address, body in bodies:
        records.append((address, offset, len(body)))
        offset += len(body)
    return file_of(records, b"".join(body for _, body in bodies), flags=flags)


# ── one section: document 01's example, 48 bytes, its body at 24 ──

ONE_BODY = packed(EXAMPLE_WORDS, big=True)
ONE_AT = 24
ONE_END = 48


def one(address=EXAMPLE_ADDRESS, offset=ONE_AT, length=len(ONE_BODY), **header):
    return file_of([(address, offset, length)], ONE_BODY, **{"flags": 1, **header})


def header_cases():
    for count in (0, 1, 2, 3, 63, 64, 65, 255, 256, 257, 0x8001, 65535):
        yield f"count-{count}", one(count=count)
    for flags in (0, 1, 2, 3, 4, 5, 7, 8, 0x100, 0x101, 0x8000, 0xFFFF):
        yield f"flags-{flags:x}", one(flags=flags)
    for total in (
        0, 1, 8, 24, ONE_END - 1, ONE_END + 1, ONE_END + 4, ONE_END << 8, ONE_END << 16, ONE_END << 24, ONE_END + 65536,
        2**31, TOP32 - 1,
    ):  # fmt: skip
        yield f"total-{total:x}", one(total=total)
    # 12 comes before 13, whatever is in the records.
    yield "count-and-record", one(count=0, length=3)
    yield "flags-and-record", one(flags=4, offset=0)
    yield "total-and-record", one(total=ONE_END + 1, length=TOP32 - 4)


def offset_cases():
    for offset in (
        0, 1, 7, 8, 20, ONE_AT - 1, ONE_AT, ONE_AT + 1, ONE_AT + 4, ONE_END, TOP32 - 1, TOP32 - 4, 2**31,
        0x100 + ONE_AT, 0x10000 + ONE_AT,
    ):  # fmt: skip
        yield f"offset-{offset:x}", one(offset=offset)
        yield f"offset-{offset:x}-short", one(offset=offset, length=4)
    for offset, length in (
        (ONE_AT + 1, 20), (ONE_AT + 2, 20), (ONE_AT + 3, 20), (ONE_AT + 4, 20), (ONE_AT + 5, 20),
        (ONE_END - 4, 4), (ONE_END - 3, 4), (ONE_END - 1, 4), (ONE_END - 4, 8), (ONE_END, 0), (ONE_END + 1, 4),
    ):  # fmt: skip
        yield f"part-{offset}-{length}", one(offset=offset, length=length)
    # Sums past 2^32 that come to a place inside the file.
    for offset, length in (
        (TOP32 - 4, 8), (TOP32 - 4, 28), (TOP32 - 4, 52), (TOP32 - 8, 32), (TOP32 - 24, 48),
        (ONE_AT, TOP32 - 24), (ONE_AT, TOP32 - 20), (2**31, 2**31), (2**31, 2**31 + 32),
    ):  # fmt: skip
        yield f"wrapping-{offset:x}-{length:x}", one(offset=offset, length=length)


def length_cases():
    for length in (
        *range(9), *range(20, 29), 48, 256, 260, 0x10018, 2**31, 2**31 + 4, TOP32 - 4, TOP32 - 1,
    ):  # fmt: skip
        yield f"length-{length:x}", one(length=length)


def address_cases():
    for address in (
        0, 1, 3, 0x0FFFFFF4, 0xFFFFFFFC, 2**32, 2**63 - 8, 2**63,
        TOP64 - 24, TOP64 - 23, TOP64 - 8, TOP64 - 4, TOP64 - 1,
    ):  # fmt: skip
        yield f"address-{address:x}", one(address=address)


# ── two sections: 64 bytes, bodies at 40 and 52 ──

TWO_AT = 40
TWO_BODY = packed((LOAD, BRANCH, LOAD, REFUSED, BRANCH, LOAD))
TWO_END = 64


def two(first, second, **header):
    return file_of([(0x1000, *first), (0xFFFFFFFF00000000, *second)], TWO_BODY, **header)


def two_cases():
    for name, first, second in (
        ("touching", (40, 12), (52, 12)),
        ("gap-4", (40, 8), (52, 12)),
        ("gap-1", (40, 8), (49, 12)),
        ("gap-before", (44, 8), (52, 12)),
        ("odd-offsets", (41, 8), (51, 12)),
        ("rest-after", (40, 4), (44, 4)),
        ("last-word", (40, 20), (60, 4)),
        ("overlap-1", (40, 12), (51, 12)),
        ("overlap-4", (40, 12), (48, 12)),
        ("overlap-all", (40, 12), (40, 12)),
        ("same-offset", (40, 4), (40, 8)),
        ("inside", (40, 24), (44, 4)),
        ("around", (44, 4), (40, 24)),
        ("falling", (52, 12), (40, 12)),
        ("falling-gap", (56, 8), (40, 4)),
        ("in-records", (24, 4), (40, 4)),
        ("in-own-record", (40, 4), (24, 4)),
        ("one-before-end-of-records", (39, 4), (44, 4)),
        ("second-in-records", (40, 4), (39, 4)),
        ("second-empty", (40, 12), (52, 0)),
        ("second-empty-at-end", (40, 24), (64, 0)),
        ("second-odd-length", (40, 12), (52, 6)),
        ("second-past-end", (40, 12), (52, 16)),
        ("second-at-end", (40, 12), (64, 4)),
        ("second-wraps", (40, 12), (TOP32 - 4, 8)),
        ("second-wraps-inside", (40, 12), (TOP32 - 4, 60)),
        ("second-length-wraps", (40, 12), (52, TOP32 - 4)),
        ("second-max", (40, 12), (TOP32 - 1, TOP32 - 1)),
        ("first-empty", (40, 0), (40, 24)),
        ("first-odd-length", (40, 10), (52, 12)),
        ("first-past-end", (40, 28), (68, 4)),
        ("first-wraps", (TOP32 - 4, 48), (52, 12)),
        ("first-wraps-to-0", (TOP32 - 4, 4), (52, 12)),
        ("both-bad", (0, 0), (0, 0)),
    ):
        yield f"two-{name}", two(first, second)
    # The count decides where the bodies may begin.
    yield "two-records-one-counted", two((40, 12), (52, 12), count=1)
    yield "two-records-one-counted-touching", two((24, 16), (40, 24), count=1)
    yield "two-records-three-counted", two((56, 4), (60, 4), count=3)


# ── files cut off and files that are long ──


def cut_cases():
    whole = two((40, 12), (52, 12))
    for length in range(LONGEST_CUT + 1):
        yield f"cut-{length}", whole[:length]
        # With the total that it then has, so that the other rules show.
        fitted = whole[:4] + struct.pack("<I", length) + whole[8:]
        yield f"cut-fitted-{length}", fitted[:length]


def long_cases():
    words = packed([LOAD, BRANCH, REFUSED] * 5459)  # 65,508 bytes, as many as fit after one record
    for total in (MOST_BYTES - 3, MOST_BYTES, MOST_BYTES + 1, 70000):
        rest = (words + bytes(5000))[: total - ONE_AT]
        length = min(len(words), len(rest))
        yield f"long-{total}", file_of([(0x400000, ONE_AT, length)], rest)
        yield f"long-{total}-total-{MOST_BYTES}", file_of([(0x400000, ONE_AT, length)], rest, total=MOST_BYTES)
        yield f"long-{total}-one-word", file_of([(0x400000, total - 4, 4)], rest)
    yield "zeros-65535", bytes(MOST_BYTES)
    yield "zeros-65536", bytes(MOST_BYTES + 1)
    yield "ones-65535", b"\xff" * MOST_BYTES


def many_cases():
    bodies = [(0x1000 * k, packed([LOAD + k])) for k in range(MOST_SECTIONS + 1)]
    yield "sections-63", good(bodies[:63])
    yield "sections-64", good(bodies[:64])
    yield "sections-65", good(bodies)
    # Counts whose low byte is good, and as many sections as there is room for.
    for count in (257, 320, 3276):
        yield f"sections-{count}", good([(0, packed([LOAD]))] * count)
    yield "sections-65-counted-64", struct.pack("<H", 64) + good(bodies)[2:]
    whole = good(bodies[:64])
    for k in (0, 31, 63):
        at = HEADER_BYTES + RECORD_BYTES * k + 12
        yield f"sections-64-bad-{k}", whole[:at] + struct.pack("<I", 3) + whole[at + 4 :]
    large = packed([LOAD, REFUSED] * 125)
    yield "sections-64-large", good([(TOP64 - 400 + k, large) for k in range(MOST_SECTIONS)], flags=2)
    end = HEADER_BYTES + RECORD_BYTES * MOST_SECTIONS
    backwards = [(k, end + 4 * (63 - k), 4) for k in range(MOST_SECTIONS)]
    yield "sections-64-backwards", file_of(backwards, packed([LOAD] * MOST_SECTIONS))


# ── random damage ──


def near(random, length):
    """A number near the limit of some rule."""
    base = random.choose((0, 4, 8, ONE_AT, TWO_AT, 52, length, 2**16, 2**31, TOP32))
    return (base + random.below(17) - 8) % TOP32


def damaged(random, whole):
    made = bytearray(whole)
    for _ in range(1 + random.below(3)):
        way = random.below(4)
        if way == 0:
            made[random.below(min(len(made), TWO_AT))] = random.below(256)
        elif way == 1:
            made[random.below(len(made))] ^= 1 << random.below(8)
        elif way == 2:
            # The numbers of 32 bits: the total, and offset and length of either record.
            struct.pack_into("<I", made, random.choose((4, 16, 20, 32, 36)), near(random, len(made)))
        else:
            made = made[: TWO_AT + random.below(len(made))] + bytes(random.below(5))
            struct.pack_into("<I", made, 4, len(made))
    return bytes(made)


def random_cases():
    random = Splitmix(SEED)
    five = good([(k, packed([LOAD] * k)) for k in range(1, 6)], flags=1)
    wholes = [two((40, 12), (52, 12)), two((44, 4), (50, 8), flags=3), one(), five]
    for k in range(RANDOM_CASES):
        yield f"random-{k}", damaged(random, random.choose(wholes))


# ── words of every class ──


def real_words(root):
    """The words of the kept answers, which have every class and every refusal, and then some with fields changed."""
    kept = [each.question.word for each in vectors.answers(root)]
    words = sorted(set(kept))
    random = Splitmix(SEED)
    while len(words) < REAL_WORDS:
        words.append(random.choose(kept) ^ random.below(2**26) & random.below(2**26))
    # Branches and other words are mixed, so that sections differ.
    for k in range(len(words) - 1, 0, -1):
        other = random.below(k + 1)
        words[k], words[other] = words[other], words[k]
    return words[:REAL_WORDS]


def real_cases(root):
    words = real_words(root)
    parts = len(REAL_ADDRESSES)
    quarter = REAL_WORDS // parts
    for flags in range(4):
        turned = words[flags * quarter :] + words[: flags * quarter]
        data = packed(turned, big=flags & 1)
        yield f"real-{flags}-one-section", good([(REAL_ADDRESSES[flags], data)], flags)
        size = 4 * quarter
        four = [(address, data[k * size : (k + 1) * size]) for k, address in enumerate(REAL_ADDRESSES)]
        yield f"real-{flags}-four-sections", good(four, flags)


def sample_cases(root):
    for path in sorted((root / "samples").glob("*.sec")):
        yield f"sample-{path.stem}", path.read_bytes()


def cases(root):
    """Name and bytes of every case; no name occurs twice."""
    root = Path(root)
    parts = (
        sample_cases(root), header_cases(), offset_cases(), length_cases(), address_cases(), two_cases(), cut_cases(),
        long_cases(), many_cases(), random_cases(), real_cases(root),
    )  # fmt: skip
    return [case for part in parts for case in part]
