#!/usr/bin/env python3
"""Read the manual's pages from crates/manual/specs (Page.antt, Formats.antt, Pages.antt), by tests/antt.py.

    pages.py REPOSITORY

prints the table, a page a line: name, MIPS32 or MIPS64 alone, mask and value of the fixed bits, fields, operands of the
Format lines, Restrictions. What the constructors of Page.antt mean is written here a second time, from that file's
comments.
"""
import sys
from pathlib import Path

sys.path.append(str(Path(__file__).resolve().parents[1]))

from antt import FIELDS as COLUMNS  # noqa: E402
from antt import constructors_of, parts, value_of  # noqa: E402

MIPS32, MIPS64 = "MIPS32", "MIPS64"
WORD_BITS, HALF_BITS, WORD_BYTES = 32, 16, 4
INSIDE_LIMIT = 32  # the relation `inside` counts up to here
REGION_BITS = 28  # a jump changes this many bits of the address
ADDRESSES = 2**64


# ── the table ──


def pages_of(repository):
    """The pages in the table's order."""
    for data, known in MEANT.items():
        found = set(constructors_of(repository, "manual/specs/Page.antt", data))
        if found != known:
            sys.exit(f"{data} of Page.antt has other constructors than this reader: {found ^ known}")
    names = constructors_of(repository, "manual/specs/Page.antt", "Name")
    return [Page(record, names) for record in value_of(repository, "manual/specs/Pages.antt", "pages")]


# ── what a page means ──


def pieces_of(column, low, width):
    """The fixed bits of a column as mask and value, and its piece of a field as (name, top bit, lowest bit)."""
    head, *arguments = column
    every = 2**width - 1 << low
    top = low + width - 1
    if head == "is":
        return every, arguments[0] << low, None
    if head == "box":
        return 0, 0, (arguments[0], top, low)
    if head == "over":
        name, below, value = arguments
        return 2**below - 1 << low, value << low, (name, top, low + below)
    value, below, name = arguments
    return every & ~(2**below - 1 << low), value << low + below, (name, low + below - 1, low)


def place(word, column):
    low, width = COLUMNS[column]
    return word >> low & 2**width - 1


def tests_of(tests):
    """Each test as (column, is it `in`?, numbers)."""
    return [(column, sign == "one_of", set(values)) for sign, column, values in tests]


def meets(tests, word):
    return all((place(word, column) in numbers) == inside for column, inside, numbers in tests)


RELATIONS = {
    "rs_is_rd": lambda rs, rt, rd, sa: rs == rd,
    "rt_is_rd": lambda rs, rt, rd, sa: rt == rd,
    "inside": lambda rs, rt, rd, sa: sa + rd + 1 <= INSIDE_LIMIT,
    "ordered": lambda rs, rt, rd, sa: sa <= rd,
}


def related(relation, word):
    return RELATIONS[relation](*(place(word, column) for column in ("rs", "rt", "rd", "sa")))


def signed(value):
    return value - 2**HALF_BITS if value >> HALF_BITS - 1 else value


class Page:
    """A page: its record, and the fixed bits and fields that its drawing has."""

    def __init__(self, record, names):
        self.name = record["name"]
        self.isa = record["isa"]
        self.formats = [(tests_of(line["when"]), [parts(arg) for arg in line["args"]]) for line in record["formats"]]
        self.tests = tests_of(record["limit"]["tests"])
        self.claims = [(sign == "holds", relation) for sign, relation in record["limit"]["claims"]]
        self.mask = self.value = 0
        self.pieces = []  # from the top bit down
        for column, (low, width) in COLUMNS.items():
            mask, value, piece = pieces_of(record["p" + column], low, width)
            self.mask |= mask
            self.value |= value
            self.pieces += [piece] if piece else []
        unknown = {name for name, _, _ in self.pieces}.difference(names)
        assert not unknown, f"{self.name}: no such field: {unknown}"

    def drawn(self, word):
        return word & self.mask == self.value

    def allowed(self, word):
        """Do its Restrictions hold, and is one of its Format lines for the word?"""
        held = meets(self.tests, word) and all(related(relation, word) == wanted for wanted, relation in self.claims)
        return held and any(meets(tests, word) for tests, _ in self.formats)

    def field(self, word, name):
        """The field's columns side by side."""
        found = 0
        for piece, top, low in self.pieces:
            if piece == name:
                width = top - low + 1
                found = found << width | word >> low & 2**width - 1
        return found

    def args(self, word):
        """The operands of the first Format line that is for the word."""
        return next((args for tests, args in self.formats if meets(tests, word)), [])

    def operands(self, word, address):
        return [self.operand(arg, word, address) for arg in self.args(word)]

    def operand(self, arg, word, address):
        """(mark, number) for a register, ("#", number), ("mem", offset, base), ("indexed", index, base) or
        ("to", address)."""
        head, *rest = arg
        if head in BY_FIELDS:
            return BY_FIELDS[head](self, word, address)
        return OPERANDS[head](*(part if isinstance(part, int) else self.field(word, part) for part in rest))


# operands of one or two fields, as they are printed: a register's number after a mark, or a number
OPERANDS = {
    "gpr": lambda value: ("$", value),
    "fpr": lambda value: ("$f", value),
    "fcr": lambda value: ("$", value),
    "hwr": lambda value: ("$", value),
    "cp0": lambda value: ("$", value),
    "cp2": lambda value: ("$", value),
    "unsigned": lambda value: ("#", value),
    "signed16": lambda value: ("#", signed(value)),
    "plus": lambda more, value: ("#", value + more),
    "span": lambda more, last, first: ("#", last + more - first + 1),
}


def branch_target(address, offset):
    return (address + WORD_BYTES + WORD_BYTES * signed(offset)) % ADDRESSES


def jump_target(address, index):
    return (address + WORD_BYTES) % ADDRESSES >> REGION_BITS << REGION_BITS | WORD_BYTES * index


# operands that are always made of the same fields
BY_FIELDS = {
    "offset_base": lambda page, word, address: ("mem", signed(page.field(word, "Offset")), page.field(word, "Base")),
    "index_base": lambda page, word, address: ("indexed", page.field(word, "Index"), page.field(word, "Base")),
    "pc_relative": lambda page, word, address: ("to", branch_target(address, page.field(word, "Offset"))),
    "in_region": lambda page, word, address: ("to", jump_target(address, page.field(word, "InstrIndex"))),
}


# the constructors that have a meaning here: a new one must not go unnoticed
MEANT = {
    "Column": {"is", "box", "over", "under"},
    "Arg": {*OPERANDS, *BY_FIELDS},
    "Relation": set(RELATIONS),
    "Claim": {"holds", "fails"},
    "Isa": {MIPS32, MIPS64},
}


# ── the table as text ──


def fields_text(page):
    """Fields with their bits; columns of one field that touch are one range."""
    found = []
    for name, top, low in page.pieces:
        if found and found[-1][0] == name and found[-1][2] == top + 1:
            found[-1][2] = low
        else:
            found.append([name, top, low])
    return ", ".join(f"{name} {top}..{low}" for name, top, low in found) or "none"


def arg_text(arg):
    return " ".join(map(str, arg))


def tests_text(tests):
    return [f"{column} {'in' if inside else 'not in'} {sorted(numbers)}" for column, inside, numbers in tests]


def format_text(tests, args):
    when = " and ".join(tests_text(tests))
    operands = ", ".join(arg_text(arg) for arg in args) or "no operands"
    return f"{operands} if {when}" if when else operands


def limit_text(page):
    claims = [relation if wanted else f"not {relation}" for wanted, relation in page.claims]
    return " and ".join(tests_text(page.tests) + claims) or "none"


def page_text(page):
    formats = "; else ".join(format_text(*line) for line in page.formats)
    head = f"{page.name:9} {page.isa} {page.mask:08x} {page.value:08x}"
    return f"{head} | {fields_text(page)} | {formats} | {limit_text(page)}"


if __name__ == "__main__":
    for each in pages_of(sys.argv[1]):
        print(page_text(each))
