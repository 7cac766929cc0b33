#!/usr/bin/env python3
"""Make the statements that are put to the assembler: the same list on every run.

    statements.py REPOSITORY FOLDER

writes to FOLDER statements-64.s, with all pages, and statements-32.s, with those that are not MIPS64's alone: for each
word a line with the page's name, the operands of its Format line, and the word as a comment.
"""
import collections
import itertools
import re
import sys

from compare import LEFT_OUT, SPELLINGS, Reading, by_page, distance
from pages import COLUMNS, MIPS32, RELATIONS, WORD_BITS, meets, pages_of, related
from words import SEED, Random, allowed_word, words_of, words_of_cell

PER_NUMBERS = 3  # words for every choice of numbers in the columns that a Restriction is about
ARCHITECTURES = ("64", "32")
# The assembler must not insert or move anything. The statements come after these lines.
DIRECTIVES = ("\t.set noreorder", "\t.set nomacro", "\t.set noat")

# ── Restrictions, part by part ──

# what a Restriction asks for, under the name of the field that it is about, or of the relation; `kept` says whether a
# word keeps it
Part = collections.namedtuple("Part", "name columns kept")

# the columns that a relation is about
RELATED = {"rs_is_rd": ("rs", "rd"), "rt_is_rd": ("rt", "rd"), "inside": ("rd", "sa"), "ordered": ("rd", "sa")}
assert set(RELATED) == set(RELATIONS), "RELATED has other relations than pages.py"


def field_in(page, column):
    """The field that the page draws in the column."""
    low, width = COLUMNS[column]
    return next(name for name, top, bottom in page.pieces if low <= bottom and top < low + width)


def part_of_test(page, test):
    return Part(field_in(page, test[0]), test[:1], lambda word: meets([test], word))


def part_of_claim(claim):
    wanted, relation = claim
    return Part(relation, RELATED[relation], lambda word: related(relation, word) == wanted)


def parts_of(page):
    """The page's Restrictions. A word that keeps all of them is allowed."""
    return [part_of_test(page, test) for test in page.tests] + [part_of_claim(claim) for claim in page.claims]


# ── the words ──


def words_around(page, part, random):
    """Every choice of numbers in the columns that the part is about, each in words that are otherwise allowed."""
    for numbers in itertools.product(*(range(2 ** COLUMNS[column][1]) for column in part.columns)):
        others = [allowed_word(page, random) for _ in range(PER_NUMBERS)]
        yield from words_of_cell(part.columns, numbers, others)


def words_asked(page, parts):
    """The words of words.py and those around the page's Restrictions, as far as the page draws them, without
    repetitions."""
    random = Random(~SEED ^ page.mask << WORD_BITS ^ page.value)
    around = (words_around(page, part, random) for part in parts)
    return dict.fromkeys(filter(page.drawn, itertools.chain(words_of(page), *around)))


# ── the text ──

RUN = "binutils-64"
# In these matters the assembler reads what objdump prints; otherwise a statement is as the manual has it.
SPELLED = {"cc-as-fcc", "cc-as-cc", "code-printed", "code-in-halves", "div-of-three", "impl-as-register"}
assert SPELLED <= {rule.name for rule in SPELLINGS}, "SPELLED has rules that compare.py lacks"
SPELLINGS_OF = by_page([rule for rule in SPELLINGS if rule.name in SPELLED], RUN)
# What objdump leaves out of a page has no statement either.
LEFT_OUT_OF = by_page(LEFT_OUT, RUN)
ORIGIN = 0  # the address that every statement is taken to have


def has_statement(page, word):
    return not any(rule.when(page, word) for rule in LEFT_OUT_OF[page.name])


def operand_text(part, is_branch):
    head, *rest = part
    if head == "mem":
        return f"{rest[0]}(${rest[1]})"
    if head == "indexed":
        return f"${rest[0]}(${rest[1]})"
    if head == "to":
        # A branch is written with its distance; a jump's number is put into the word unchanged.
        return f".{distance(rest[0], ORIGIN):+d}" if is_branch else str(rest[0])
    return f"{'' if head == '#' else head}{rest[0]}"


def text_of(page, word):
    told = Reading(page.name, page.operands(word, ORIGIN))
    for rule in SPELLINGS_OF[page.name]:
        told = rule.rewrite(page, word, ORIGIN, told)
    is_branch = ("pc_relative",) in page.args(word)
    return f"{told.name} {','.join(operand_text(part, is_branch) for part in told.operands)}".strip()


# ── the statements ──

# `broken` is the part of the page's Restrictions that the word breaks, or None
Statement = collections.namedtuple("Statement", "page word broken text")
LINE = re.compile(r"\t((\S+).*) # ([0-9a-f]{8})\n")


def broken_parts(page, parts, word):
    broken = [part.name for part in parts if not part.kept(word)]
    assert bool(broken) != page.allowed(word), f"{page.name}: {word:08x} is allowed, or not, for another reason"
    return broken


def lines_of(page):
    """A word that breaks two parts of a Restriction is left out: it shows neither."""
    parts = parts_of(page)
    for word in words_asked(page, parts):
        if len(broken_parts(page, parts, word)) < 2 and has_statement(page, word):
            yield f"\t{text_of(page, word)} # {word:08x}\n"


def read_statements(path, pages):
    """The statements of a file, in the order of its lines."""
    named = {page.name: (page, parts_of(page)) for page in pages}
    with open(path, encoding="ascii") as file:
        lines = [LINE.fullmatch(line) for line in file][len(DIRECTIVES) :]
    for text, name, word in (line.groups() for line in lines):
        page, parts = named[name]
        broken = broken_parts(page, parts, int(word, 16))
        yield Statement(page, int(word, 16), broken[0] if broken else None, text)


def pages_as(bits, pages):
    """The pages of one architecture."""
    return [page for page in pages if bits == "64" or page.isa == MIPS32]


def main():
    repository, folder = sys.argv[1:]
    pages = pages_of(repository)
    lines = {page.name: list(lines_of(page)) for page in pages}
    assert len(lines) == len(pages), "two pages have the same name"
    for bits in ARCHITECTURES:
        with open(f"{folder}/statements-{bits}.s", "w", encoding="ascii") as file:
            file.writelines(f"{directive}\n" for directive in DIRECTIVES)
            file.writelines(itertools.chain(*(lines[page.name] for page in pages_as(bits, pages))))


if __name__ == "__main__":
    main()
