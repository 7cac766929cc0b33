#!/usr/bin/env python3
"""Compare the named differences between the manuals and the Rust, as crates/manual/specs has them, with
docs/DIFFERENCES.md, with docs/PATCHING.md and with the Rust: the example of each, and words drawn at random from those
that it covers.

    check.py REPOSITORY ORACLE

ORACLE is the driver of tests/oracle. antt.py reads the specs, with their own abbreviations and relations; what a test,
a claim and a page's drawing mean is written here a second time.
"""
import collections
import itertools
import operator
import random
import re
import subprocess
import sys
from pathlib import Path

sys.path.append(str(Path(__file__).resolve().parents[1]))

from antt import (  # noqa: E402
    FIELDS,
    constructors_of,
    demand,
    evaluate,
    fields_of,
    kinds_of,
    mnemonic,
    parsed,
    rows_of,
    text_of,
    value_of,
)

DOCUMENT = "docs/DIFFERENCES.md"
PATCHING = "docs/PATCHING.md"

# How many values each field can have.
ROOM = {x: 2**width for x, (_, width) in FIELDS.items()}

# The width flags under which words count, and pages.
FLAGS = {"either": (False, True), "on": (True,), "off": (False,)}
BOOKS = {"MIPS32": (False, True), "MIPS64": (True,)}

# Otherwise an entry that is lost both from the specs and from the document would go unnoticed.
ENTRIES = 75
# The lists of the specs, in the order of the document's lists; no page defines the words of the last.
LISTS = ("refused_words", "other_readings", "reserved_words")
# The entry whose mnemonics have neither a page nor an alias.
WITHOUT_PAGE = "reserved_format"
# The entry that depends on the address, and the example that crates/manual/specs/Tight.antt has for it.
PAST_PC = "target_past_pc"
PAST_WORD, PAST_ADDRESS = 0x04000000, 0xFFFFFFFC
# The entry of the last list whose words are other instructions of a manual.
WITHOUT_FLAG = "mips64_without_flag"

# This many words for each entry and flag, if this many draws bring up as many: of a small entry every word is drawn.
WORDS_EACH = 400
DRAWS = 4000
SEED = 75
# A field that may have at most this many values is tried with each of them, in corners.
FEW = 16


def shown(word, wide):
    return f"word 0x{word:08x}, flag {'on' if wide else 'off'}"


# ── sets of words ──


def word_of(fields):
    return sum(fields[x] << low for x, (low, _) in FIELDS.items())


class Relations:
    """How two fields can be related, as crates/manual/specs/Page.antt says it."""

    def __init__(self, repository):
        text = text_of(repository, "crates/manual/specs/Page.antt")
        self.bodies = dict(re.findall(r"^related (\S+) f = (.*)$", text, re.M))

    def fields(self, name):
        return {x for x in FIELDS if re.search(rf"\bf {x}\b", self.bodies[name])}

    def holds(self, name, fields):
        local = {"f": fields.get, "eqb": operator.eq, "leb": operator.le}
        return evaluate(parsed(self.bodies[name]), {}, local)


class Words:
    """Words by the values that each field may have, and by those that the fields of the claims may have together."""

    def __init__(self, flags, tests, claims, relations):
        self.flags = flags
        self.allowed = {x: range(ROOM[x]) for x in FIELDS}
        for sign, x, values in tests:
            self.allowed[x] = [v for v in self.allowed[x] if (v in values) == (sign == "one_of")]
        tied = set().union(*(relations.fields(relation) for _, relation in claims))
        self.tied = [x for x in FIELDS if x in tied]
        together = itertools.product(*(self.allowed[x] for x in self.tied))
        self.together = [vs for vs in together if self.claimed(claims, relations, vs)]
        self.empty = not self.together or not all(self.allowed.values())
        # Membership is asked for often.
        self.values = {x: frozenset(self.allowed[x]) for x in FIELDS}
        self.tuples = frozenset(self.together)

    def claimed(self, claims, relations, values):
        fields = dict(zip(self.tied, values))
        return all(relations.holds(relation, fields) == (claim == "holds") for claim, relation in claims)

    def has(self, fields):
        allowed = all(fields[x] in self.values[x] for x in FIELDS)
        return allowed and tuple(fields[x] for x in self.tied) in self.tuples

    def smallest(self):
        """Each field can be made least by itself, except those that a claim ties together."""
        least = {x: min(self.allowed[x]) for x in FIELDS}
        return min(word_of({**least, **dict(zip(self.tied, values))}) for values in self.together)

    def draw(self, source):
        fields = {x: source.choice(self.allowed[x]) for x in FIELDS}
        fields.update(zip(self.tied, source.choice(self.together)))
        return word_of(fields)

    def corners(self):
        """Words with the first and last value of each field, or with every value where they are few: random words could
        miss a function, or register zero."""
        ends = [vs if len(vs) <= FEW else (vs[0], vs[-1]) for vs in self.allowed.values()]
        for values, tied in itertools.product(itertools.product(*ends), (self.together[0], self.together[-1])):
            yield word_of({**dict(zip(FIELDS, values)), **dict(zip(self.tied, tied))})


class Places:
    """Named sets of words, and which of them have a word. They are found by op and funct, since there are many
    questions."""

    def __init__(self, named_sets):
        self.places = collections.defaultdict(list)
        for name, words in named_sets:
            for place in itertools.product(words.allowed["op"], words.allowed["funct"]):
                self.places[place].append((name, words))

    def names(self, word, wide):
        """In the order in which they were given, each once."""
        fields = fields_of(word)
        near = self.places[fields["op"], fields["funct"]]
        return list(dict.fromkeys(name for name, words in near if wide in words.flags and words.has(fields)))


# ── the entries ──


class Entry:
    def __init__(self, title, difference, relations):
        self.list = title
        self.name = difference["exception"]
        self.word = difference["example"]["word"]
        self.wide = difference["example"]["wide"] == "true"
        self.sets = []
        for words in difference["words"]:
            rules = words["rules"]
            self.sets.append(Words(FLAGS[words["flag"]], rules["tests"], rules["claims"], relations))
        self.demand(not any(words.empty for words in self.sets), "one of its sets has no words")
        answer, content = difference["answer"]
        self.refusal = f"refused {content}" if answer == "refused" else None
        # The field that is left out of what the page has, if nothing else differs.
        self.dropped = content if answer == "drops" else None
        sorts = content if answer == "reads" else []
        self.mnemonics = {mnemonic(kind) for sort in sorts for kind in sort["kinds"]}

    def demand(self, holds, message):
        demand(holds, self.name, message)

    def under(self, wide):
        return [words for words in self.sets if wide in words.flags]

    def fits(self, answer, page):
        """Is the answer what the entry says about a word, which is on that page or on none?"""
        allowed = {page} if self.dropped else self.mnemonics
        return answer == self.refusal if self.refusal else answer.split(" ")[0] in allowed

    def said(self):
        dropped = f"the page's name, without {self.dropped}" if self.dropped else None
        return self.refusal or dropped or "one of " + ", ".join(sorted(self.mnemonics))


def entries_of(repository):
    path = "manual/specs/Exceptions.antt"
    relations = Relations(repository)
    lists = {name: value_of(repository, path, name) for name in LISTS}
    together = list(itertools.chain(*lists.values()))
    differences = value_of(repository, path, "differences")
    demand(differences == together, "differences", f"not the lists {', '.join(LISTS)}")
    return [Entry(name, difference, relations) for name, differences in lists.items() for difference in differences]


def check_constructors(repository, entries):
    """Each constructor of `Exception` has one entry."""
    constructors = collections.Counter(constructors_of(repository, "manual/specs/Exceptions.antt", "Exception"))
    named_by = collections.Counter(entry.name for entry in entries)
    for name in {**constructors, **named_by}:
        demand(constructors[name] == 1, name, f"{constructors[name]} constructors of Exception")
        demand(named_by[name] == 1, name, f"{named_by[name]} entries")
    demand(len(constructors) == ENTRIES, "Exception", f"{len(constructors)} constructors, not {ENTRIES}")


def check_smallest(entry):
    covered = [words.smallest() for words in entry.under(entry.wide)]
    entry.demand(covered, f"{shown(entry.word, entry.wide)} is its example, but it has no words under that flag")
    least = shown(min(covered), entry.wide)
    entry.demand(min(covered) == entry.word, f"its example is 0x{entry.word:08x}, its smallest {least}")


# ── the document ──

# An entry of the document. Only the one that depends on the address shows an address.
Item = collections.namedtuple("Item", "number name words word address flag manual rust here")
# Its lines, from its name on, with those that are indented.
ITEM_LINES = re.compile(r"^- \*\*D.*(?:\n  .*)*", re.M)
# The same with each point on one line: the words that it covers, the smallest of them, the answer to all of them.
ITEM = re.compile(
    r"- \*\*D(\d+) `([\w-]+)`\*\*: (.+)\n"
    r"- smallest word: `0x([0-9a-f]{8})`(?: at `0x([0-9a-f]+)`)?(?:, flag (on|off))?; manual: (.+); Rust: (.+)\n"
    r"- here: (.+)"
)
# A row of docs/PATCHING.md's two tables of what comes back: of differences, and of words on which the manual agrees.
BACK_ROW = re.compile(r"\| D(\d+) \| ([^|]*) \| ([^|]*) \| [^|]* \|")
SAME = "the same"
SWAP_ROW = re.compile(
    r"\| `([\w-]+)` \| `([\w.]+)` \| `([\w.]+)` \| (all|below 0x8000)"
    r" \| `0x([0-9a-f]{8})`(?:, flag (on))? \| `0x([0-9a-f]{8})` \| [^|]* \|"
)


def item_of(lines):
    joined = re.sub(r"\n +(?! |- )", " ", lines)
    found = ITEM.fullmatch(re.sub(r"\n +", "\n", joined))
    demand(found, DOCUMENT, f"an entry that cannot be read: {lines}")
    return Item(*found.groups())


def items_of(repository):
    """The entries below each heading that has any."""
    text = text_of(repository, DOCUMENT)
    sections = re.split(r"^#.*$", text, flags=re.M)
    items = [[item_of(lines) for lines in ITEM_LINES.findall(section)] for section in sections]
    named = len(re.findall(r"\*\*D\d", text))
    many = sum(map(len, items))
    demand(named == many, DOCUMENT, f"{named} numbers of differences in bold, but {many} entries")
    return [below for below in items if below]


def apart(items):
    """The lists of entries without those that depend on the address, and these."""
    lists = [[item for item in below if not item.address] for below in items]
    return [below for below in lists if below], [item for item in itertools.chain(*items) if item.address]


def check_lists(entries, lists):
    demand(len(lists) == len(LISTS), DOCUMENT, f"{len(lists)} lists of differences, not {len(LISTS)}")
    for title, items in zip(LISTS, lists):
        names = [entry.name for entry in entries if entry.list == title]
        for ours, theirs in itertools.zip_longest(names, (item.name for item in items), fillvalue="nothing"):
            demand(ours == theirs, title, f"{ours} in the specs, {theirs} in {DOCUMENT}")


def check_item(number, entry, item, pages):
    entry.demand(int(item.number) == number, f"D{item.number} in {DOCUMENT}, not D{number}")
    example = shown(entry.word, entry.wide)
    theirs = shown(int(item.word, 16), item.flag == "on")
    entry.demand(theirs == example, f"{theirs} in {DOCUMENT}, not {example}")
    entry.demand(item.here == entry.refusal or not entry.refusal, f"`here` has {item.here}, not {entry.refusal}")
    # In the last list no page has the word, as check_answers finds.
    if entry.list != LISTS[-1]:
        page = re.sub(r"^`([\w.]+).*", r"\1", item.manual)
        entry.demand(pages.names(entry.word, entry.wide)[:1] == [page], f"{example} is not on the page {page}")


def check_past(repository, oracle, items):
    """The entry that depends on the address has its number, its example and the Rust's answer."""
    demand(len(items) == 1, PAST_PC, f"{len(items)} entries with an address in {DOCUMENT}")
    (item,) = items
    demand((int(item.number), item.name) == (ENTRIES + 1, PAST_PC), PAST_PC, f"D{item.number} `{item.name}`")
    example = (int(item.word, 16), int(item.address, 16), item.flag)
    theirs = f"0x{item.word} at 0x{item.address}, flag {item.flag}"
    demand(example == (PAST_WORD, PAST_ADDRESS, "off"), PAST_PC, f"{theirs} in {DOCUMENT}")
    specs = f"{PAST_PC} 0x{PAST_WORD:08x} 0x{PAST_ADDRESS:08x} false"
    tight = "crates/manual/specs/Tight.antt"
    demand(specs in text_of(repository, tight), PAST_PC, f"`{specs}` is not in {tight}")
    (answer,) = answers_of(oracle, [(PAST_WORD, False)], PAST_ADDRESS)
    demand(item.rust == f"`{answer}`", PAST_PC, f"the Rust answers {answer}, {DOCUMENT} has {item.rust}")


# ── the Rust ──


def words_of(entry, wide, source):
    """Words that the entry covers under the flag, each once: its corners, and others at random."""
    sets = entry.under(wide)
    found = {}
    for _ in range(DRAWS if sets else 0):
        found[source.choice(sets).draw(source)] = True
        if len(found) == WORDS_EACH:
            break
    return list(dict.fromkeys([*found, *itertools.chain(*(words.corners() for words in sets))]))


def asked_of(oracle, mode, questions, address=0):
    """The driver's lines, for each word with its flag."""
    lines = "".join(f"{wide:d} {address:x} {word:08x}\n" for word, wide in questions)
    run = subprocess.run([oracle, mode], input=lines, stdout=subprocess.PIPE, text=True, check=True)
    return run.stdout.splitlines()


def answers_of(oracle, questions, address=0):
    """The listing line, or `refused` with its number, for each word with its flag."""
    answers = [line.split(" ", 2) for line in asked_of(oracle, "text", questions, address)]
    answered = [int(word, 16) for _, word, _ in answers]
    demand(answered == [word for word, _ in questions], "oracle", "it answers other words")
    return [answer for _, _, answer in answers]


def objection(entry, word, wide, answer, covering, pages):
    """What is wrong about a word of an entry, if anything: it is not covered once, it has a page where it should not or
    none where it should, or it is answered otherwise."""
    covered = covering.names(word, wide)
    if covered != [entry.name]:
        return f"covered by {', '.join(covered) or 'no entry'}"
    # With the flag off, MIPS32 has no page for some words of the middle list; they are there for their pages of MIPS64.
    on = pages.names(word, wide or entry.list == LISTS[1])
    if bool(on) != (entry.list != LISTS[-1]):
        return f"on {'the page ' + on[0] if on else 'no page'}, but in {entry.list}"
    fits = entry.fits(answer, on[0] if on else None)
    return None if fits else f"the Rust answers {answer}, the entry says {entry.said()}"


def check_answers(oracle, entries, items, covering, pages):
    """How many words were compared besides the examples."""
    source = random.Random(SEED)
    asked = [(entry, entry.word, entry.wide) for entry in entries]
    for entry, wide in itertools.product(entries, (False, True)):
        asked += [(entry, word, wide) for word in words_of(entry, wide, source)]
    answers = answers_of(oracle, [(word, wide) for _, word, wide in asked])
    # The examples come first.
    for item, (entry, word, wide), answer in zip(items, asked, answers):
        ours = answer if answer.startswith("refused ") else f"`{answer}`"
        message = f"{shown(word, wide)}: the Rust answers {ours}, {DOCUMENT} has {item.rust}"
        entry.demand(item.rust == ours, message)
    for (entry, word, wide), answer in zip(asked, answers):
        found = objection(entry, word, wide, answer, covering, pages)
        if found:
            sys.exit(f"{entry.name}: {shown(word, wide)}: {found}")
    return len(asked) - len(entries)


# ── what comes back ──


def backs_of(oracle, questions):
    """The smallest word that the Rust reads alike, for each accepted word with its flag."""
    lines = [line.split(" ") for line in asked_of(oracle, "back", questions)]
    answered = [int(word, 16) for _, _, word, _ in lines]
    demand(answered == [word for word, _ in questions], "oracle", "it answers other words")
    return [int(back, 16) for _, _, _, back in lines]


def moved_pages(oracle, entry, pages, source):
    """The pages of the entry's words that do not come back as themselves, and the pages of what comes back. For an
    entry whose words no page of the flag's manual defines, MIPS64's pages count."""
    asked = [(word, wide) for wide in (False, True) for word in words_of(entry, wide, source)]
    before, after = set(), set()
    for (word, _), back in zip(asked, backs_of(oracle, asked)):
        if back != word:
            before.update(pages.names(word, True)[:1])
            after.update(pages.names(back, True)[:1])
    return before, after


def back_rows(text):
    """The rows of docs/PATCHING.md's table of differences, by number: what goes in, and what comes back."""
    rows = (found.groups() for found in map(BACK_ROW.fullmatch, text.splitlines()) if found)
    return {int(number): [before, before if after == SAME else after] for number, before, after in rows}


def check_backs(repository, oracle, entries, pages):
    """docs/PATCHING.md lists the differences whose words come back as another instruction of a manual or without a
    field."""
    listed = back_rows(text_of(repository, PATCHING))
    source = random.Random(SEED)
    for number, entry in enumerate(entries, 1):
        if entry.list != LISTS[1] and entry.name != WITHOUT_FLAG:
            entry.demand(number not in listed, f"{PATCHING} has a row for it")
            continue
        moved = moved_pages(oracle, entry, pages, source)
        ours = [", ".join(f"`{name}`" for name in sorted(names)) for names in moved]
        theirs = listed.get(number, ["", ""])
        back = f"{ours[0] or 'no page'} comes back as {ours[1] or 'no other'}"
        entry.demand(ours == theirs, f"{back}, {PATCHING} has {theirs}")
    return len(listed)


def check_swaps(repository, oracle, pages):
    """docs/PATCHING.md lists the swaps of the specs: words on which the manual agrees, and that come back as others."""
    text = text_of(repository, PATCHING)
    listed = [found.groups() for found in map(SWAP_ROW.fullmatch, text.splitlines()) if found]
    swaps = value_of(repository, "manual/specs/Patching.antt", "swaps")
    for swap, row in itertools.zip_longest(swaps, listed):
        demand(swap and row, "swaps", f"{len(swaps)} in the specs, {len(listed)} in {PATCHING}")
        word, wide = swap["example"]["word"], swap["example"]["wide"] == "true"
        back = word_of({**fields_of(word), **dict(swap["back"])})
        names = (swap["swapped"], swap["page"], swap["read_as"], swap["range"].replace("_", " ", 1))
        ours = (*names, f"{word:08x}", "on" if wide else None, f"{back:08x}")
        demand(ours == row, swap["swapped"], f"{row} in {PATCHING}, {ours} in the specs")
        demand(pages.names(word, wide)[:1] == [swap["page"]], swap["swapped"], f"0x{word:08x} is not on its page")
        comes_back = backs_of(oracle, [(word, wide)]) == [back]
        demand(comes_back, swap["swapped"], f"0x{word:08x} does not come back as 0x{back:08x}")
    return len(swaps)


# ── pages, rows and names ──


def column_test(field, column):
    """What a column of a page's drawing asks of its field."""
    sign, *parts = column
    tests = {
        "is": lambda v: lambda a: a == v,
        "box": lambda name: lambda a: True,
        "over": lambda name, k, v: lambda a: a % 2**k == v,
        "under": lambda v, k, name: lambda a: a // 2**k == v,
    }
    return "one_of", field, list(filter(tests[sign](*parts), range(ROOM[field])))


def pages_of(repository):
    """The name and the words of each page."""
    relations = Relations(repository)
    found = []
    for page in value_of(repository, "manual/specs/Pages.antt", "pages"):
        tests = [column_test(x, page["p" + x]) for x in FIELDS] + page["limit"]["tests"]
        found.append((page["name"], Words(BOOKS[page["isa"]], tests, page["limit"]["claims"], relations)))
    return found


def tells(item, page):
    """Is every part of the page's name in the entry? Its `compares` stand for the names that begin with `c.`."""
    words = set(re.findall(r"\w+", f"{item.manual} {item.words}"))
    parts = page.split(".")
    if parts[0] == "c" and "compares" in words:
        parts = parts[2:]
    return words.issuperset(parts)


def check_pages(pages, rows, documented, covering):
    """A page without a row is a difference of the first two lists, and named there."""
    for page, words in pages:
        if page in rows:
            continue
        word, wide = words.smallest(), words.flags[0]
        found = covering.names(word, wide)
        example = shown(word, wide)
        demand(found and found[0] in documented, page, f"a page without a row, {example}, but not a difference")
        demand(tells(documented[found[0]], page), found[0], f"{DOCUMENT} does not name {page}, {example}")


def check_rows(repository, pages, rows, entries):
    """A row has a page or is an alias, except in the reserved formats."""
    aliases = {alias["alias"] for alias in value_of(repository, "manual/specs/Aliases.antt", "aliases")}
    without = rows - aliases - {page for page, _ in pages}
    said = set().union(*(entry.mnemonics for entry in entries if entry.name == WITHOUT_PAGE))
    differ = ", ".join(sorted(without ^ said))
    demand(not differ, WITHOUT_PAGE, f"its mnemonics are not those that have neither a page nor an alias: {differ}")


def check_names(repository, entries):
    """How many mnemonics there are, if the names are in the order of the kinds."""
    kinds = kinds_of(repository)
    expected = [mnemonic(name) for name, _ in kinds]
    for place, (name, number) in enumerate(kinds):
        demand(int(number) == place, name, f"kind {number}, not {place}")
    names = value_of(repository, "reading/specs/Names.antt", "mnemonics")
    for place, (ours, theirs) in enumerate(itertools.zip_longest(names, expected)):
        demand(ours == theirs, "mnemonics", f"{ours} is in the place of kind {place}, {theirs}")
    for entry in entries:
        unknown = entry.mnemonics - set(names)
        demand(not unknown, entry.name, f"not mnemonics: {', '.join(sorted(unknown))}")
    return len(names)


def main():
    repository, oracle = sys.argv[1:]
    entries, pages = entries_of(repository), pages_of(repository)
    lists, past = apart(items_of(repository))
    covering = Places((entry.name, words) for entry in entries for words in entry.sets)
    drawings = Places(pages)
    check_constructors(repository, entries)
    check_lists(entries, lists)
    documented = list(itertools.chain(*lists))
    for number, (entry, item) in enumerate(zip(entries, documented), 1):
        check_smallest(entry)
        check_item(number, entry, item, drawings)
    # The mnemonics that have a row in the table of classes.
    rows = {mnemonic(row["kind"]) for wide in (False, True) for row in rows_of(repository, wide)}
    check_pages(pages, rows, {item.name: item for item in itertools.chain(*lists[:-1])}, covering)
    check_rows(repository, pages, rows, entries)
    names = check_names(repository, entries)
    check_past(repository, oracle, past)
    backs = check_backs(repository, oracle, entries, drawings)
    swaps = check_swaps(repository, oracle, drawings)
    words = check_answers(oracle, entries, documented, covering, drawings)
    print(
        f"{len(entries)} entries with their smallest words and one at its address, {words} more words, "
        f"{len(pages)} pages, {names} mnemonics; {backs} entries and {swaps} pages whose words come back otherwise"
    )


if __name__ == "__main__":
    main()
