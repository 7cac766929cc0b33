#!/usr/bin/env python3
"""Compare the Restrictions of the manual's pages with what the assembler of binutils refuses and warns about.

    assembler.py REPOSITORY FOLDER

FOLDER has the statements (statements.py) and what the assembler makes of them. A statement whose word keeps the page's
Restrictions must be taken silently, for exactly that word, whether the page has Restrictions or not. One whose word
breaks a Restriction must be answered as the table below says; what the assembler does not know, or cannot be asked, has
its lines there too. It prints each rule with its counts and pages, what is answered otherwise, and last a line of sums.
The exit status is 1 if a statement is answered otherwise, or if no statement needs a rule.
"""
import collections
import sys

from compare import SHOWN, always
from pages import pages_of
from statements import ARCHITECTURES, DIRECTIVES, pages_as, parts_of, read_statements, text_of
from tools import read_assembler

# what the assembler does with a statement: an error; a warning and the word; the word alone; another word
REFUSED, WARNED, TAKEN, OTHER = "refused", "warned about", "taken", "another word"
KINDS = {"Error": REFUSED, "Warning": WARNED}

# ── the rules ──
#
# For statements that break this part of a page's Restrictions (a field, or a relation of Page.antt) and that `when`
# chooses: what the assembler does, what it says, and what is broken, or why that cannot be shown.

Rule = collections.namedtuple("Rule", "name part when deed says text")


def operands_are(count):
    return lambda page, word: len(page.args(word)) == count


def size_is(test):
    """The size is the last operand."""
    return lambda page, word: test(page.operands(word, 0)[-1][1])


RULES = (
    Rule("link-register-tested", "Rs", always, REFUSED, "the source register must not be $31", "rs is 31"),
    Rule("same-register", "rs_is_rd", operands_are(2), REFUSED, "source and destination must be different", "rs is rd"),
    Rule(
        "same-register-implied", "rs_is_rd", operands_are(1), REFUSED, "a destination register must be supplied",
        "rs is rd, where the Format line leaves rd 31 out",
    ),
    Rule(
        "past-the-end", "inside", always, REFUSED, "operand 4 out of range",
        "position and size together are above 32, or 64",
    ),
    Rule(
        "size-below-0", "ordered", size_is(lambda size: size < 0), REFUSED, "operand 4 out of range",
        "the size is negative",
    ),
    Rule(
        "odd-condition-code", "Cc", always, WARNED, "condition code register should be even for {name}, was {cc}",
        "cc is odd",
    ),
    # what the assembler does not know
    Rule(
        "size-0", "ordered", size_is(lambda size: size == 0), TAKEN, None,
        "the size is 0: only a negative one is refused",
    ),
    Rule("no-control-register", "Fs", always, TAKEN, None, "a control register: any number is taken"),
    Rule("no-hardware-register", "Rd", always, TAKEN, None, "a hardware register: any number is taken"),
    # what it cannot be asked
    Rule("two-targets", "rt_is_rd", always, OTHER, None, "rt is not rd: there is one operand for both"),
    Rule("other-hint", "Hint", always, OTHER, None, "another hint: there is no operand for it"),
)


def rule_for(statement):
    """The first rule for a statement that breaks a Restriction."""
    chosen = (rule for rule in RULES if rule.part == statement.broken and rule.when(statement.page, statement.word))
    return next(chosen, None)


# ── comparing ──


def said_in(statement, text):
    """A message without the statement, which the assembler repeats after an error."""
    return text.removesuffix(f" `{statement.text}'")


def deed_of(statement, words, messages):
    """What the assembler does and says, or None if that is not of a kind that a rule can name."""
    if len(messages) == 1:
        kind, text = messages[0]
        wanted = [] if kind == "Error" else [statement.word]
        return (KINDS[kind], said_in(statement, text)) if words == wanted else None
    if messages or len(words) != 1:
        return None
    if words == [statement.word]:
        return TAKEN, None
    # The same statement means a word that the page allows.
    same = statement.page.allowed(words[0]) and text_of(statement.page, words[0]) == statement.text
    return (OTHER, None) if same else None


def wanted_of(statement, rule):
    if rule is None:
        return None if statement.broken else (TAKEN, None)
    says = rule.says and rule.says.format(name=statement.page.name, cc=statement.page.field(statement.word, "Cc"))
    return rule.deed, says


class Comparison:
    """One run: what the assembler does as one architecture, compared with what the pages ask for."""

    def __init__(self, run):
        self.run = run
        self.deeds, self.rules = collections.Counter(), collections.Counter()
        self.pages = collections.defaultdict(dict)  # of each rule, in the table's order
        self.asked, self.unexplained = set(), {}

    def add(self, statement, words, messages):
        rule = rule_for(statement)
        deed = deed_of(statement, words, messages)
        self.asked.add((statement.page.name, statement.broken))
        if deed is None or deed != wanted_of(statement, rule):
            self.deeds["unexplained"] += 1
            self.note(statement, words, messages)
        elif rule:
            self.deeds[rule.deed] += 1
            self.rules[rule.name] += 1
            self.pages[rule.name].setdefault(statement.page.name)
        else:
            self.deeds["kept"] += 1

    def note(self, statement, words, messages):
        """Keep the first statement of each page and Restriction that is answered otherwise."""
        asks = f"forbids it ({statement.broken})" if statement.broken else "allows it"
        made = " ".join(f"{word:08x}" for word in words) or "no word"
        said = "; ".join(f"{kind}: {said_in(statement, text)}" for kind, text in messages) or "nothing"
        head = f"{self.run}: {statement.text} ({statement.word:08x})"
        line = f"{head}: the page {asks}; the assembler makes {made}, and says {said}"
        self.unexplained.setdefault((statement.page.name, statement.broken), line)

    def demand_all(self, pages):
        """Of every page some statements keep its Restrictions, and some break each of them."""
        for page in pages:
            for broken in [None] + [part.name for part in parts_of(page)]:
                if (page.name, broken) not in self.asked:
                    missing = f"breaks {broken}" if broken else "keeps the Restrictions"
                    self.unexplained[page.name, broken] = f"{self.run}: {page.name}: no statement {missing}"


def compared(pages, folder, bits):
    statements = list(read_statements(f"{folder}/statements-{bits}.s", pages))
    lines = len(DIRECTIVES) + len(statements)
    answers = read_assembler(f"{folder}/assembled-{bits}.txt", f"{folder}/assembled-{bits}.messages", lines)
    found = Comparison(f"as-{bits}")
    for statement, answer in zip(statements, answers[len(DIRECTIVES) :]):
        found.add(statement, *answer)
    found.demand_all(pages_as(bits, pages))
    return found


# ── what is printed ──


def sums_text(comparison):
    deeds = comparison.deeds
    kept = f"{deeds['kept']} keep the Restrictions and are taken"
    shown = f"{deeds[REFUSED]} that break one are refused, {deeds[WARNED]} warned about"
    broken = f"{shown}, {deeds[TAKEN] + deeds[OTHER]} cannot show it"
    return f"{comparison.run}: {deeds.total()} statements, {kept}, {broken}, {deeds['unexplained']} unexplained"


def print_rules(comparisons):
    """Print each rule with its counts; give back the rules that are for no statement."""
    runs = "".join(f"{comparison.run:>9}" for comparison in comparisons)
    print(f"{'rule':23}{'the assembler':15}{runs}  what is broken, and on which pages")
    for rule in RULES:
        counts = "".join(f"{comparison.rules[rule.name] or '-':>9}" for comparison in comparisons)
        print(f"{rule.name:23}{rule.deed:15}{counts}  {rule.text}: {', '.join(comparisons[0].pages[rule.name])}")
    return [rule.name for rule in RULES if not all(comparison.rules[rule.name] for comparison in comparisons)]


def main():
    repository, folder = sys.argv[1:]
    pages = pages_of(repository)
    comparisons = [compared(pages, folder, bits) for bits in ARCHITECTURES]
    idle = print_rules(comparisons)
    for comparison in comparisons:
        for line in list(comparison.unexplained.values())[:SHOWN]:
            print("unexplained:", line)
    if idle:
        print("rules that are for no statement:", ", ".join(idle))
    print("; ".join(map(sums_text, comparisons)))
    sys.exit(1 if idle or any(comparison.unexplained for comparison in comparisons) else 0)


if __name__ == "__main__":
    main()
