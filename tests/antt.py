"""Reads the tables of the definition in crates/*/specs: for tests/definition, tests/differences and tests/manual.

Only the text is understood here: `value_of` gives a table as lists, dictionaries (records), numbers, texts, and
constructors. A constructor is its own name, in front of its arguments if it has any: `read` is "read", `is 0` is
("is", 0). What the constructors mean is written in each of the tests. Abbreviations are followed from file to file, by
the `use` lines.
"""
import collections
import functools
import itertools
import operator
import re
import sys

# The six fields of a word: lowest bit and width.
FIELDS = {"op": (26, 6), "rs": (21, 5), "rt": (16, 5), "rd": (11, 5), "sa": (6, 5), "funct": (0, 6)}


def demand(holds, name, message):
    if not holds:
        sys.exit(f"{name}: {message}")


def text_of(repository, path):
    with open(f"{repository}/{path}", encoding="utf-8") as file:
        return file.read()


def specs_of(repository, path):
    """The file's text without its comments."""
    return re.sub(r"(^|[ \t])--.*$", "", text_of(repository, f"crates/{path}"), flags=re.M)


# ── expressions, as trees ──

TOKEN = re.compile(r'"[^"]*"|[(){};]|[^\s(){};"]+')
# What stands between the parts of a list, and between the operands of a form.
LIST_SIGNS = ("∷", "++", "▸")
INFIX = {
    "one_of": lambda field, values: ("one_of", field, values),
    "none_of": lambda field, values: ("none_of", field, values),
    "to": lambda first, last: list(range(first, last + 1)),
    "gets": lambda field, value: (field, value),
    "+": operator.add,
}
END = ""
STOPS = {")", "}", ";", END, *LIST_SIGNS, *INFIX}


class Parser:
    """Takes an expression apart, from the signs that bind least, those of lists, down to names and numbers."""

    def __init__(self, text):
        self.tokens = TOKEN.findall(text)[::-1]

    def next(self):
        return self.tokens[-1] if self.tokens else END

    def take(self, wanted=None):
        token = self.tokens.pop() if self.tokens else END
        demand(wanted in (None, token), "specs", f"`{token}` stands where `{wanted}` should")
        return token

    def expression(self):
        items, signs = [self.infix()], []
        while self.next() in LIST_SIGNS:
            signs.append(self.take())
            items.append(self.infix())
        return ("list", items, signs) if signs else items[0]

    def infix(self):
        left = self.application()
        return (self.take(), left, self.application()) if self.next() in INFIX else left

    def application(self):
        head, arguments = self.atom(), []
        while self.next() not in STOPS:
            arguments.append(self.atom())
        return ("apply", head, arguments) if arguments else head

    def atom(self):
        token = self.take()
        if token == "(":
            inner = self.expression()
            self.take(")")
            return inner
        if token == "record":
            return ("record", self.members())
        if token == "[]":
            return ("value", [])
        if token.startswith('"'):
            return ("value", token.strip('"'))
        return ("value", int(token, 0)) if token[:1].isdigit() else ("name", token)

    def members(self):
        """What stands in a record: `{ name = expression; ... }`."""
        found, before = {}, "{"
        while self.next() == before:
            self.take()
            name = self.take()
            self.take("=")
            found[name] = self.expression()
            before = ";"
        self.take("}")
        return found


@functools.lru_cache(maxsize=None)
def parsed(text):
    parser = Parser(text)
    tree = parser.expression()
    parser.take(END)
    return tree


# ── definitions ──

# A body is kept as text: most definitions are never asked for, and not all of them are expressions of this kind.
Clause = collections.namedtuple("Clause", "parameters body")
Definition = collections.namedtuple("Definition", "clauses scope")
# A type on one line, then lines that begin with the name, each with further lines that are set in.
DEFINITION = re.compile(r"^(?:abbrev|unfoldable)(?: pub)? (\S+) : .*\n((?:\1 .*(?:\n(?:[ \t].*)?)*)+)", re.M)
CLAUSE = re.compile(r"^\S+((?: \S+)*?) =\s+(.*(?:\n(?:[ \t].*)?)*)", re.M)
USE = re.compile(r"^use Rattle\.(?!std\.)(\w+)\.specs\.(\w+)\.\{(.*)\}$", re.M)
# The refusal numbers are named as `numbers.special`; a mnemonic kind such as `kind.add` stays a name.
USE_NUMBERS = re.compile(r"^use Rattle\.(refusal)\.specs\.(Numbers) as (\w+)$", re.M)
# Where one of these is a parameter, it is a value that the argument must have.
CASES = ("true", "false")


@functools.lru_cache(maxsize=None)
def scope_of(repository, path):
    """The definitions that the expressions of a file can name: its own, and those that its `use` lines ask for."""
    text = specs_of(repository, path)
    scope = {}
    for crate, file, names in USE.findall(text):
        other = scope_of(repository, f"{crate}/specs/{file}.antt")
        scope.update((name, other[name]) for name in names.split(", ") if name in other)
    for crate, file, alias in USE_NUMBERS.findall(text):
        other = scope_of(repository, f"{crate}/specs/{file}.antt")
        scope.update((f"{alias}.{name}", other[name]) for name in other)
    for name, body in DEFINITION.findall(text):
        scope[name] = Definition([Clause(parameters.split(), body) for parameters, body in CLAUSE.findall(body)], scope)
    return scope


def constructors_of(repository, path, data):
    """The constructors of a data type, in order."""
    found = re.search(rf"^pub data {data} : .*\n((?:[ \t].*\n)+)", specs_of(repository, path), re.M)
    demand(found, path, f"the type {data} is not defined")
    return [name for line in found[1].splitlines() if " : " in line for name in line.split(" : ")[0].split()]


# ── values ──


def evaluate(tree, scope, local):
    """The value of a tree."""
    sign, *rest = tree
    if sign == "value":
        return rest[0]
    if sign == "name":
        return named(rest[0], [], scope, local)
    if sign == "apply":
        return named(rest[0][1], [evaluate(part, scope, local) for part in rest[1]], scope, local)
    if sign == "record":
        return {name: evaluate(part, scope, local) for name, part in rest[0].items()}
    if sign == "list":
        values = [evaluate(part, scope, local) for part in rest[0]]
        # The last part of a list is a list itself, as if `++` came after it; that of a form is a form.
        joined = zip(values, rest[1] + ["▸" if rest[1][-1] == "▸" else "++"])
        return list(itertools.chain.from_iterable(value if after == "++" else [value] for value, after in joined))
    return INFIX[sign](*(evaluate(part, scope, local) for part in rest))


def named(name, arguments, scope, local):
    """A name that has no definition is a constructor."""
    if name in local:
        return local[name](*arguments) if arguments else local[name]
    if name not in scope:
        return (name, *arguments) if arguments else name
    for parameters, body in scope[name].clauses:
        pairs = list(zip(parameters, arguments))
        if len(parameters) == len(arguments) and all(one not in CASES or one == other for one, other in pairs):
            return evaluate(parsed(body), scope[name].scope, dict(pairs))
    return demand(False, "specs", f"`{name}` has no clause for these arguments: {arguments}")


def value_of(repository, path, name, *arguments):
    """The value of a definition in a file below crates/."""
    scope = scope_of(repository, path)
    demand(name in scope, path, f"`{name}` is not defined")
    return named(name, list(arguments), scope, {})


def parts(value):
    """A constructor and its arguments, in one tuple even if there are none."""
    return value if isinstance(value, tuple) else (value,)


# ── what more than one test reads ──


def fields_of(word):
    return {name: word >> low & 2**width - 1 for name, (low, width) in FIELDS.items()}


def rows_of(repository, wide):
    """The rows of the table of classes under a width flag."""
    return value_of(repository, "classes/specs/Table.antt", "table", "true" if wide else "false")


def kinds_of(repository):
    """Each mnemonic kind and its number, as text, in the order of the file."""
    text = text_of(repository, "crates/reading/specs/Kind.antt")
    return [pair for pair in re.findall(r"^abbrev pub (\S+) : ℕ\n\1 = (\d+)$", text, re.M) if pair[0] != "many"]


def mnemonic(kind):
    """A kind's mnemonic: a point in it is an underscore in the kind."""
    return kind.removeprefix("kind.").replace("_", ".")
