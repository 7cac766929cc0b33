"""Reads the edits that the prover must refuse, and whom each is for: for tests/contracts and tests/wrong_answers.

An edit file begins with lines `KEY: VALUE`, which tests/wrong_answers/README.md explains. The lines after them are for
the toolchain: `file:`, `old:` and `new:`.
"""
import collections

from crates import text_of

KEYS = ("wrong", "theorem", "program", "slip", "attack")

# In document 01's words.
SLIPS = (
    "upper jump bits from the branch's own address",
    "refusing ins with a size below 1",
    "giving lwc1 its own register in effect Mem",
    "drotr read from dsrl with rs 1",
    "refusing add.w",
)
ATTACKS = (
    "refusing everything",
    "one reading for all words",
    "an untouched record",
    "an untouched page",
    "a true first line and mere spaces below",
    "invented words",
    "invented bytes",
)

# A text that an edit replaces, and its file in the crate.
Change = collections.namedtuple("Change", "file old")


class Edit:
    def __init__(self, crate, path, in_gate):
        lines = text_of(path).splitlines()
        end = next((i for i, line in enumerate(lines) if line.startswith("file: ")), len(lines))
        self.crate, self.path, self.in_gate = crate, path, in_gate
        self.name = f"{crate}/{path.stem}"
        # Each line of the head as key and value.
        self.head = [tuple(part.strip() for part in line.partition(":")[::2]) for line in lines[:end]]
        self.changes = changes_in(lines[end:])

    def values(self, key):
        return [value for other, value in self.head if other == key]

    def functions(self):
        """The public functions of which it is a wrong answer, as crate::function."""
        return [name for value in self.values("wrong") for name in value.split()]

    def theorems(self):
        """The theorems that it makes false, each as crate and name."""
        return [(words[0], name) for words in map(str.split, self.values("theorem")) for name in words[1:]]

    def is_of_code_alone(self):
        return {key for key, _ in self.head} == {"wrong"}


def changes_in(lines):
    found, file = [], None
    for line in lines:
        key, _, value = line.partition(": ")
        if key == "file":
            file = value
        elif key == "old":
            found.append(Change(file, value))
    return found


def edits_of(root):
    """All edits: those that the gate tries, and those that are tried on demand."""
    in_gate = [Edit(path.parts[-3], path, True) for path in root.glob("crates/*/must-fail/*.edit")]
    on_demand = [Edit(path.parts[-2], path, False) for path in root.glob("tests/wrong_answers/*/*.edit")]
    return sorted(in_gate + on_demand, key=lambda edit: edit.name)
