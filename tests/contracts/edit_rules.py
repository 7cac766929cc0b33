"""The rules for the edits that must be refused (crates/CRATE/must-fail and tests/wrong_answers/CRATE).

- An edit's head says whom it is for, in keys that tests/wrong_answers/README.md explains, and what it names exists.
- It changes code or a definition and never a proof; what it replaces occurs once in its file; no two edits of a crate
  have the same name.
- Each public function has two wrong answers or more. Each of document 01's slips and attacks, and each theorem that has
  edits, has one that the gate tries.
- The gate tries at most two edits of a crate that are nothing but wrong answers of its functions.
"""
import collections
import re

from crates import text_of
from edits import ATTACKS, KEYS, SLIPS

FEWEST_WRONG = 2
MOST_OF_CODE_IN_GATE = 2
CHANGEABLE = ("src/", "specs/")


def wrong_with_edits(root, edits, public, exports):
    """What is wrong with the edits of a repository that has these public functions (crate::function), and these exports
    for C, which promise what public functions do."""
    for edit in edits:
        known = [*public, *exports]
        yield from (f"{edit.path.relative_to(root)}: {text}" for text in wrong_with_edit(root, edit, known))
    for name, times in collections.Counter(edit.name for edit in edits).items():
        if times > 1:
            yield f"{times} edits are called {name}"
    yield from wrong_with_counts(edits, public)
    yield from wrong_with_gate(edits)


# ── an edit by itself ──


def wrong_with_edit(root, edit, public):
    yield from wrong_with_head(root, edit, public)
    yield from wrong_with_changes(root, edit)


def wrong_with_head(root, edit, public):
    if not edit.head:
        yield "it does not say whom it is for"
    for key, value in edit.head:
        if key not in KEYS or not value:
            yield f"`{key}: {value}` is not a line of a head"
    known = {"slip": SLIPS, "attack": ATTACKS, "program": programs(root)}
    for key, values in known.items():
        yield from (f"there is no {key} `{value}`" for value in edit.values(key) if value not in values)
    yield from (f"{name} is not a public function" for name in edit.functions() if name not in public)
    yield from wrong_with_theorems(root, edit)


def wrong_with_theorems(root, edit):
    for value in edit.values("theorem"):
        if len(value.split()) < 2:
            yield f"`theorem: {value}` does not name a crate and a theorem"
    for crate, name in edit.theorems():
        if name not in declared_in(root, crate):
            yield f"specs/ of crate {crate} declares no {name}"


def programs(root):
    return [path.parts[-3] for path in root.glob("crates/*/src/main.rt")]


def declared_in(root, crate):
    """The names that a crate's specs declare, fields of records among them."""
    texts = map(text_of, (root / "crates" / crate / "specs").glob("*.antt"))
    return {name for text in texts for name in re.findall(r"^[a-z ]*\bpub (?:record |data )?(\S+)", text, re.M)}


def wrong_with_changes(root, edit):
    if not edit.changes:
        yield "it changes nothing"
    for file, old in edit.changes:
        path = root / "crates" / edit.crate / file
        if not file.startswith(CHANGEABLE):
            yield f"it changes {file}, which is not in {' or '.join(CHANGEABLE)}"
        if not path.exists() or text_of(path).count(old) != 1:
            yield f"the text `{old.strip()}` does not occur once in {file}"


# ── all of them ──


def wrong_with_counts(edits, public):
    tried = collections.Counter(name for edit in edits for name in set(edit.functions()))
    for name in public:
        if tried[name] < FEWEST_WRONG:
            yield f"{name} has {tried[name]} wrong answers, not {FEWEST_WRONG}"


def wrong_with_gate(edits):
    in_gate = [edit for edit in edits if edit.in_gate]
    for key, values in (("slip", SLIPS), ("attack", ATTACKS)):
        tried = {value for edit in in_gate for value in edit.values(key)}
        yield from (f"the gate tries no edit of the {key} `{value}`" for value in values if value not in tried)
    tried = {theorem for edit in in_gate for theorem in edit.theorems()}
    for crate, name in sorted({theorem for edit in edits for theorem in edit.theorems()} - tried):
        yield f"the gate tries no edit of the theorem {name} of crate {crate}"
    of_code = collections.Counter(edit.crate for edit in in_gate if edit.is_of_code_alone())
    for crate, number in of_code.items():
        if number > MOST_OF_CODE_IN_GATE:
            yield f"crates/{crate}/must-fail: {number} edits are only `wrong:`, not {MOST_OF_CODE_IN_GATE} at most"
