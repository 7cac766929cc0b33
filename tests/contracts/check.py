#!/usr/bin/env python3
"""Check the contracts and what is said of them.

    check.py REPOSITORY

- Each public function of a library has an `ensures` and no `requires`, and a theorem in crates/contracts/specs that its
  contract fixes its answer. (The prover shows that the theorem is true; the check shows that no function is forgotten.)
- A function that a static library exports promises what the library's function of that name does, in the same words.
- No public contract, and no file of specs/ outside specs/Private, uses what is in specs/Private; and no contract and no
  file of specs/ uses what is in proofs/. (The modules that the toolchain makes of a contract may be named:
  crates/contracts/specs speaks of them.)
- A crate of crates.txt lists the crates that its files name, and no others.
- The edits that must be refused are complete and say whom they are for: edit_rules.py.

It reads text, in the layout of `rt fmt`. It prints what was checked, or what is wrong, with status 1.
"""
import re
import sys
from pathlib import Path

sys.path.append(str(Path(__file__).resolve().parents[1]))

from crates import (  # noqa: E402
    PUBLIC,
    crates_of,
    functions_in,
    libraries,
    public_files,
    public_functions,
    static_libraries,
    text_of,
)
from edit_rules import FEWEST_WRONG, wrong_with_edits  # noqa: E402
from edits import edits_of  # noqa: E402

# A clause may have a name.
REQUIRES = re.compile(r"\brequires\*? (?:\w+ )?\{")
ENSURES = re.compile(r"\bensures (?:\w+ )?\{")
PRIVATE_USE = re.compile(r"^ghost use \S+\.specs\.Private\.[\w.]+\.\{(.*?)\};$", re.M)
# The kit's own library has words in its proofs/ too.
PROOFS_USE = re.compile(r"^(?:ghost )?use (Rattle\.(?!std\.)\S+?\.proofs\.[^\s{;]+)", re.M)
# What the toolchain makes of a function's contract and of a declared type.
OF_CONTRACT = re.compile(r"\.(?:Reads|Kinds|Statement)$|\.declared\.")
WORD_OF_ANTT = re.compile(r"[^\s(){},.;]+")
COMMENT_OF_CODE = re.compile(r"//.*")
CRATE_IN_CODE = re.compile(r"(?<![\w:])(\w+)::")
CRATE_IN_USE = re.compile(r"Rattle\.(\w+)")


def joined(paths):
    return "".join(map(text_of, paths))


# ── contracts ──


def wrong_with_contract(crate, function):
    name = f"{crate}::{function.name}"
    if REQUIRES.search(function.contract):
        yield f"{name} asks something of its caller"
    if not ENSURES.search(function.contract):
        yield f"{name} says nothing of its answer"
    private = {n.strip() for names in PRIVATE_USE.findall(text_of(function.path)) for n in names.split(",")}
    for used in sorted(private & set(WORD_OF_ANTT.findall(function.contract))):
        yield f"{name} cites {used} of specs/Private"


def wrong_with_theorem(root, crate, function):
    """The crate's file in crates/contracts/specs has a field for the function, over the function's own contract."""
    path = root / "crates/contracts/specs" / f"{crate.capitalize()}.antt"
    text = text_of(path) if path.exists() else ""
    module = function.name.replace("::", ".")
    use = rf"^use Rattle\.{crate}\.proofs\.{module}\.%s as (\S+)$"
    aliases = [re.search(use % part, text, re.M) for part in ("Kinds", "Reads")]
    if not all(aliases):
        yield f"{crate}::{function.name} is not in crates/contracts/specs"
        return
    kinds, reads = (re.escape(alias[1]) for alias in aliases)
    field = rf"^  pub \S+ : Exact(?:To)? {kinds}\.ps {kinds}\.r (?:\(.*\) )?{reads}\.Asked {reads}\.Learnt$"
    # A generic function has a theorem for every type.
    parts = " ".join(
        rf"\({module}\.{part} .*\)"
        for module, part in ((kinds, "ps"), (kinds, "r"), (reads, "Asked"), (reads, "Learnt"))
    )
    for_all = rf"^  pub \S+ : \(.*→\s+Exact {parts}$"
    if not (re.search(field, text, re.M) or re.search(for_all, text, re.M)):
        yield f"{crate}::{function.name} has no theorem in {path.name}"


def in_one_line(contract):
    """Parameters stand in one line or in several, with a comma after the last."""
    return re.sub(r"(?<=\() | (?=\))|,(?= \))", "", " ".join(contract.split()))


def wrong_with_exports(root, crate):
    """Each function that a static library exports promises, word for word, what the library's of that name does."""
    library = crate.removesuffix("_c")
    inner = {function.name: function.contract for function in public_functions(root, library)}
    exports = {function.name: function.contract for function in public_functions(root, crate)}
    for name in sorted(inner.keys() ^ exports.keys()):
        yield f"{name} is public in only one of the crates {library} and {crate}"
    for name in sorted(inner.keys() & exports.keys()):
        if in_one_line(inner[name]) != in_one_line(exports[name]):
            yield f"{crate}::{name} does not promise what {library}::{name} does"


def wrong_with_library(root, crate):
    public = public_functions(root, crate)
    for function in public:
        yield from wrong_with_contract(crate, function)
        # The text of a value is a definition in the contract itself, so that it is fixed.
        if not function.name.endswith("Display::fmt"):
            yield from wrong_with_theorem(root, crate, function)
    all_theorems = text_of(root / "crates/contracts/specs/Theorems.antt")
    if public and not re.search(rf"^  pub \S+ : {crate.capitalize()}$", all_theorems, re.M):
        yield f"crates/contracts/specs/Theorems.antt has no field for {crate}"
    for path in sorted(set((root / "crates" / crate / "src").glob("*.rt")) - set(public_files(root, crate))):
        for function in functions_in(path):
            if function.seen == PUBLIC:
                yield f"{crate}/src/{path.name}: {function.name} is `pub` in a private module, not `pub(crate)`"


# ── who uses what ──


def wrong_with_uses(root):
    for path in root.glob("crates/*/specs/*.antt"):
        if ".specs.Private" in text_of(path):
            yield f"{path.relative_to(root)} uses what is in specs/Private"
    for path in [*root.glob("crates/*/src/**/*.rt"), *root.glob("crates/*/specs/**/*.antt")]:
        for name in PROOFS_USE.findall(text_of(path)):
            if not OF_CONTRACT.search(name):
                yield f"{path.relative_to(root)} uses {name.rstrip('.')}, which is in proofs/"


def named_by(root, crate):
    """What looks like a crate in a crate's files: `word::rs` in code, `Rattle.word.specs` in an import."""
    folder = root / "crates" / crate
    sources = list(folder.glob("src/**/*.rt"))
    code = COMMENT_OF_CODE.sub("", joined(sources))
    antt = joined([*folder.glob("specs/**/*.antt"), *folder.glob("proofs/**/*.antt")])
    modules = {path.stem for path in sources}
    return set(CRATE_IN_CODE.findall(code)) - modules | set(CRATE_IN_USE.findall(code + antt))


def wrong_with_lists(root):
    crates = crates_of(root)
    known = {crate.name for crate in crates}.union(*(crate.lists for crate in crates))
    for crate in crates:
        named = named_by(root, crate.name) & known - {crate.name}
        for name in sorted(crate.lists - named):
            yield f"crates.txt: {crate.name} lists {name} and does not name it"
        for name in sorted(named - crate.lists):
            yield f"crates.txt: {crate.name} names {name} and does not list it"


def names_in(root, crates):
    """The public functions of these crates, as crate::function."""
    return [f"{crate}::{function.name}" for crate in crates for function in public_functions(root, crate)]


def main():
    root = Path(sys.argv[1])
    crates = libraries(root)
    public = names_in(root, crates)
    exports = names_in(root, static_libraries(root))
    edits = edits_of(root)
    wrong = [line for crate in crates for line in wrong_with_library(root, crate)]
    wrong += [line for crate in static_libraries(root) for line in wrong_with_exports(root, crate)]
    wrong += [*wrong_with_uses(root), *wrong_with_lists(root), *wrong_with_edits(root, edits, public, exports)]
    if wrong:
        sys.exit("\n".join(wrong))
    in_gate = sum(edit.in_gate for edit in edits)
    print(
        f"{len(public)} public functions, each with a theorem or a text, and {FEWEST_WRONG} wrong answers or more; "
        f"{len(exports)} exports, which promise the same; {len(edits)} edits, {in_gate} of them in the gate"
    )


main()
