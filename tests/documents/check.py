#!/usr/bin/env python3
"""Compare the documents, which are the files *.md, with the tree.

    check.py REPOSITORY

- No line of a document, of a source, of a definition, of a script or of a test has more than 120 characters.
- Every path of this repository that a document names exists.
- docs/PROVED.md has fewer than 300 lines, and the sizes that it gives of definitions are those of the files.
- The crate table of docs/READING.md has the crates of crates.txt in that order, each with the comment above it there.
- docs/READING.md names every document in docs/. tests/README.md names every test, and says which are in the gate.

It prints what was checked, or what is wrong, with status 1.
"""
import re
import sys
from pathlib import Path

sys.path.append(str(Path(__file__).resolve().parents[1]))

from crates import crates_of, text_of  # noqa: E402

MOST_CHARACTERS = 120
MOST_LINES_OF_PROVED = 299
# What is made and not kept.
NOT_KEPT = ("target", ".git")
FOLDERS_OF_TESTS = ("tests", "tools", "bench", "samples", "include")
SUFFIXES_OF_TESTS = ("", ".sh", ".py", ".rs", ".c", ".h")

FOLDERS = "crates|docs|tests|tools|bench|samples|include|\\.ci"
PATH = re.compile(rf"(?<![\w./-])(?:\./)?((?:{FOLDERS})/[\w.*/-]*|(?<=\./)sweep\b)")
# Part of a path that stands for any name, as in crates/CRATE/src.
PLACEHOLDER = re.compile(r"(?<=/)[A-Z_]+(?=/|$)")
# A path in the repository that the Rust comes from.
OF_THE_RUST = "crates/paranoia-core/src/mips.rs"

ROW_OF_SIZE = re.compile(r"^\| (\w+/specs/\w+\.antt) \| (\d+) \|", re.M)
CRATE_TABLE = re.compile(r"^\| crate \|.*\n\|[-|]+\n((?:\|.*\n)*)", re.M)
ROW_OF_CRATE = re.compile(r"^\| `(\w+)` \| (.*) \|$", re.M)
GATE_LIST = re.compile(r'^names="(.*)"$', re.M)
ENTRY_OF_TEST = re.compile(r"^- \*\*`(\w+)`\*\*", re.M)


def documents(root):
    kept = (top for top in root.iterdir() if top.is_dir() and top.name not in NOT_KEPT)
    return sorted([*root.glob("*.md"), *(path for top in kept for path in top.rglob("*.md"))])


def is_of_tests(path):
    """A script or a source, and not data; mips.rs is kept as published."""
    return path.suffix in SUFFIXES_OF_TESTS and path.name != "mips.rs"


def sources(root):
    of_crates = [*root.glob("crates/*/src/**/*.rt"), *root.glob("crates/*/specs/**/*.antt")]
    others = [path for top in FOLDERS_OF_TESTS for path in (root / top).rglob("*") if is_of_tests(path)]
    return sorted([*of_crates, *filter(Path.is_file, others), root / "sweep", root / ".ci/run"])


# ── lines and paths ──


def wrong_with_widths(root, paths):
    for path in paths:
        for number, line in enumerate(text_of(path).splitlines(), 1):
            if len(line) > MOST_CHARACTERS:
                yield f"{path.relative_to(root)}:{number}: the line has {len(line)} characters"


def named_paths(text):
    """The paths of this repository that a text names, each once, in order."""
    found = (path.rstrip("./") for path in PATH.findall(text))
    return [path for path in dict.fromkeys(found) if path != OF_THE_RUST]


def wrong_with_paths(root, paths):
    for path in paths:
        for named in named_paths(text_of(path)):
            if not any(root.glob(PLACEHOLDER.sub("*", named))):
                yield f"{path.relative_to(root)}: there is no {named}"


# ── docs/PROVED.md ──


def size(path):
    """Lines that are neither blank nor comments nor imports."""
    lines = (line.strip() for line in text_of(path).splitlines())
    return sum(1 for line in lines if line and not line.startswith(("--", "use ", "pub mod ")))


def wrong_with_proved(root, text):
    lines = len(text.splitlines())
    if lines > MOST_LINES_OF_PROVED:
        yield f"docs/PROVED.md has {lines} lines, not {MOST_LINES_OF_PROVED} at most"
    sizes = ROW_OF_SIZE.findall(text)
    if not sizes:
        yield "docs/PROVED.md gives no sizes of definitions"
    for name, given in sizes:
        path = root / "crates" / name
        if path.exists() and size(path) != int(given):
            yield f"docs/PROVED.md: {name} has {size(path)} lines, not {given}"
        elif not path.exists():
            yield f"docs/PROVED.md: there is no crates/{name}"


# ── what must not be left out ──


def wrong_with_crate_table(root, text):
    table = CRATE_TABLE.search(text)
    if not table:
        yield "docs/READING.md has no table that begins with `| crate |`"
        return
    rows = [(name, says.replace("`", "")) for name, says in ROW_OF_CRATE.findall(table[1])]
    expected = [(crate.name, crate.says.replace("`", "")) for crate in crates_of(root)]
    yield from (f"docs/READING.md: no row says `{name}: {says}`" for name, says in expected if (name, says) not in rows)
    yield from (f"crates.txt does not say `{name}: {says}`" for name, says in rows if (name, says) not in expected)
    if set(rows) == set(expected) and rows != expected:
        yield "docs/READING.md: its crate table is not in the order of crates.txt, or has a crate twice"


def wrong_with_reading(root, text):
    others = sorted(path.name for path in (root / "docs").iterdir() if path.name != "READING.md")
    yield from (f"docs/READING.md does not name docs/{name}" for name in others if name not in text)
    yield from wrong_with_crate_table(root, text)


def tests_under(heading, text):
    """The tests that have an entry under a heading."""
    part = re.search(rf"^## {heading}$(.*?)(?=^## |\Z)", text, re.M | re.S)
    return ENTRY_OF_TEST.findall(part[1]) if part else []


def wrong_with_tests(root, text):
    tests = {path.parent.name for path in root.glob("tests/*/run")}
    in_gate = GATE_LIST.search(text_of(root / "tests/run"))[1].split()
    yield from (f"tests/run: there is no tests/{name}/run" for name in in_gate if name not in tests)
    if tests_under("In the gate", text) != in_gate:
        yield f"tests/README.md: the tests in the gate are, in this order: {' '.join(in_gate)}"
    on_demand = sorted(tests - set(in_gate))
    if sorted(tests_under("On demand", text)) != on_demand:
        yield f"tests/README.md: the tests on demand are {' '.join(on_demand)}"


def main():
    root = Path(sys.argv[1])
    paths, code = documents(root), sources(root)
    wrong = [*wrong_with_widths(root, paths + code), *wrong_with_paths(root, paths)]
    for name, wrong_with in (
        ("docs/PROVED.md", wrong_with_proved),
        ("docs/READING.md", wrong_with_reading),
        ("tests/README.md", wrong_with_tests),
    ):
        there = (root / name).exists()
        wrong += wrong_with(root, text_of(root / name)) if there else [f"there is no {name}"]
    if wrong:
        sys.exit("\n".join(wrong))
    named = sum(len(named_paths(text_of(path))) for path in paths)
    sizes = len(ROW_OF_SIZE.findall(text_of(root / "docs/PROVED.md")))
    print(
        f"{len(paths)} documents and {len(code)} sources in {MOST_CHARACTERS} columns; {named} paths, "
        f"{sizes} sizes of definitions, {len(crates_of(root))} crates"
    )


main()
