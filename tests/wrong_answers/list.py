#!/usr/bin/env python3
"""Print which edits there are for each public function, theorem and program, and for document 01's slips and attacks.

    list.py REPOSITORY

It is what the first lines of the edits say, the other way round: README.md explains them.
"""
import sys
import textwrap
from pathlib import Path

sys.path.append(str(Path(__file__).resolve().parents[1]))

from crates import libraries, public_functions  # noqa: E402
from edits import ATTACKS, SLIPS, edits_of  # noqa: E402

WIDTH = 120
PLACES = (("gate", True), ("on demand", False))


def in_order(found, known=()):
    """Those that are known, in their order, then any others, each once."""
    return list(dict.fromkeys([*known, *found]))


def edit_lines(edits):
    """The names of edits, behind where they are tried."""
    for place, in_gate in PLACES:
        names = ", ".join(edit.name for edit in edits if edit.in_gate == in_gate)
        if names:
            yield textwrap.fill(names, WIDTH, initial_indent=f"    {place:11}", subsequent_indent=" " * 15)


def show(title, edits, values_of, known=()):
    """A part of the list: each value with the edits that have it."""
    values = in_order((value for edit in edits for value in values_of(edit)), known)
    print(f"{title} ({len(values)})\n")
    for value in values:
        print(value)
        print("\n".join(edit_lines([edit for edit in edits if value in values_of(edit)])) or "    none")
    print()


def main():
    root = Path(sys.argv[1])
    edits = edits_of(root)
    public = [f"{crate}::{function.name}" for crate in libraries(root) for function in public_functions(root, crate)]
    show("Public functions", edits, lambda edit: edit.functions(), public)
    show("Theorems", edits, lambda edit: [f"{crate}: {name}" for crate, name in edit.theorems()])
    show("Programs", edits, lambda edit: edit.values("program"))
    show("Document 01's slips", edits, lambda edit: edit.values("slip"), SLIPS)
    show("Document 01's attacks", edits, lambda edit: edit.values("attack"), ATTACKS)
    print(f"{len(edits)} edits, {sum(edit.in_gate for edit in edits)} of them in the gate")


main()
