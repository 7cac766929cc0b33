#!/usr/bin/env python3
"""What pages.c reads besides expected.txt, made of lists that are kept elsewhere.

    inputs.py ROOT

writes a line `word` for each answer of tests/vectors/answers.txt, with its printed line, and a line `file` for each
section file of tests/sweep, with what tests/sweep/expected.txt says of it and of its listing.
"""
import sys
from pathlib import Path

ROOT = Path(sys.argv[1])
sys.path += [str(ROOT / "tests/model"), str(ROOT / "tests/sweep")]

import kept  # noqa: E402
import record  # noqa: E402
import vectors  # noqa: E402
from cases import cases  # noqa: E402


def write_words():
    names = vectors.names_of(vectors.accepted(ROOT))
    for each in vectors.answers(ROOT):
        text = "" if each.number else record.line(each.record, names)[1]
        print(f"word {each.question} {each.number} {text}".rstrip())


def write_files():
    expected = kept.read(ROOT / "tests/sweep/expected.txt")
    for name, data in cases(ROOT):
        if kept.digest(data) != expected[name].digest:
            sys.exit(f"{name} is another file than that of expected.txt")
        print("file", name, data.hex() or "-", expected[name].file, expected[name].output)


write_words()
write_files()
