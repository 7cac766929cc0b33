#!/usr/bin/env python3
"""What the program must write and what the library must say of every case (cases.py), by the model (tests/model) and
the Rust.

    expect.py ROOT DRIVER FOLDER

writes FOLDER/expected.txt, which is kept beside this file, FOLDER/NAME.txt for each samples/NAME.sec, and as
FOLDER/CASE.listing the listings of which expected.txt has only a digest. DRIVER is that of tests/oracle. `kept.py` says
what a line has.
"""
import sys
from pathlib import Path

ROOT, DRIVER, FOLDER = (Path(word) for word in sys.argv[1:])
sys.path.append(str(ROOT / "tests/model"))

import kept  # noqa: E402
import listing  # noqa: E402
import rust  # noqa: E402
from cases import cases  # noqa: E402


def main():
    made = cases(ROOT)
    read = rust.answers(DRIVER, [question for _, data in made for question in listing.questions(data)])
    with open(FOLDER / "expected.txt", "w", encoding="ascii") as file:
        for name, data in made:
            listed = listing.sweep(data, read)
            file.write(kept.line(name, data, listed))
            if name.startswith("sample-"):
                (FOLDER / f"{name.removeprefix('sample-')}.txt").write_bytes(listed)
            if not kept.is_shown(listed):
                (FOLDER / f"{name}.listing").write_bytes(listed)


main()
