#!/usr/bin/env python3
"""Compare the program `sweep` with the kept expectations.

    check.py ROOT FOLDER WORD..

The words are the command that runs the program. FOLDER is where expect.py left the listings, if it was run: a line that
differs can then be shown. Every case of cases.py is made anew, compared with the kept digest of its bytes and put to
the program as a file; some go through a pipe, a few bytes at a time. The program must also end where nothing takes what
it writes.
"""
import fcntl
import itertools
import os
import re
import subprocess
import sys
import tempfile
import termios
import time
from pathlib import Path

ROOT = Path(sys.argv[1])
FOLDER = Path(sys.argv[2])
COMMAND = sys.argv[3:]
sys.path.append(str(ROOT / "tests/model"))

import kept  # noqa: E402
from cases import cases  # noqa: E402

EXPECTED = ROOT / "tests/sweep/expected.txt"
# A run takes less than a second; in an emulator on a busy machine it may take a few.
LIMIT_SECONDS = 60
POLL_SECONDS = 0.0001
BUFFER_BYTES = 65536

# Document 01's example, to the byte.
EXAMPLE_FILE = bytes.fromhex(
    "01000100 30000000 00100080 00000000 18000000 18000000 3c048000 0c000403 8c820010 03e00008 00000000 7c000001"
)
EXAMPLE_LISTING = b"""section 0 words 6
0000000080001000 3c048000 lui a0, 32768
0000000080001004 0c000403 jal 0x8000100c
0000000080001008 8c820010 lw v0, 16(a0)
000000008000100c 03e00008 jr ra
0000000080001010 00000000 nop
0000000080001014 7c000001 refused 8
words 6 refused 1
"""

# Names of cases, and how many bytes a read is given at most.
PIECES = (
    ("sample-example", 1), ("sample-wide", 1), ("sample-handler", 3), ("cut-7", 1), ("cut-40", 7),
    ("two-second-odd-length", 5), ("sections-64", 11), ("long-65532", 4093), ("long-65535", 997), ("long-65536", 4096),
    ("long-70000", 8191), ("real-3-four-sections", 1021),
)  # fmt: skip
UNREAD = ("sample-example", "real-0-one-section", "cut-0")

TABLE_ROW = re.compile("^\\| ([0-9a-f]+) \\| ([0-9a-f]{8}) \\| `?([^|`]*)`? \\|", re.M)
LISTING_LINE = re.compile("[0-9a-f]{16} ")

complaints = []


def complain(text):
    complaints.append(text)
    if len(complaints) == 5:
        stop()


def stop():
    for text in complaints:
        print(text)
    sys.exit(1)


# ── files ──


def listed(file):
    done = subprocess.run(COMMAND, stdin=file, capture_output=True, timeout=LIMIT_SECONDS, check=False)
    return done.stdout, done.returncode


def listed_bytes(data):
    with tempfile.TemporaryFile() as file:
        file.write(data)
        file.seek(0)
        return listed(file)


def first_difference(name, output):
    path = FOLDER / f"{name}.listing"
    if not path.exists():
        return ""
    pairs = itertools.zip_longest(output.splitlines(), path.read_bytes().splitlines())
    return next((f"; line {k} is {got}, not {wanted}" for k, (got, wanted) in enumerate(pairs, 1) if got != wanted), "")


def compare(name, output, status, wanted, way=""):
    if status != 0:
        complain(f"{name}{way}: the program ended with status {status}")
    elif kept.shown(output) != wanted:
        difference = first_difference(name, output)
        complain(f"{name}{way}: the program wrote {kept.shown(output)}, wanted {wanted}{difference}")


def check_example():
    output, status = listed_bytes(EXAMPLE_FILE)
    if (output, status) != (EXAMPLE_LISTING, 0):
        complain(f"document 01's example is not listed as there: status {status}, {output!r}")
    for ending, wanted in (("sec", EXAMPLE_FILE), ("txt", EXAMPLE_LISTING)):
        if (ROOT / f"samples/example.{ending}").read_bytes() != wanted:
            complain(f"samples/example.{ending} is not document 01's example")


def described(name):
    """The lines that the table of a sample in samples/README.md gives."""
    text = (ROOT / "samples/README.md").read_text(encoding="utf-8")
    part = text.partition(f"### {name}\n")[2].partition("\n#")[0]
    return [f"{address:0>16} {word} {reading}" for address, word, reading in TABLE_ROW.findall(part)]


def check_samples():
    for path in sorted((ROOT / "samples").glob("*.sec")):
        with open(path, "rb") as file:
            output, _ = listed(file)
        if output != path.with_suffix(".txt").read_bytes():
            complain(f"samples/{path.name} is not listed as in {path.stem}.txt")
        rows = described(path.name)
        if rows and rows != [line for line in output.decode("ascii").splitlines() if LISTING_LINE.match(line)]:
            complain(f"samples/README.md does not describe {path.name} as it is listed")


def check_cases(made, expected):
    if list(made) != list(expected):
        complain("expected.txt does not have the cases of cases.py; expect.py writes it anew")
        stop()
    for name, data in made.items():
        if kept.digest(data) != expected[name].digest:
            complain(f"{name}: its bytes are not those that the expectation was made for")
        compare(name, *listed_bytes(data), expected[name].output)


# ── pipes ──


def feed(to, data, piece, reader):
    """Each piece is written when the one before it has been read, so that no read gets more."""
    waiting = bytearray(4)
    for at in range(0, len(data), piece):
        os.write(to, data[at : at + piece])
        while True:
            fcntl.ioctl(to, termios.FIONREAD, waiting)
            if not any(waiting) or reader.poll() is not None:
                break
            time.sleep(POLL_SECONDS)


def piped(data, piece, closed=True):
    """What the program answers to pieces; the pipe may stay open at the end, as if the writer had not finished."""
    source, to = os.pipe()
    with tempfile.TemporaryFile() as output, subprocess.Popen(COMMAND, stdin=source, stdout=output) as program:
        os.close(source)
        try:
            feed(to, data, piece, program)
        except BrokenPipeError:
            pass  # it has read all that it needs
        if closed:
            os.close(to)
        status = program.wait(LIMIT_SECONDS)
        if not closed:
            os.close(to)
        output.seek(0)
        return output.read(), status


def check_pieces(made, expected):
    for name, piece in PIECES:
        compare(name, *piped(made[name], piece), expected[name].output, f" by {piece} bytes")
    # A full buffer is refused, whether or not more would come.
    full = made["long-70000"][:BUFFER_BYTES]
    compare("65,536 bytes of a pipe that stays open", *piped(full, 4096, closed=False), "[file refused 12|]")


def ends(name, data, **streams):
    """The program ends by itself, whatever its status is."""
    with tempfile.TemporaryFile() as file:
        file.write(data)
        file.seek(0)
        try:
            streams = {"stdin": file, "stderr": subprocess.DEVNULL, **streams}
            subprocess.run(COMMAND, timeout=LIMIT_SECONDS, check=False, **streams)
        except subprocess.TimeoutExpired:
            complain(f"{name}: the program does not end")


def check_unread(made):
    for name in UNREAD:
        source, to = os.pipe()
        os.close(source)
        ends(f"{name} to a closed pipe", made[name], stdout=to)
        # Without the signal a write just fails.
        ends(f"{name} to a closed pipe, the signal ignored", made[name], stdout=to, restore_signals=False)
        os.close(to)
        with open("/dev/full", "wb") as full:
            ends(f"{name} to a full device", made[name], stdout=full)
        ends(f"{name} without standard output", made[name], preexec_fn=lambda: os.close(1))


def main():
    made = dict(cases(ROOT))
    expected = kept.read(EXPECTED)
    check_example()
    check_samples()
    check_cases(made, expected)
    check_pieces(made, expected)
    check_unread(made)
    if complaints:
        stop()
    words = sum(name.startswith("real-") for name in made)
    print(f"{len(made)} files, {words} of them with 16,000 words of every class; {len(PIECES)} in pieces")


main()
