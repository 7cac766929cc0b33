"""The lines of expected.txt: name of the case, SHA-256 of its bytes, what the library says of the file, what `sweep`
writes.

What the library says is the number of the refusal, or for a good file its flags and, for each section, address, offset
and length: `1:80001000+24+24`. What the program writes is in brackets, with | for the end of a line; a long listing is
given by its SHA-256.
"""
import hashlib
from typing import NamedTuple

import section

LONGEST_SHOWN = 300


class Expected(NamedTuple):
    digest: str
    file: str
    output: str


def digest(data):
    return hashlib.sha256(data).hexdigest()


def is_shown(output):
    return len(output) <= LONGEST_SHOWN and output.endswith(b"\n")


def shown(output):
    """A listing has no | of its own."""
    if is_shown(output):
        return "[" + output.decode("ascii", "backslashreplace").replace("\n", "|") + "]"
    return digest(output)


def file_column(data):
    number = section.refusal(data)
    if number:
        return str(number)
    parts = [f"{part.address:x}+{part.offset}+{part.length}" for part in section.sections(data)]
    return f"{section.header(data)[1]}:" + ",".join(parts)


def line(name, data, output):
    return f"{name} {digest(data)} {file_column(data)} {shown(output)}\n"


def read(path):
    """The kept expectations by name."""
    with open(path, encoding="ascii") as file:
        columns = [line.rstrip("\n").split(" ", 3) for line in file]
    return {name: Expected(*rest) for name, *rest in columns}
