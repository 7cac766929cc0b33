"""The section file: whether it is good, and what is in it. Written from document 01, `Section file` and `Numbers`."""
import struct
from dataclasses import dataclass

HEADER_BYTES = 8
RECORD_BYTES = 16
WORD_BYTES = 4
MOST_SECTIONS = 64
MOST_BYTES = 65535
BIG, WIDE = 1, 2
BAD_FILE, BAD_RECORD = 12, 13


@dataclass(frozen=True)
class Section:
    address: int
    offset: int
    length: int

    @property
    def end(self):
        return self.offset + self.length

    def body(self, file):
        return file[self.offset : self.end]


def header(file):
    """Count, flags and total length."""
    return struct.unpack_from("<HHI", file)


def records_end(file):
    return HEADER_BYTES + RECORD_BYTES * header(file)[0]


def sections(file):
    """All sections, of a file whose records are not cut off."""
    return [Section(*record) for record in struct.iter_unpack("<QII", file[HEADER_BYTES : records_end(file)])]


def header_is_good(file):
    if not HEADER_BYTES <= len(file) <= MOST_BYTES:
        return False
    count, flags, total = header(file)
    return 1 <= count <= MOST_SECTIONS and flags <= BIG + WIDE and total == len(file) and records_end(file) <= len(file)


def records_are_good(file):
    """Bodies are after the records and inside the file, one after the other: none overlaps, and offsets rise."""
    free_from = records_end(file)
    for section in sections(file):
        if section.length < WORD_BYTES or section.length % WORD_BYTES:
            return False
        if section.offset < free_from or section.end > len(file):
            return False
        free_from = section.end
    return True


def refusal(file):
    """0, or the number that the file is refused with."""
    if not header_is_good(file):
        return BAD_FILE
    return 0 if records_are_good(file) else BAD_RECORD


def flags(file):
    """Whether a good file's words are big-endian, and whether they are wide."""
    bits = header(file)[1]
    return bool(bits & BIG), bool(bits & WIDE)
