"""The kept answers of the Rust, tests/vectors/answers.txt."""
from typing import NamedTuple

import record
import rust


class Kept(NamedTuple):
    """A line: a question, the record of its answer, and what the encoder answers to that record."""

    question: rust.Question
    record: bytes
    encoded: int

    @property
    def number(self):
        return self.record[0]

    @property
    def name(self):
        return record.unpacked(self.record).name


def kept_of(line):
    wide, address, word, packed, encoded = line.split(" ")
    question = rust.Question(wide == "1", int(address, 16), int(word, 16))
    return Kept(question, bytes.fromhex(packed), int(encoded, 16))


def answers(root):
    lines = (root / "tests/vectors/answers.txt").read_text(encoding="ascii").splitlines()
    return [kept_of(line) for line in lines]


def accepted(root):
    """Those of words that have a reading."""
    return [kept for kept in answers(root) if kept.number == 0]


def names_of(kept):
    """The mnemonics; the list has all of them."""
    return {each.name for each in kept}
