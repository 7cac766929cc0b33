"""What the unchanged Rust says of words, by its driver (tests/oracle)."""
import subprocess
from typing import NamedTuple

import record

# A line of the mode `text` begins with address and word.
TEXT_COLUMN = 26


class Question(NamedTuple):
    wide: bool
    address: int
    word: int

    def __str__(self):
        return f"{int(self.wide)} {self.address:016x} {self.word:08x}"


class Answer(NamedTuple):
    number: int
    mark: bool
    text: str


def lines_of(driver, mode, asked):
    done = subprocess.run([driver, *mode], input=asked, capture_output=True, text=True, check=True)
    return done.stdout.splitlines()


def answers(driver, questions):
    """A function from a question to its answer, for these questions."""
    every = sorted(set(questions))
    asked = "".join(f"{question}\n" for question in every)
    known = {}
    for question, line, text in zip(every, lines_of(driver, [], asked), lines_of(driver, ["text"], asked), strict=True):
        asked_back, _, packed = line.rpartition(" ")
        if asked_back != str(question) or not text.startswith(f"{question.address:016x} {question.word:08x} "):
            raise ValueError(f"the driver answers another question than {question}")
        answer = record.unpacked(bytes.fromhex(packed))
        known[question] = Answer(answer.number, bool(answer.marks & record.MARK), text[TEXT_COLUMN:])
    return known.__getitem__
