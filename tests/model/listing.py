"""The words of a body: what the program `sweep` prints, blocks and pages. Written from document 01, `Blocks and pages`
and `Numbers`. How a word is read comes from the caller: `read` takes a `Question` and gives an `Answer` (rust.py)."""
from dataclasses import dataclass

import section
from rust import Question

WORD_BYTES = 4
ADDRESSES = 2**64
NO_ROOM, NO_WORD = 11, 15
SLOT_TAKEN, NO_SLOT, REFUSED_WORD, BODY_ENDED = 1, 2, 3, 4


@dataclass(frozen=True)
class Body:
    data: bytes
    address: int
    big: bool
    wide: bool

    def __len__(self):
        """How many whole words there are; a rest is unread."""
        return len(self.data) // WORD_BYTES

    def question(self, n):
        word = self.data[WORD_BYTES * n : WORD_BYTES * (n + 1)]
        order = "big" if self.big else "little"
        return Question(self.wide, (self.address + WORD_BYTES * n) % ADDRESSES, int.from_bytes(word, order))

    def questions(self):
        return [self.question(n) for n in range(len(self))]


def line(body, n, read):
    """A page's line for word n."""
    question = body.question(n)
    return f"{question.address:016x} {question.word:08x} {read(question).text}\n".encode()


# ── sweep ──


def bodies(file):
    """The bodies of a good file."""
    big, wide = section.flags(file)
    return [Body(part.body(file), part.address, big, wide) for part in section.sections(file)]


def questions(file):
    """What has to be known of words to list the file."""
    if section.refusal(file):
        return []
    return [question for body in bodies(file) for question in body.questions()]


def sweep(file, read):
    """What the program writes for the file."""
    number = section.refusal(file)
    if number:
        return f"file refused {number}\n".encode()
    out = []
    for k, body in enumerate(bodies(file)):
        out.append(f"section {k} words {len(body)}\n".encode())
        out += [line(body, n, read) for n in range(len(body))]
    asked = questions(file)
    out.append(f"words {len(asked)} refused {sum(read(question).number > 0 for question in asked)}\n".encode())
    return b"".join(out)


# ── blocks and pages ──


def block(body, index, read):
    """Number, end kind and words of the block that begins at the word."""
    if index >= len(body):
        return NO_WORD, 0, 0
    for n in range(index, len(body)):
        answer = read(body.question(n))
        if answer.number:
            return 0, REFUSED_WORD, n - index
        if answer.mark:
            taken = n + 1 < len(body) and not read(body.question(n + 1)).number
            return (0, SLOT_TAKEN, n - index + 2) if taken else (0, NO_SLOT, n - index + 1)
    return 0, BODY_ENDED, len(body) - index


def page(body, index, size, place, read):
    """Number, words and the bytes written from the place on, for a buffer of that size."""
    if index >= len(body):
        return NO_WORD, 0, b""
    text = b""
    words = 0
    for n in range(index, len(body)):
        longer = text + line(body, n, read)
        if place + len(longer) > size:
            break
        text = longer
        words += 1
    return (0, words, text) if words else (NO_ROOM, 0, b"")
