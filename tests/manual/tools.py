"""Read what the tools print. From the disassemblers: for each word nothing, if the tool does not know it, or its
mnemonic and its operands. From the assembler: for each line its words, and what is said of it."""
import collections
import functools
import re

from pages import WORD_BYTES

# Operands are as `Page.operand` of pages.py gives them: ("$", 5), ("$f", 5), ("#", 12), ("mem", -4, 29),
# ("indexed", 3, 4); anything else is ("text", as printed).

# LLVM calls five general registers by name, objdump (with the options of `run`) none
NAMED = {"zero": "0", "gp": "28", "sp": "29", "fp": "30", "ra": "31"}
REGISTER = re.compile(r"(\$[a-z]*)(\d+)")
MEMORY = re.compile(r"(-?\d+)\(\$(\d+)\)")
INDEXED = re.compile(r"\$(\d+)\(\$(\d+)\)")
NUMBER = re.compile(r"-?(0x[0-9a-f]+|\d+)")
OBJDUMP_LINE = re.compile(r" *([0-9a-f]+):\t([0-9a-f]{8}) \t([^\t\n]+)\t?(.*)\n")
OBJDUMP_UNKNOWN = ".word"
LLVM_LINE = re.compile(r"\t(\S+)\s*(.*)\n")
# llvm-mc wraps some words in lines that set its assembler's mode
LLVM_DIRECTIVES = ("\t.text", "\t.set")
LLVM_MESSAGE = re.compile(r"^[^:\n]+:(\d+):(\d+): (\w+): (.*)$", re.M)
LLVM_UNKNOWN = ("1", "warning", "invalid instruction encoding")
# a line of the assembler's listing: number, address, word, text; there is no word if the statement makes none, and more
# lines with only a word if it makes several
AS_LINE = re.compile(r" *(\d+) (?:(?:\S+| +) ([0-9A-F]{8}) | +)(?:\t.*)?\n")
AS_REMARK = "****"  # a warning, once more
AS_HEADING = re.compile(r"[^:]+: Assembler messages:")
AS_MESSAGE = re.compile(r"[^:]+:(\d+): (Error|Warning): (.*)")


@functools.lru_cache(maxsize=None)
def operand_of(text):
    text = re.sub(r"\$(zero|gp|sp|fp|ra)\b", lambda found: "$" + NAMED[found[1]], text)
    if found := REGISTER.fullmatch(text):
        return found[1], int(found[2])
    if found := MEMORY.fullmatch(text):
        return "mem", int(found[1]), int(found[2])
    if found := INDEXED.fullmatch(text):
        return "indexed", int(found[1]), int(found[2])
    if NUMBER.fullmatch(text):
        return "#", int(text, 0)
    return "text", text


def operands_of(text):
    return [operand_of(part.strip()) for part in text.split(",")] if text else []


def read_objdump(path, words, base):
    """(mnemonic, text of the operands) or None for each word; every line must have the word's address and the word."""
    with open(path, encoding="ascii") as file:
        found = [line for line in map(OBJDUMP_LINE.fullmatch, file) if line]
    assert len(found) == len(words), f"{path}: {len(found)} lines for {len(words)} words"
    answers = []
    for index, (line, word) in enumerate(zip(found, words)):
        found_at, found_word = int(line[1], 16), int(line[2], 16)
        assert (found_at, found_word) == (base + WORD_BYTES * index, word), f"{path}: {line[0]!r} for {word:08x}"
        answers.append(None if line[3] == OBJDUMP_UNKNOWN else (line[3], line[4]))
    return answers


def read_llvm(printed, messages, words):
    """The same from llvm-mc: it prints a line for each word that it knows, and names the others by line in its
    warnings."""
    with open(messages, encoding="ascii") as file:
        said = LLVM_MESSAGE.findall(file.read())
    unknown = {int(line) for line, *rest in said if tuple(rest) == LLVM_UNKNOWN}
    assert len(unknown) == len(said), f"{messages}: a message of another kind, or twice for a word"
    with open(printed, encoding="ascii") as file:
        lines = [LLVM_LINE.fullmatch(line).groups() for line in file if not line.startswith(LLVM_DIRECTIVES)]
    assert len(lines) + len(unknown) == len(words), f"{printed}: {len(lines)} lines and {len(unknown)} messages"
    rest = iter(lines)
    return [None if number in unknown else next(rest) for number in range(1, len(words) + 1)]


def read_messages(path):
    """What the assembler says on standard error: the messages of each line, as (Error or Warning, text)."""
    with open(path, encoding="ascii") as file:
        said = file.read().splitlines()
    assert not said or AS_HEADING.fullmatch(said[0]), f"{path}: {said[0]}"
    found = collections.defaultdict(list)
    for line in said[1:]:
        number, kind, text = AS_MESSAGE.fullmatch(line).groups()
        found[int(number)].append((kind, text))
    return found


def read_assembler(listing, messages, count):
    """(words, messages) of each of this many lines; a line that is refused has no word."""
    words = collections.defaultdict(list)
    with open(listing, encoding="ascii") as file:
        for number, word in (AS_LINE.fullmatch(line).groups() for line in file if not line.startswith(AS_REMARK)):
            words[int(number)] += [int(word, 16)] if word else []
    said = read_messages(messages)
    assert set(words) == set(range(1, count + 1)), f"{listing}: {len(words)} lines of {count}"
    assert said.keys() <= words.keys(), f"{messages}: a message of a line that is not there"
    return [(words[number], said[number]) for number in range(1, count + 1)]
