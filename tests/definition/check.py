#!/usr/bin/env python3
"""Compare the definition with the Rust: take the table of classes and the acceptance table from crates/classes/specs,
read words by them, and compare every byte of every record with the kept answers of the Rust, tests/vectors/answers.txt.

    check.py REPOSITORY

antt.py reads the tables; what their words mean (`Meaning.antt`, `Numbers.antt`) is written here a second time, from
document 01.
"""
import sys
from pathlib import Path

TESTS = Path(__file__).resolve().parents[1]
sys.path += [str(TESTS), str(TESTS / "model")]

import vectors  # noqa: E402
from antt import FIELDS, fields_of, mnemonic, parts, rows_of, value_of  # noqa: E402
from record import HAS_TARGET, MARK, Operand, Record  # noqa: E402

OPS = 64
MASK64 = 2**64 - 1
KINDS = {"Reg": 1, "FReg": 2, "Imm": 3, "Mem": 4, "Addr": 5, "Cop0": 6}
FLOWS = {"plain": 0, "call": 1, "jump": 2, "branch": 3, "return": 4, "interrupt": 5}
MARKED = ("call", "jump", "branch", "by_register")
RET, JUMP, RA = 4, 2, 31


# ── the two tables ──


def rows_by_op(rows):
    """For each op the rows that words with it may have."""
    return [[row for row in rows if matches(row["pop"], op)] for op in range(OPS)]


def refusal(refusals, f):
    """The number of the first entry that refuses the word; 0 if none does."""
    for entry in refusals:
        if all((f[x] in values) == (sign == "one_of") for sign, x, values in entry["tests"]):
            return entry["number"]
    return 0


# ── what they mean ──


def matches(pattern, value):
    name, *argument = parts(pattern)
    if name in ("read", "zeros", "extra"):
        return True
    wanted = argument[0]
    if name == "low":
        return value % 4 == wanted
    return (value == wanted) == (name == "is")


def takes(row, word, f):
    if row["nops"] == "true" and word in (0, 0x40):
        return False
    return all(matches(row["p" + x], f[x]) for x in FIELDS)


def signed(value):
    return value - 0x10000 if value & 0x8000 else value


def operand(code, va, word, f):
    imm = word & 0xFFFF
    after = va + 4 & MASK64
    name, field = parts(code)[0], parts(code)[-1]
    simple = {"reg": "Reg", "freg": "FReg", "cop0": "Cop0"}
    if name in simple:
        return simple[name], f[field], 0
    values = {
        "num": lambda: ("Imm", 0, f[field]),
        "size": lambda: ("Imm", 0, f["rd"] + 1),
        "s16": lambda: ("Imm", 0, signed(imm)),
        "u16": lambda: ("Imm", 0, imm),
        "mem": lambda: ("Mem", f["rs"], signed(imm)),
        "br": lambda: ("Addr", 0, after + 4 * signed(imm) & MASK64),
        "jmp": lambda: ("Addr", 0, after & ~0x0FFF_FFFF | (word & 0x3FF_FFFF) << 2),
    }
    return values[name]()


def operands(form, va, word, f):
    *codes, last = form if isinstance(form, list) else [form]
    found = [operand(code, va, word, f) for code in codes]
    if last == "pos_size":
        found += [("Imm", 0, f["sa"]), ("Imm", 0, f["rd"] - f["sa"] + 1)]
    if last == "link":
        found += [("Reg", f["rd"], 0)] * (f["rd"] != RA) + [("Reg", f["rs"], 0)]
    return found


def effect(change, os):
    """Number, first register, second, size, value."""
    registers = [o[1] for o in os] + [0] * 4
    values = [o[2] for o in os] + [0] * 4
    name, *size = parts(change)
    if name == "nothing":
        return 0, 0, 0, 0, 0
    if name == "writes":
        return 4, registers[0], 0, 0, 0
    if name == "adds":
        return 2, registers[0], registers[1], 0, values[2]
    if name == "sets":
        return 2, registers[0], 0, 0, values[1]
    if name == "sets_upper":
        return 1, registers[0], 0, 0, signed(values[1]) << 16
    first = registers[0] if name == "memory" else 0
    return 3, first, registers[1], size[0], values[1]


def reading(row, va, word, f):
    """The record of a word that the row takes."""
    os = operands(row["form"], va, word, f)
    control, change = row["manner"]["control"], row["manner"]["change"]
    target = next((value for kind, _, value in os if kind == "Addr"), None)
    *parts_of_effect, value = effect(change, os)
    return Record(
        mnemonic(row["kind"]).encode(),
        flow=FLOWS.get(control, RET if os and os[0][1] == RA else JUMP),
        marks=MARK * (control in MARKED) + HAS_TARGET * (target is not None),
        count=len(os),
        target=target or 0,
        effect=(*parts_of_effect, value & MASK64),
        operands=[Operand(KINDS[kind], register, value & MASK64) for kind, register, value in os],
    )


def answer(tables, refusals, question):
    """The record that the Rust's answer should have, and in how many places of the two tables the word is: one."""
    f = fields_of(question.word)
    rows = [row for row in tables[question.wide][f["op"]] if takes(row, question.word, f)]
    number = refusal(refusals, f)
    places = len(rows) + (number > 0)
    if number or not rows:
        return Record(b"", number).packed(), places
    return reading(rows[0], question.address, question.word, f).packed(), places


def main():
    repository = sys.argv[1]
    classes = [rows_of(repository, wide) for wide in (False, True)]
    tables = [rows_by_op(rows) for rows in classes]
    refusals = value_of(repository, "classes/specs/Refusals.antt", "refusals")
    compared = 0
    for kept in vectors.answers(Path(repository)):
        ours, places = answer(tables, refusals, kept.question)
        if ours != kept.record or places != 1:
            theirs = f"{kept.question}\nthe Rust:       {kept.record.hex()}"
            sys.exit(f"{theirs}\nthe definition: {ours.hex()} (in {places} places of the tables)")
        compared += 1
    without, having = map(len, classes)
    print(
        f"{compared} answers, {without} classes without the flag, {having} with it, {len(refusals)} entries of refusals"
    )


main()
