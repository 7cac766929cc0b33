"""The packed record and the printed line of its reading. Written from document 01, `Packed record` and `The printed
line`, and from docs/DECISIONS.md, which says when 80 bytes are not the record of any reading."""
import struct
from dataclasses import dataclass, field
from typing import NamedTuple

RECORD_BYTES = 80
SLOTS = 4
REGISTERS = 32
NO_READING, UNPRINTABLE = 9, 10
REG, FREG, IMM, MEM, ADDR, COP0 = 1, 2, 3, 4, 5, 6
REGS = (
    "zero at v0 v1 a0 a1 a2 a3 t0 t1 t2 t3 t4 t5 t6 t7 s0 s1 s2 s3 s4 s5 s6 s7 t8 t9 k0 k1 gp sp fp ra"
).split()  # fmt: skip
# The kinds of operands that have a register, and those that have a value.
WITH_REGISTER = (REG, FREG, MEM, COP0)
WITH_VALUE = (IMM, MEM, ADDR)
# What each effect has: first register, second, size, value.
EFFECT_PARTS = ((0, 0, 0, 0), (1, 0, 0, 1), (1, 1, 0, 1), (1, 1, 1, 1), (1, 0, 0, 0))
LAST_FLOW = 5
MARK, HAS_TARGET = 1, 2


class Operand(NamedTuple):
    kind: int
    register: int
    value: int  # as 64 bits


@dataclass
class Record:
    """The parts of a record as they stand, whether or not a reading has them."""

    name: bytes
    number: int = 0
    flow: int = 0
    marks: int = 0
    count: int = 0
    target: int = 0
    effect: tuple = (0, 0, 0, 0, 0)
    operands: list = field(default_factory=list)

    def packed(self):
        unused = [Operand(0, 0, 0)] * (SLOTS - len(self.operands))
        slots = b"".join(struct.pack("<BBQ", *operand) for operand in self.operands + unused)
        head = struct.pack("<BBBBQ", self.number, self.flow, self.marks, self.count, self.target)
        return head + struct.pack("<BBBBQ", *self.effect) + slots + self.name.ljust(16, b"\0")


def unpacked(data):
    """The first 80 bytes as parts; all four slots are operands."""
    number, flow, marks, count, target = struct.unpack_from("<BBBBQ", data)
    effect = struct.unpack_from("<BBBBQ", data, 12)
    operands = [Operand(*slot) for slot in struct.iter_unpack("<BBQ", data[24:64])]
    return Record(data[64:80].rstrip(b"\0"), number, flow, marks, count, target, effect, operands)


# ── is it the record of a reading? ──


def effect_is_good(effect):
    kind, *parts = effect
    return kind < len(EFFECT_PARTS) and all(has or not part for has, part in zip(EFFECT_PARTS[kind], parts))


def operand_is_good(operand, used):
    kind, register, value = operand
    if not used:
        return operand == (0, 0, 0)
    return REG <= kind <= COP0 and (kind in WITH_REGISTER or not register) and (kind in WITH_VALUE or not value)


def is_reading(record, names):
    return (
        record.number == 0
        and record.flow <= LAST_FLOW
        and record.marks <= MARK + HAS_TARGET
        and (record.target == 0 or bool(record.marks & HAS_TARGET))
        and effect_is_good(record.effect)
        and all(operand_is_good(operand, slot < record.count) for slot, operand in enumerate(record.operands))
        and record.name in names
    )


# ── the line ──


def signed(value):
    return value - 2**64 if value >= 2**63 else value


def operand_text(operand):
    kind, register, value = operand
    if kind == REG:
        return REGS[register]
    if kind == FREG:
        return f"f{register}"
    if kind == IMM:
        return f"{signed(value)}"
    if kind == MEM:
        return f"{signed(value)}({REGS[register]})"
    return f"0x{value:x}" if kind == ADDR else f"c0r{register}"


def line(data, names):
    """Number and line for at least 80 bytes, if there is room enough. `names` are the mnemonics."""
    record = unpacked(data)
    if not is_reading(record, names):
        return NO_READING, ""
    used = record.operands[: record.count]
    if record.count > SLOTS or any(operand.kind in WITH_REGISTER and operand.register >= REGISTERS for operand in used):
        return UNPRINTABLE, ""
    name = record.name.decode()
    return 0, f"{name} {', '.join(operand_text(operand) for operand in used)}" if used else name
