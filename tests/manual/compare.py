#!/usr/bin/env python3
"""Compare the manual's pages with two disassemblers, word by word.

    compare.py REPOSITORY FOLDER

FOLDER has the words (words.py) and what the tools print for them. It compares whether the word is defined, its
mnemonic, its operands in the Format line's order, and the target of a branch or jump. A difference must be explained by
a rule of the tables below. It prints each rule with its counts, the differences that no rule explains, and last a line
of sums. The exit status is 1 if a difference is not explained, or if a rule explains nothing.
"""
import collections
import struct
import sys

from pages import MIPS32, REGION_BITS, WORD_BITS, WORD_BYTES, pages_of
from tools import operands_of, read_llvm, read_objdump

# what is compared: a tool for one architecture. MIPS64 has all pages, MIPS32 those that are not MIPS64's alone
BINUTILS = ("binutils-64", "binutils-32")
LLVM = ("llvm-64", "llvm-32")
BOTH = BINUTILS + LLVM
WIDE = ("binutils-64", "llvm-64")
SHOWN = 20  # how many kinds of unexplained differences are printed for each run

Reading = collections.namedtuple("Reading", "name operands")


def named(text):
    return tuple(text.split())


# ── how a tool spells a reading ──
#
# A rewrite takes a page, a word of it, the word's address and the reading so far, and gives the reading as a tool
# prints it.

HALF_CODE = 10  # `break` is printed with its code in two halves of this many bits
SIGNED = 2**63  # addresses from here on are below 0


def renamed(names):
    return lambda page, word, at, told: told._replace(name=names[told.name])


def place_of(page, word, arg):
    """Which operand is it? None if the Format line has no such operand."""
    args = page.args(word)
    return args.index(arg) if arg in args else None


def marked(mark):
    """cc as a register, wherever it is printed."""

    def rewrite(page, word, at, told):
        place = place_of(page, word, ("unsigned", "Cc"))
        if place is None:
            return told
        operands = list(told.operands)
        operands[place] = (mark, operands[place][1])
        return told._replace(operands=operands)

    return rewrite


def with_code(page, word, at, told):
    code = page.field(word, "Code")
    return told._replace(operands=told.operands + [("#", code)]) if code else told


def with_code_halves(page, word, at, told):
    halves = divmod(page.field(word, "Code"), 2**HALF_CODE)
    count = 2 if halves[1] else 1 if halves[0] else 0
    return told._replace(operands=told.operands + [("#", half) for half in halves[:count]])


def with_zero_first(page, word, at, told):
    return told._replace(operands=[("$", 0)] + told.operands)


def as_shift_of_zero(page, word, at, told):
    """The idioms are `sll zero, zero, sa`, which leaves nothing in the word but sa."""
    return Reading("sll", [("$", 0), ("$", 0), ("#", word >> 6)])


def with_zeros_compared(name, count):
    return lambda page, word, at, told: Reading(name, [("$", 0)] * count + told.operands)


def short_if_zero(field, names):
    """Under another name and without the register, if the register is number 0."""

    def rewrite(page, word, at, told):
        place = place_of(page, word, ("gpr", field))
        if place is None or told.operands[place][1]:
            return told
        return Reading(names[told.name], told.operands[:place] + told.operands[place + 1 :])

    return rewrite


def without_zero(page, word, at, told):
    return told._replace(operands=[operand for operand in told.operands if operand[1]])


def target_as(number):
    """The target of a branch or jump as another number, made of it and of the word's address."""

    def rewrite(page, word, at, told):
        operands = [("#", number(part[1], at)) if part[0] == "to" else part for part in told.operands]
        return told._replace(operands=operands)

    return rewrite


def distance(target, at):
    """Below 0 for a target before the word."""
    return (target - at + SIGNED) % (2 * SIGNED) - SIGNED


def within_region(target, at):
    return target % 2**REGION_BITS


def with_sel(page, word, at, told):
    return told if page.field(word, "Sel") else told._replace(operands=told.operands + [("#", 0)])


def size_modulo(bits):
    def rewrite(page, word, at, told):
        pairs = zip(page.args(word), told.operands)
        return told._replace(operands=[("#", part[1] % 2**bits) if arg[0] == "span" else part for arg, part in pairs])

    return rewrite


def with_both_targets(join):
    """clz and its kin name their target in rt and in rd; where these differ, which is forbidden, a tool prints both
    somehow."""

    def rewrite(page, word, at, told):
        rt, rd = page.field(word, "Rt"), page.field(word, "Rd")
        return told if rt == rd else told._replace(operands=[join(rt, rd)] + told.operands[1:])

    return rewrite


def either(rt, rd):
    return ("text", f"${rd} or ${rt}") if rt and rd else ("$", rt or rd)


def bits_of_both(rt, rd):
    return "$", rt | rd


def impl_parts(impl):
    """Impl as a register's number, the eight bits below, and three bits that can choose among registers of that
    number."""
    return impl >> 11, impl >> 3 & 0xFF, impl & 7


def as_register_and_sel(zero_printed):
    def rewrite(page, word, at, told):
        place = place_of(page, word, ("unsigned", "Impl"))
        if place is None:
            return told
        register, between, sel = impl_parts(told.operands[place][1])
        printed = [("$", register)] + [("#", sel)] * (sel > 0 or zero_printed)
        return told if between else told._replace(operands=told.operands[:place] + printed + told.operands[place + 1 :])

    return rewrite


# ── rules of spelling ──
#
# A rule says what the tool always prints for words of these pages: the tool's text is compared with the page's reading
# after all rules that are for the page, in this order.

Spelling = collections.namedtuple("Spelling", "name runs pages rewrite text")

CONDITIONS = named("f un eq ueq olt ult ole ule sf ngle seq ngl lt nge le ngt")
COMPARES_PS = tuple(f"c.{condition}.ps" for condition in CONDITIONS)
COMPARES = tuple(f"c.{condition}.{fmt}" for condition in CONDITIONS for fmt in ("s", "d")) + COMPARES_PS
MOVES_ON_CC = named("movf movt movf.s movt.s movf.d movt.d movf.ps movt.ps")
BRANCHES_1 = named("bc1f bc1t bc1fl bc1tl")
BRANCHES_2 = named("bc2f bc2t bc2fl bc2tl")
BRANCHES = BRANCHES_1 + named(
    "b bal beq bne beql bnel bltz bgez bltzl bgezl bltzal bgezal bltzall bgezall blez bgtz blezl bgtzl"
)
CODES = named("syscall tge tgeu tlt tltu teq tne wait")
MOVES_2 = named("mfc2 dmfc2 mtc2 dmtc2")
OTHER_MOVES_2 = named("cfc2 ctc2 mfhc2 mthc2")
MOVES_0 = named("mfc0 mtc0 dmfc0 dmtc0")
DIVISIONS = named("div divu ddiv ddivu")
COUNTS = named("clz clo dclz dclo")
INSERTS = named("ins dins dinsm dinsu")
ROTATED = {"rotr": "ror", "rotrv": "rorv", "drotr": "dror", "drotr32": "dror32", "drotrv": "drorv"}
NEGATED = {"sub": "neg", "subu": "negu", "dsub": "dneg", "dsubu": "dnegu"}
MOVED = {"or": "move", "addu": "move", "daddu": "move", "nor": "not"}
ZERO_BRANCHES = {"beq": "beqz", "bne": "bnez", "beql": "beqzl", "bnel": "bnezl"}
ONE_NAME = {"dextm": "dext", "dextu": "dext", "dinsm": "dins", "dinsu": "dins"}

SPELLINGS = (
    Spelling(
        "ror", BINUTILS, tuple(ROTATED), renamed(ROTATED),
        "rotr, rotrv, drotr, drotrv, drotr32 are called ror and so on",
    ),
    Spelling("c2", BINUTILS, ("cop2",), renamed({"cop2": "c2"}), "cop2 is called c2"),
    Spelling(
        "sll-idioms", BINUTILS, named("nop ssnop ehb"), as_shift_of_zero,
        "nop, ssnop, ehb: the sll that they are",
    ),
    Spelling("b-idiom", BINUTILS, ("b",), with_zeros_compared("beq", 2), "b: the beq that it is"),
    Spelling("bal-idiom", BINUTILS, ("bal",), with_zeros_compared("bgezal", 1), "bal: the bgezal that it is"),
    Spelling(
        "neg", BOTH, tuple(NEGATED), short_if_zero("Rs", NEGATED),
        "sub, subu, dsub, dsubu from register 0 are called neg, negu, dneg, dnegu",
    ),
    Spelling("dli", ("binutils-64",), ("ori",), short_if_zero("Rs", {"ori": "dli"}), "ori with rs 0 is called dli"),
    Spelling(
        "move", LLVM, tuple(MOVED), short_if_zero("Rt", MOVED),
        "or, addu, daddu with rt 0 are called move; nor is called not",
    ),
    Spelling(
        "beqz", LLVM, tuple(ZERO_BRANCHES), short_if_zero("Rt", ZERO_BRANCHES),
        "beq, bne, beql, bnel with rt 0 are called beqz, bnez, beqzl, bnezl",
    ),
    Spelling(
        "jalr-as-jr", LLVM, ("jalr",), short_if_zero("Rd", {"jalr": "jr"}),
        "jalr with rd 0 is called jr, as in release 6",
    ),
    Spelling(
        "dext-dins", WIDE, tuple(ONE_NAME), renamed(ONE_NAME),
        "dextm, dextu are called dext; dinsm, dinsu are called dins",
    ),
    Spelling("cc-as-fcc", BOTH, BRANCHES_1 + MOVES_ON_CC + COMPARES, marked("$fcc"), "cc 3 is printed as $fcc3"),
    Spelling("cc-as-cc", BINUTILS, BRANCHES_2, marked("$cc"), "cc 3 of a branch on coprocessor 2 is printed as $cc3"),
    Spelling(
        "code-printed", BOTH, CODES, with_code,
        "a code that the Format line leaves out is printed, if it is not 0",
    ),
    Spelling(
        "code-in-halves", BOTH, ("break",), with_code_halves,
        "break's code is printed as two ten-bit numbers, no last 0",
    ),
    Spelling(
        "div-of-three", BOTH, DIVISIONS, with_zero_first,
        "div, divu, ddiv, ddivu are printed with register 0 first",
    ),
    Spelling("zero-left-out", BOTH, ("sdbbp",), without_zero, "the code of sdbbp is left out if it is 0"),
    Spelling("sel-0-printed", LLVM, MOVES_0, with_sel, "sel is printed even if it is 0"),
    Spelling(
        "impl-as-register", BINUTILS, MOVES_2 + OTHER_MOVES_2, as_register_and_sel(False),
        "Impl with bits 10..3 zero is printed as a register, and bits 2..0 as sel",
    ),
    Spelling("impl-as-two", LLVM, MOVES_2, as_register_and_sel(True), "the same, and sel is printed even if it is 0"),
    Spelling("size-modulo-64", LLVM, INSERTS, size_modulo(6), "the size of ins, dins is printed modulo 64: 64 as 0"),
    Spelling(
        "size-modulo-2^32", BINUTILS, INSERTS, size_modulo(32),
        "a negative size of ins, dins is printed modulo 2^32",
    ),
    Spelling(
        "target-or-target", BINUTILS, COUNTS, with_both_targets(either),
        "clz with rt 2, rd 3 is printed with `$3 or $2`; with the other if one is 0",
    ),
    Spelling(
        "target-bits", LLVM, COUNTS, with_both_targets(bits_of_both),
        "clz with rt 2, rd 5 is printed with $7, both's bits",
    ),
    Spelling("distance", LLVM, BRANCHES, target_as(distance), "a branch is printed with the distance to its target"),
    Spelling(
        "region-left-out", LLVM, named("j jal"), target_as(within_region),
        "a jump is printed with its target's bits 27..0",
    ),
)

# ── rules of scope: words that one side has and the other lacks ──

# the page has the word, the tool does not know it
LeftOut = collections.namedtuple("LeftOut", "name runs pages when text")
# the page forbids the word, the tool prints it nevertheless, as the page would have it; `when` says why it is
# forbidden, a second time, so that a page that forbids more or less is noticed
Forbidden = collections.namedtuple("Forbidden", "name runs pages when text")
# no page has the word, the tool prints it: one of these words (mask/value) under one of these names, or under any name
# if none is given
Added = collections.namedtuple("Added", "name runs names words text")
# no page has the word, the tool reads it as if these bits were zero
Ignored = collections.namedtuple("Ignored", "name runs words bits text")

LLVM_HARDWARE_REGISTER = 29
LINK_REGISTER = 31
READABLE_CONTROL_REGISTERS = (0, 25, 26, 28, 31)
WRITABLE_CONTROL_REGISTERS = (25, 26, 28, 31)
RESERVED_HARDWARE_REGISTERS = range(4, 29)
PAIRED_SINGLES = COMPARES_PS + named(
    "abs.ps mov.ps neg.ps movf.ps movt.ps movz.ps movn.ps alnv.ps madd.ps msub.ps nmadd.ps nmsub.ps"
)


def always(page, word):
    return True


def fields_are(names, test):
    """Is the test true of these fields?"""
    return lambda page, word: test(*(page.field(word, name) for name in named(names)))


LEFT_OUT = (
    LeftOut(
        "impl-between", BOTH, MOVES_2, fields_are("Impl", lambda impl: impl_parts(impl)[1] > 0),
        "mfc2, dmfc2, mtc2, dmtc2: of Impl the tool knows a register and sel, not bits 10..3",
    ),
    LeftOut(
        "impl-below", BINUTILS, named("cfc2 ctc2"), fields_are("Impl", lambda impl: any(impl_parts(impl)[1:])),
        "cfc2, ctc2: of Impl the tool knows a register, not bits 10..0",
    ),
    LeftOut(
        "no-cop2", LLVM, OTHER_MOVES_2 + BRANCHES_2 + ("cop2",), always,
        "no cfc2, ctc2, mfhc2, mthc2, cop2, bc2f and so on",
    ),
    LeftOut(
        "no-paired-single", LLVM, PAIRED_SINGLES, always,
        "of ps only add, sub, mul, pll and its kin, and conversions",
    ),
    LeftOut("no-prefx", LLVM, ("prefx",), always, "no prefx"),
    LeftOut("no-shadow-registers", LLVM, named("rdpgpr wrpgpr"), always, "no rdpgpr, wrpgpr"),
    LeftOut("no-wait-code", LLVM, ("wait",), fields_are("Code", lambda code: code > 0), "wait with code 0 only"),
    LeftOut(
        "one-hardware-register", LLVM, ("rdhwr",), fields_are("Rd", lambda rd: rd != LLVM_HARDWARE_REGISTER),
        "rdhwr of register 29 only",
    ),
)

FORBIDDEN = (
    Forbidden(
        "jalr-same-register", BOTH, named("jalr jalr.hb"), fields_are("Rs Rd", lambda rs, rd: rs == rd),
        "jalr, jalr.hb: rs is rd",
    ),
    Forbidden(
        "link-register-tested", BOTH, named("bltzal bgezal bltzall bgezall"),
        fields_are("Rs", lambda rs: rs == LINK_REGISTER),
        "bltzal, bgezal, bltzall, bgezall: rs is 31",
    ),
    Forbidden(
        "count-with-two-targets", BOTH, COUNTS, fields_are("Rt Rd", lambda rt, rd: rt != rd),
        "clz, clo, dclz, dclo: rt is not rd",
    ),
    Forbidden(
        "ext-past-the-end", BOTH, named("ext dextm dextu"),
        fields_are("Lsb Msbd", lambda lsb, msbd: lsb + msbd + 1 > WORD_BITS),
        "ext, dextm, dextu: position and size together are above 32, or 64",
    ),
    Forbidden(
        "ins-below-one", BOTH, named("ins dins dinsu"), fields_are("Lsb Msb", lambda lsb, msb: lsb > msb),
        "ins, dins, dinsu: the size is 0 or negative",
    ),
    Forbidden(
        "no-readable-control", BOTH, ("cfc1",), fields_are("Fs", lambda fs: fs not in READABLE_CONTROL_REGISTERS),
        "cfc1: a register that does not exist",
    ),
    Forbidden(
        "no-writable-control", BOTH, ("ctc1",), fields_are("Fs", lambda fs: fs not in WRITABLE_CONTROL_REGISTERS),
        "ctc1: a register that does not exist, or register 0, which cannot be written",
    ),
    Forbidden(
        "odd-condition-code", BINUTILS, COMPARES_PS + named("movf.ps movt.ps"),
        fields_are("Cc", lambda cc: cc % 2 == 1),
        "c.cond.ps, movf.ps, movt.ps: cc is odd",
    ),
    Forbidden(
        "no-hardware-register", BINUTILS, ("rdhwr",), fields_are("Rd", lambda rd: rd in RESERVED_HARDWARE_REGISTERS),
        "rdhwr: registers 4 to 28, which are reserved",
    ),
)

# functs of SPECIAL3 that extensions have
EVA_FUNCTS = (*range(0x19, 0x20), 0x21, 0x22, 0x23, 0x28, 0x29, *range(0x2C, 0x30))
DSP_FUNCTS = (0x0A, 0x0C, 0x10, 0x11, 0x12, 0x13, 0x18, 0x30, 0x31, 0x38)
DSP64_FUNCTS = (0x0D, 0x14, 0x15, 0x16, 0x17, 0x34, 0x3C)


def of_special3(mask, functs):
    return " ".join(f"{mask:08x}/{0x7C000000 | funct:08x}" for funct in functs)


ADDED = (
    Added("any-cop0", BINUTILS, "c0", "fe000000/42000000", "a name, c0, for any word of COP0 with bit 25 set"),
    Added("any-cop1", BINUTILS, "c1", "fe000000/46000000", "a name, c1, for any word of COP1 with bit 25 set"),
    Added("jalx", BOTH, "jalx", "fc000000/74000000", "jalx, the jump to MIPS16e or microMIPS code"),
    Added(
        "user-defined", BINUTILS, " ".join(f"udi{n}" for n in range(16)), "fc000030/70000010",
        "SPECIAL2's user-defined words",
    ),
    Added(
        "msa", BINUTILS, "",
        "fc000000/78000000 ffe00000/45600000 ffe00000/45e00000 ff000000/47000000 fc00073f/00000005",
        "the extension MSA: op 30, bz and bnz in COP1, lsa",
    ),
    Added("msa-64", ("binutils-64",), "dlsa", "fc00073f/00000015", "MSA for MIPS64: dlsa"),
    Added(
        "dsp", BINUTILS, "", of_special3(0xFC00003F, DSP_FUNCTS) + " ffff0000/041c0000",
        "the extension DSP: functs of SPECIAL3, bposge32",
    ),
    Added(
        "dsp-accumulators", BINUTILS, "mult multu madd maddu msub msubu mfhi mflo mthi mtlo",
        "fc00e7fe/00000018 fc00e7fe/70000000 fc00e7fe/70000004 ff9f07fd/00000010 fc1fe7fd/00000011",
        "DSP: mult, madd, mfhi and so on with accumulators 1 to 3",
    ),
    Added(
        "dsp-64", ("binutils-64",), "", of_special3(0xFC00003F, DSP64_FUNCTS) + " ffff0000/041d0000",
        "DSP for MIPS64: functs of SPECIAL3, bposge64",
    ),
    Added(
        "mt", BINUTILS, "", "fc0007ff/7c000008 fc1f07ff/7c000009 ffe007c8/41000000 ffe007c8/41800000 ffe0ffdf/41600001",
        "the extension MT: fork, yield, mftr, mttr, dvpe, evpe",
    ),
    Added(
        "mips-3d", BINUTILS, "",
        "ffe20000/45200000 ffe20000/45400000"
        " ffe000f0/46000070 ffe000f0/46200070 ffe000f0/46c00070 ffe0003c/4600001c ffe0003c/4620001c ffe0003c/46c0001c"
        " ffe0003d/46c00018 ffff003f/46c00024 ffff003f/46800026",
        "the extension MIPS-3D: bc1any, cabs, recip1 and its kin, addr.ps, mulr.ps, cvt.pw.ps, cvt.ps.pw",
    ),
    Added(
        "eva", BINUTILS, "", of_special3(0xFC00007F, EVA_FUNCTS) + " ffffffff/42000003 ffffffff/42000004",
        "the extension EVA: functs of SPECIAL3, tlbinv, tlbinvf",
    ),
    Added("xpa", BINUTILS, "mfhc0 mthc0", "ff6007f8/40400000", "the extension XPA: mfhc0, mthc0"),
    Added(
        "vz", BINUTILS, "",
        "ffe000f8/40600000 ffffffff/42000009 ffffffff/4200000a ffffffff/4200000b ffffffff/4200000c ffffffff/4200000e"
        " ffffffff/42000010 ffe007ff/42000028",
        "the extension VZ: mfgc0 and its kin, tlbgr and its kin, hypcall",
    ),
    Added(
        "mcu", BINUTILS, "aclr aset iret", "fc1f0000/04070000 ffffffff/42000038",
        "the extension MCU: aclr, aset, iret",
    ),
    Added(
        "smartmips", ("binutils-32",), "",
        "ffff07ff/00000052 fc1fffff/00000053 fc0007ff/70000088 fc0007ff/70000481 fc00ffff/00000459 fc00ffff/70000441",
        "the extension SmartMIPS: mflhxu, mtlhx, lwxs, pperm, multp, maddp",
    ),
    Added("rdhwr-sel", LLVM, "rdhwr", "ffe0fe3f/7c00e83b", "rdhwr with sel, as in release 6"),
)

IGNORED = (Ignored("sync-bits", LLVM, "fc00003f/0000000f", 0x03FFF800, "sync: bits 25..11 are not looked at"),)

GROUPS = (
    ("spelling", SPELLINGS),
    ("scope: left out", LEFT_OUT),
    ("scope: forbidden", FORBIDDEN),
    ("scope: added", ADDED + IGNORED),
)


def patterns_of(rule):
    return [tuple(int(number, 16) for number in pattern.split("/")) for pattern in rule.words.split()]


def fits(patterns, word):
    return any(word & mask == value for mask, value in patterns)


ADDED_WORDS = [(rule, set(rule.names.split()), patterns_of(rule)) for rule in ADDED]
IGNORED_WORDS = [(rule, patterns_of(rule)) for rule in IGNORED]


# ── comparing ──

# what the pages say of a word: the page, whether it defines the word, and its reading. A page that draws the word but
# forbids it is here too, with the reading that it would have
Said = collections.namedtuple("Said", "page defined reading")
OP_AND_FUNCT, FUNCTS = 0xFC00003F, 64


class Table:
    """The pages of one architecture, found by op and funct."""

    def __init__(self, pages):
        self.found = collections.defaultdict(list)
        for page in pages:
            op = page.value & OP_AND_FUNCT & -FUNCTS
            for key in (op | funct for funct in range(FUNCTS)):
                if (page.value ^ key) & page.mask & OP_AND_FUNCT == 0:
                    self.found[key].append(page)

    def said(self, word, at):
        """Where two pages define a word, the first one is meant."""
        drawn = [page for page in self.found[word & OP_AND_FUNCT] if page.drawn(word)]
        if not drawn:
            return Said(None, False, None)
        allowed = [page for page in drawn if page.allowed(word)]
        page = (allowed or drawn)[0]
        return Said(page, bool(allowed), Reading(page.name, page.operands(word, at)))


def by_page(rules, run):
    """The rules for each page, in the order of their table."""
    found = collections.defaultdict(list)
    for rule in rules:
        for name in rule.pages if run in rule.runs else ():
            found[name].append(rule)
    return found


class Comparison:
    """One run: what a tool says, compared with what the pages say."""

    def __init__(self, run, table):
        self.run, self.table = run, table
        self.spellings, self.left_out = by_page(SPELLINGS, run), by_page(LEFT_OUT, run)
        self.forbidden = by_page(FORBIDDEN, run)
        self.rules, self.sums, self.unexplained = collections.Counter(), collections.Counter(), {}

    def spelled(self, said, word, at):
        """The pages' reading as the tool spells it, and the rules that were used."""
        told, used = said.reading, []
        for rule in self.spellings[said.page.name]:
            other = rule.rewrite(said.page, word, at, told)
            used += [rule.name] if other != told else []
            told = other
        return Reading(told.name, [("#", part[1]) if part[0] == "to" else part for part in told.operands]), used

    def same(self, said, word, at, answer):
        """The spelling rules that make the pages' reading the tool's; None if they do not."""
        told, used = self.spelled(said, word, at)
        return used if told.name == answer[0] and told.operands == operands_of(answer[1]) else None

    def added(self, word, at, answer):
        """The rules that explain a word that no page has."""
        for rule, names, patterns in ADDED_WORDS:
            if self.run in rule.runs and (not names or answer[0] in names) and fits(patterns, word):
                return [rule.name]
        for rule, patterns in IGNORED_WORDS:
            kept = word & ~rule.bits
            said = self.table.said(kept, at)
            if self.run in rule.runs and fits(patterns, word) and said.defined:
                used = self.same(said, kept, at, answer)
                return None if used is None else [rule.name] + used
        return None

    def explain(self, said, word, at, answer):
        """(neither, agree, spelling or scope; the rules), or None if nothing explains the difference."""
        if answer is None and not said.defined:
            return "neither", []
        if answer is None:
            rules = [rule.name for rule in self.left_out[said.page.name] if rule.when(said.page, word)]
            return ("scope", rules) if rules else None
        if said.page is None:
            rules = self.added(word, at, answer)
            return ("scope", rules) if rules else None
        used = self.same(said, word, at, answer)
        reasons = [rule.name for rule in self.forbidden[said.page.name] if rule.when(said.page, word)]
        if used is None or said.defined == bool(reasons):
            return None
        if reasons:
            return "scope", reasons + used
        return ("spelling" if used else "agree"), used

    def add(self, said, word, at, answer):
        found = self.explain(said, word, at, answer)
        kind, rules = found or ("unexplained", [])
        self.sums[kind] += 1
        self.rules.update(rules)
        if not found:
            self.note(said, word, at, answer)

    def note(self, said, word, at, answer):
        """Keep the first difference of each page and each name that the tool has for it."""
        name = "reserved" if said.page is None else said.page.name if said.defined else f"{said.page.name} (forbidden)"
        spelled = "" if said.page is None else f" {self.spelled(said, word, at)[0]}"
        answered = " ".join(answer) if answer else "nothing"
        line = f"{self.run}: {word:08x} at {at:x}: the pages say {name}{spelled}; the tool says {answered}"
        self.unexplained.setdefault((name, answer and answer[0]), line)


# ── the answers, and what is printed ──


def answers_of(folder, run, words, base):
    if run in BINUTILS:
        return read_objdump(f"{folder}/{run}.txt", words, base)
    return read_llvm(f"{folder}/{run}.txt", f"{folder}/{run}.messages", words)


def words_of(folder):
    with open(f"{folder}/words.bin", "rb") as file:
        data = file.read()
    with open(f"{folder}/base", encoding="ascii") as file:
        base = int(file.read(), 16)
    return struct.unpack(f">{len(data) // WORD_BYTES}I", data), base


def compared(pages, folder):
    """The four runs' comparisons by name, and how many words there are."""
    words, base = words_of(folder)
    found = {}
    for bits, of_them in (("64", pages), ("32", [page for page in pages if page.isa == MIPS32])):
        table = Table(of_them)
        runs = [run for run in BOTH if run.endswith(bits)]
        found.update((run, Comparison(run, table)) for run in runs)
        answers = [answers_of(folder, run, words, base) for run in runs]
        for index, word in enumerate(words):
            at = base + WORD_BYTES * index
            said = table.said(word, at)
            for run, given in zip(runs, answers):
                found[run].add(said, word, at, given[index])
    return found, len(words)


def sums_text(run, sums):
    outright = f"{sums['agree'] + sums['neither']} agree outright ({sums['neither']} defined by neither)"
    explained = f"{sums['spelling']} by spelling, {sums['scope']} by scope"
    return f"{run}: {outright}, {explained}, {sums['unexplained']} unexplained"


def print_rules(comparisons):
    """Print each rule with its counts; give back the rules that explain nothing."""
    print(f"{'rule':23}{'group':17}" + "".join(f"{run:>12}" for run in BOTH) + "  what it explains")
    idle = []
    for group, rule in ((group, rule) for group, rules in GROUPS for rule in rules):
        counts = [comparisons[run].rules[rule.name] for run in BOTH]
        print(f"{rule.name:23}{group:17}" + "".join(f"{count or '-':>12}" for count in counts) + f"  {rule.text}")
        idle += [f"{rule.name} ({run})" for run, count in zip(BOTH, counts) if run in rule.runs and not count]
    return idle


def main():
    repository, folder = sys.argv[1:]
    comparisons, count = compared(pages_of(repository), folder)
    idle = print_rules(comparisons)
    for comparison in comparisons.values():
        for line in list(comparison.unexplained.values())[:SHOWN]:
            print("unexplained:", line)
    if idle:
        print("rules that explain nothing:", ", ".join(idle))
    print(f"{count} words; " + "; ".join(sums_text(run, comparisons[run].sums) for run in BOTH))
    sys.exit(1 if idle or any(comparison.unexplained for comparison in comparisons.values()) else 0)


if __name__ == "__main__":
    main()
