//! A question to the Rust decoder, and the numbers by which its answer is packed.

use std::fmt;

use crate::mips::{decode_word, Effect, Insn, Op};

/// The source never gives a word more than four operands (`ext` and `ins` do).
pub const OPERAND_SLOTS: usize = 4;

/// What the decoder is asked: a word at an address, with the width flag.
///
/// The order of the members is the order in which lists are sorted: by word
/// first, so that one opcode's words stand together.
#[derive(Debug, Clone, Copy, PartialEq, Eq, PartialOrd, Ord)]
pub struct Ask {
    pub word: u32,
    pub va: u64,
    pub wide: bool,
}

impl Ask {
    pub fn decode(&self) -> Option<Insn> {
        decode_word(self.word, self.va, self.wide)
    }

    pub fn is_accepted(&self) -> bool {
        self.decode().is_some()
    }
}

/// The first three columns of every line; `input.rs` reads them.
impl fmt::Display for Ask {
    fn fmt(&self, f: &mut fmt::Formatter) -> fmt::Result {
        let Ask { word, va, wide } = self;
        write!(f, "{} {va:016x} {word:08x}", *wide as u8)
    }
}

/// The number of a refused word. The source only says `None`; the project tells
/// the refusals apart by the table that refused, which the op field names.
pub fn refusal_number(word: u32) -> u8 {
    match word >> 26 {
        0 => 3,  // SPECIAL
        1 => 4,  // REGIMM
        16 => 5, // COP0
        17 => 6, // COP1
        28 => 7, // SPECIAL2
        31 => 8, // SPECIAL3
        _ => 2,  // the op itself
    }
}

/// The parts of an effect; what an effect does not have stays zero.
#[derive(Default)]
pub struct EffectParts {
    pub kind: u8,
    pub first: u8,
    pub second: u8,
    pub size: u8,
    pub value: u64,
}

impl EffectParts {
    /// The kinds count in the order of the source's `Effect`.
    pub fn of(effect: Effect) -> EffectParts {
        // `as u64` keeps a negative number's two's complement.
        let (kind, first, second, size, value) = match effect {
            Effect::None => (0, 0, 0, 0, 0),
            Effect::SetAddr(r, v) => (1, r, 0, 0, v),
            Effect::AddImm(a, b, imm) => (2, a, b, 0, imm as u64),
            Effect::Mem(a, b, imm, s) => (3, a, b, s, imm as u64),
            Effect::Write(r) => (4, r, 0, 0, 0),
        };
        EffectParts {
            kind,
            first,
            second,
            size,
            value,
        }
    }
}

/// One operand slot; an unused slot is all zero.
#[derive(Default, Clone, Copy)]
pub struct Slot {
    pub kind: u8,
    pub register: u8,
    pub value: u64,
}

impl Slot {
    /// The kinds count from 1 in the order of the source's `Op`.
    pub fn of(op: &Op) -> Slot {
        let (kind, register, value) = match *op {
            Op::Reg(r) => (1, r, 0),
            Op::FReg(r) => (2, r, 0),
            Op::Imm(v) => (3, 0, v as u64),
            Op::Mem(offset, base) => (4, base, offset as u64),
            Op::Addr(v) => (5, 0, v),
            Op::Cop0(r) => (6, r, 0),
        };
        Slot {
            kind,
            register,
            value,
        }
    }
}
