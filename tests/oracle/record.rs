//! The packed record that the library hands to a host program in C: 80 bytes,
//! made of an answer of the Rust, and read back into one.
//!
//! Both ways are written from the description of the record in
//! `include/calmuredda.h`; the library's own packing is not looked at. Numbers are
//! little-endian, negative ones are two's complement, and whatever is absent is zero.

use crate::answer::{refusal_number, Ask, EffectParts, Slot, OPERAND_SLOTS};
use crate::mips::{decode, Effect, Insn, Op};
use crate::model::Flow;

pub const RECORD_BYTES: usize = 80;
pub type Record = [u8; RECORD_BYTES];

// Where the parts start.
pub const NUMBER: usize = 0;
const FLOW: usize = 1;
pub const MARKS: usize = 2;
const COUNT: usize = 3;
pub const TARGET: usize = 4;
const EFFECT: usize = 12;
pub const FIRST: usize = 13;
pub const SECOND: usize = 14;
const SIZE: usize = 15;
pub const VALUE: usize = 16;
const OPERANDS: usize = 24;
const MNEMONIC: usize = 64;

// And those of an operand, from its first byte on.
const OPERAND_BYTES: usize = 10;
const KIND_OF_OPERAND: usize = 0;
const REGISTER_OF_OPERAND: usize = 1;
const VALUE_OF_OPERAND: usize = 2;

/// Bits of the byte at `MARKS`.
const DELAY_SLOT: u8 = 1;
const TARGET_PRESENT: u8 = 2;

pub const NUMBER_BYTES: usize = 8;
pub const WORD_BYTES: usize = 4;

/// The numbers of slices that are shorter than a word, and than a record.
const SHORT: u8 = 1;
pub const SHORT_RECORD: u8 = 16;

/// The encoder's answers without a word, as number * 2^32: no word has the record, or
/// it is too short.
pub const NO_WORD: u64 = 9 << 32;
pub const NO_RECORD: u64 = (SHORT_RECORD as u64) << 32;

/// Where the kind of operand `n` is.
pub fn kind_of(n: usize) -> usize {
    OPERANDS + n * OPERAND_BYTES + KIND_OF_OPERAND
}

/// Where the register of operand `n` is.
pub fn register_of(n: usize) -> usize {
    OPERANDS + n * OPERAND_BYTES + REGISTER_OF_OPERAND
}

/// Where the value of operand `n` starts.
pub fn value_of(n: usize) -> usize {
    OPERANDS + n * OPERAND_BYTES + VALUE_OF_OPERAND
}

/// Where the parts of a record start, each up to the next one.
pub const PARTS: &[usize] = &[
    NUMBER,
    FLOW,
    MARKS,
    COUNT,
    TARGET,
    EFFECT,
    FIRST,
    SECOND,
    SIZE,
    VALUE,
    OPERANDS,
    OPERANDS + OPERAND_BYTES,
    OPERANDS + 2 * OPERAND_BYTES,
    OPERANDS + 3 * OPERAND_BYTES,
    MNEMONIC,
    RECORD_BYTES,
];

fn put_number(bytes: &mut [u8], at: usize, number: u64) {
    bytes[at..][..NUMBER_BYTES].copy_from_slice(&number.to_le_bytes());
}

fn number_at(bytes: &[u8], at: usize) -> u64 {
    let mut number = [0; NUMBER_BYTES];
    number.copy_from_slice(&bytes[at..][..NUMBER_BYTES]);
    u64::from_le_bytes(number)
}

fn put_effect(record: &mut Record, effect: Effect) {
    let effect = EffectParts::of(effect);
    record[EFFECT] = effect.kind;
    record[FIRST] = effect.first;
    record[SECOND] = effect.second;
    record[SIZE] = effect.size;
    put_number(record, VALUE, effect.value);
}

fn put_operand(bytes: &mut [u8], op: &Op) {
    let slot = Slot::of(op);
    bytes[KIND_OF_OPERAND] = slot.kind;
    bytes[REGISTER_OF_OPERAND] = slot.register;
    put_number(bytes, VALUE_OF_OPERAND, slot.value);
}

/// Writes the record of an accepted word. It is written in its place and not handed
/// over, since 80 bytes that were just written piece by piece are slow to move.
fn write_accepted(insn: &Insn, record: &mut Record) {
    assert!(
        insn.ops.len() <= OPERAND_SLOTS,
        "a record has room for four operands"
    );
    let present = match insn.target {
        Some(_) => TARGET_PRESENT,
        None => 0,
    };
    *record = [0; RECORD_BYTES];
    record[FLOW] = insn.flow as u8;
    record[MARKS] = present + if insn.delay_slot { DELAY_SLOT } else { 0 };
    record[COUNT] = insn.ops.len() as u8;
    put_number(record, TARGET, insn.target.unwrap_or(0));
    put_effect(record, insn.effect);
    let operands = record[OPERANDS..MNEMONIC].chunks_exact_mut(OPERAND_BYTES);
    for (bytes, op) in operands.zip(&insn.ops) {
        put_operand(bytes, op);
    }
    let text = insn.mnemonic.as_bytes();
    record[MNEMONIC..][..text.len()].copy_from_slice(text);
}

/// Writes the record of a refusal: its number and zeros.
fn write_refused(number: u8, record: &mut Record) {
    *record = [0; RECORD_BYTES];
    record[NUMBER] = number;
}

/// The record of a reading.
pub fn pack(insn: &Insn) -> Record {
    let mut record = [0; RECORD_BYTES];
    write_accepted(insn, &mut record);
    record
}

/// The word's bytes in memory.
pub fn bytes_of(word: u32, big: bool) -> [u8; WORD_BYTES] {
    match big {
        true => word.to_be_bytes(),
        false => word.to_le_bytes(),
    }
}

/// Writes the record that the library's decoder has to write for these bytes: those of
/// the question's word and any after them, or only the first of them.
pub fn write_record(bytes: &[u8], ask: &Ask, big: bool, record: &mut Record) {
    // By reference: moving a reading that was just made costs nearly as much as packing it.
    match &decode(bytes, ask.va, big, ask.wide) {
        Some(insn) => write_accepted(insn, record),
        None if bytes.len() < WORD_BYTES => write_refused(SHORT, record),
        None => write_refused(refusal_number(ask.word), record),
    }
}

/// The record of the question's word.
pub fn record_of(ask: &Ask) -> Record {
    let mut record = [0; RECORD_BYTES];
    write_record(&bytes_of(ask.word, true), ask, true, &mut record);
    record
}

fn flow_at(record: &Record) -> Option<Flow> {
    match record[FLOW] {
        0 => Some(Flow::None),
        1 => Some(Flow::Call),
        2 => Some(Flow::Jump),
        3 => Some(Flow::CondJump),
        4 => Some(Flow::Ret),
        5 => Some(Flow::Interrupt),
        _ => None,
    }
}

fn effect_at(record: &Record) -> Option<Effect> {
    let (first, second, size) = (record[FIRST], record[SECOND], record[SIZE]);
    let value = number_at(record, VALUE);
    match record[EFFECT] {
        0 => Some(Effect::None),
        1 => Some(Effect::SetAddr(first, value)),
        2 => Some(Effect::AddImm(first, second, value as i64)),
        3 => Some(Effect::Mem(first, second, value as i64, size)),
        4 => Some(Effect::Write(first)),
        _ => None,
    }
}

fn operand_at(record: &Record, n: usize) -> Option<Op> {
    let register = record[register_of(n)];
    let value = number_at(record, value_of(n));
    match record[kind_of(n)] {
        1 => Some(Op::Reg(register)),
        2 => Some(Op::FReg(register)),
        3 => Some(Op::Imm(value as i64)),
        4 => Some(Op::Mem(value as i64, register)),
        5 => Some(Op::Addr(value)),
        6 => Some(Op::Cop0(register)),
        _ => None,
    }
}

fn mnemonic_at(record: &Record) -> Option<String> {
    let text = record[MNEMONIC..].split(|&byte| byte == 0).next()?;
    String::from_utf8(text.to_vec()).ok()
}

/// The reading that the record is made of. Nothing may be left over: a record that
/// is not, byte for byte, what its reading is packed into has none.
pub fn parse(record: &Record) -> Option<Insn> {
    let count = record[COUNT] as usize;
    if count > OPERAND_SLOTS {
        return None;
    }
    let ops: Option<Vec<Op>> = (0..count).map(|n| operand_at(record, n)).collect();
    let present = record[MARKS] & TARGET_PRESENT != 0;
    let insn = Insn {
        mnemonic: mnemonic_at(record)?,
        ops: ops?,
        flow: flow_at(record)?,
        target: if present {
            Some(number_at(record, TARGET))
        } else {
            None
        },
        delay_slot: record[MARKS] & DELAY_SLOT != 0,
        effect: effect_at(record)?,
    };
    if pack(&insn) == *record {
        Some(insn)
    } else {
        None
    }
}
