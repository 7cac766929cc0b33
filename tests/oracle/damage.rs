//! Readings that are a word's in all parts but one. Bytes of a record that are changed
//! one by one seldom make a reading at all; these can all be packed. Most of them are
//! no word's.

use crate::answer::{EffectParts, Slot, OPERAND_SLOTS};
use crate::mips::{Effect, Insn, Op};
use crate::model::Flow;
use crate::smallest::is_same;
use crate::vectors::Random;

const FLOWS: [Flow; 6] = [
    Flow::None,
    Flow::Call,
    Flow::Jump,
    Flow::CondJump,
    Flow::Ret,
    Flow::Interrupt,
];

/// How many other mnemonics a reading is given.
const OTHER_MNEMONICS: usize = 4;

/// A target that is as near as another can be.
const NEAR: u64 = 4;

/// Every kind of operand with the same register and value.
fn operands_like(op: &Op) -> [Op; 6] {
    let slot = Slot::of(op);
    let (register, value) = (slot.register, slot.value);
    [
        Op::Reg(register),
        Op::FReg(register),
        Op::Imm(value as i64),
        Op::Mem(value as i64, register),
        Op::Addr(value),
        Op::Cop0(register),
    ]
}

/// Every kind of effect with the same registers, value and size.
fn effects_like(effect: Effect) -> [Effect; 5] {
    let parts = EffectParts::of(effect);
    let (first, second, value) = (parts.first, parts.second, parts.value);
    [
        Effect::None,
        Effect::SetAddr(first, value),
        Effect::AddImm(first, second, value as i64),
        Effect::Mem(first, second, value as i64, parts.size),
        Effect::Write(first),
    ]
}

fn other_operands(reading: &Insn) -> Vec<Insn> {
    let ops = &reading.ops;
    let mut others = Vec::new();
    for (n, op) in ops.iter().enumerate() {
        for like in operands_like(op) {
            let mut changed = ops.clone();
            changed[n] = like;
            others.push(changed);
        }
        let mut left_out = ops.clone();
        left_out.remove(n);
        others.push(left_out);
        let mut moved = ops.clone();
        moved.swap(0, n);
        others.push(moved);
    }
    if ops.len() < OPERAND_SLOTS {
        let one_more = operands_like(&Op::Reg(0));
        others.extend(one_more.map(|op| [ops.as_slice(), &[op]].concat()));
    }
    let with = |ops| Insn {
        ops,
        ..reading.clone()
    };
    others.into_iter().map(with).collect()
}

fn other_turns(reading: &Insn) -> Vec<Insn> {
    let with_flow = |flow| Insn {
        flow,
        ..reading.clone()
    };
    let with_target = |target| Insn {
        target,
        ..reading.clone()
    };
    let near = reading.target.map(|target| target.wrapping_add(NEAR));
    let mut turns = FLOWS.map(with_flow).to_vec();
    turns.extend([None, Some(0), near].map(with_target));
    let with_marks = |turn: &Insn| {
        [false, true].map(|delay_slot| Insn {
            delay_slot,
            ..turn.clone()
        })
    };
    turns.iter().flat_map(with_marks).collect()
}

fn other_effects(reading: &Insn) -> Vec<Insn> {
    let with = |effect| Insn {
        effect,
        ..reading.clone()
    };
    effects_like(reading.effect).map(with).to_vec()
}

fn other_mnemonics(reading: &Insn, names: &[String], random: &mut Random) -> Vec<Insn> {
    let with = |mnemonic| Insn {
        mnemonic,
        ..reading.clone()
    };
    let pick = |_| names[random.word() as usize % names.len()].clone();
    (0..OTHER_MNEMONICS).map(pick).map(with).collect()
}

/// The reading with one part changed, in every way that is listed above; the mark is
/// changed with each flow and target too.
pub fn readings(reading: &Insn, names: &[String], random: &mut Random) -> Vec<Insn> {
    let mut others = other_operands(reading);
    others.extend(other_turns(reading));
    others.extend(other_effects(reading));
    others.extend(other_mnemonics(reading, names, random));
    others.retain(|other| !is_same(other, reading));
    others
}
