//! The published Rust decoder in the loop of crates/bench_decode: the same input, the same sum.

// The file is kept as published: the loop does not call all of it, and formatting must not touch it.
#[allow(dead_code)]
#[rustfmt::skip]
#[path = "../tests/oracle/mips.rs"]
mod mips;
#[path = "../tests/oracle/model.rs"]
mod model;

use std::io::{self, Read};

use mips::{Insn, Op};

const HEAD_BYTES: usize = 4;

/// The number of a refused word, by the table that refused it: the source only says `None`.
fn refusal_number(word: u32) -> u8 {
    match word >> 26 {
        0 => 3,
        1 => 4,
        16 => 5,
        17 => 6,
        28 => 7,
        31 => 8,
        _ => 2,
    }
}

fn register(op: Option<&Op>) -> u8 {
    match op {
        Some(Op::Reg(r) | Op::FReg(r) | Op::Cop0(r) | Op::Mem(_, r)) => *r,
        _ => 0,
    }
}

/// Number, count, flow, first operand and target of an answer.
fn parts(word: u32, answer: &Option<Insn>) -> u64 {
    match answer {
        None => refusal_number(word) as u64,
        Some(insn) => (insn.ops.len() as u64 + insn.flow as u64 + register(insn.ops.first()) as u64)
            .wrapping_add(insn.target.unwrap_or(0)),
    }
}

fn sum_of(input: &[u8]) -> u64 {
    let (head, words) = input.split_at(HEAD_BYTES);
    let (decoding, wide) = (head[0] != 0, head[1] != 0);
    let word_of = |b: &[u8]| u32::from_le_bytes([b[0], b[1], b[2], b[3]]);
    // With two callers `decode_word` stays a function of its own.
    let mut sum = parts(word_of(head), &mips::decode(head, 0, false, wide));
    let mut va = 0u64;
    for bytes in words.chunks_exact(4) {
        let word = word_of(bytes);
        sum = sum.wrapping_add(if decoding {
            parts(word, &mips::decode_word(word, va, wide))
        } else {
            word as u64
        });
        va = va.wrapping_add(4);
    }
    sum
}

fn main() {
    let mut input = Vec::new();
    io::stdin()
        .read_to_end(&mut input)
        .expect("standard input can be read");
    println!("{:016x}", sum_of(&input));
}
