//! The fixed list of questions behind `tests/vectors/answers.txt`.
//!
//! The list is a table of places to sample, not of words: each row fixes the
//! fields that make a place, and a small generator with a fixed seed fills the
//! rest, so fields that the decoder does not read are filled as well. `many.rs`
//! samples the same places at scale, and `smallest.rs` the accepted words of each.

use std::collections::BTreeSet;

use crate::answer::Ask;

/// A field of the word: its lowest bit and its width in bits.
#[derive(Clone, Copy)]
pub struct Field {
    low: u32,
    width: u32,
}

impl Field {
    const fn new(low: u32, width: u32) -> Field {
        Field { low, width }
    }

    pub fn values(self) -> u32 {
        1 << self.width
    }

    pub fn get(self, word: u32) -> u32 {
        (word >> self.low) % self.values()
    }

    pub fn put(self, word: u32, value: u32) -> u32 {
        let mask = (self.values() - 1) << self.low;
        (word & !mask) | (value << self.low)
    }
}

pub const OP: Field = Field::new(26, 6);
pub const RS: Field = Field::new(21, 5);
pub const RT: Field = Field::new(16, 5);
pub const RD: Field = Field::new(11, 5);
pub const SA: Field = Field::new(6, 5);
pub const FUNCT: Field = Field::new(0, 6);
pub const IMM: Field = Field::new(0, 16);
pub const INDEX: Field = Field::new(0, 26);

// The ops that lead to a table of their own, and two that jump.
const SPECIAL: u32 = 0;
const REGIMM: u32 = 1;
const J: u32 = 2;
const JAL: u32 = 3;
const COP0: u32 = 16;
const COP1: u32 = 17;
const SPECIAL2: u32 = 28;
const SPECIAL3: u32 = 31;

/// The fields that make a place, each with its value.
type Fixed = &'static [(Field, u32)];

/// A place where one field runs through all its values, `each` samples for
/// every value. Refused values are met here as well as accepted ones.
struct Sweep {
    fixed: Fixed,
    runs: Field,
    each: u32,
}

const fn sweep(fixed: Fixed, runs: Field, each: u32) -> Sweep {
    Sweep { fixed, runs, each }
}

#[rustfmt::skip]
const SWEEPS: &[Sweep] = &[
    // Every table of the decoder, value by value.
    sweep(&[], OP, 6),
    sweep(&[(OP, SPECIAL)], FUNCT, 9),
    sweep(&[(OP, REGIMM)], RT, 5),
    sweep(&[(OP, COP0)], RS, 5),
    sweep(&[(OP, COP0), (RS, 16)], FUNCT, 2),
    sweep(&[(OP, COP1)], RS, 5),
    sweep(&[(OP, COP1), (RS, 8)], RT, 4),
    sweep(&[(OP, COP1), (RS, 16)], FUNCT, 5),
    sweep(&[(OP, COP1), (RS, 17)], FUNCT, 5),
    sweep(&[(OP, COP1), (RS, 20)], FUNCT, 5),
    sweep(&[(OP, COP1), (RS, 21)], FUNCT, 5),
    sweep(&[(OP, SPECIAL2)], FUNCT, 4),
    sweep(&[(OP, SPECIAL3)], FUNCT, 4),
    sweep(&[(OP, SPECIAL3), (FUNCT, 32)], SA, 3),
    // Words whose reading turns on one register.
    sweep(&[(OP, SPECIAL), (FUNCT, 2)], RS, 1),  // rotr for 1, else srl
    sweep(&[(OP, SPECIAL), (FUNCT, 8)], RS, 2),  // jr: Ret for 31, else Jump
    sweep(&[(OP, SPECIAL), (FUNCT, 9)], RD, 2),  // jalr: one operand for 31, else two
];

/// Aliases, and the words beside them that look like an alias and are none.
#[rustfmt::skip]
const SPOTS: &[Fixed] = &[
    // `rotr`; dsrl, dsrl32 and srlv have no such second reading.
    &[(OP, SPECIAL), (RS, 1), (FUNCT, 2)],
    &[(OP, SPECIAL), (RS, 1), (FUNCT, 58)],
    &[(OP, SPECIAL), (RS, 1), (FUNCT, 62)],
    &[(OP, SPECIAL), (SA, 1), (FUNCT, 6)],
    &[(OP, SPECIAL), (SA, 1), (FUNCT, 22)],
    // `nop` and `ssnop` are whole words; the same shifts with rs set are sll.
    &[(OP, SPECIAL), (RT, 0), (RD, 0), (SA, 0), (FUNCT, 0)],
    &[(OP, SPECIAL), (RT, 0), (RD, 0), (SA, 1), (FUNCT, 0)],
    // `move` from addu, or, and with the flag daddu; rs zero gives none of them,
    // and add, xor and dadd have none.
    &[(OP, SPECIAL), (RT, 0), (FUNCT, 33)],
    &[(OP, SPECIAL), (RT, 0), (FUNCT, 37)],
    &[(OP, SPECIAL), (RT, 0), (FUNCT, 45)],
    &[(OP, SPECIAL), (RS, 0), (RT, 0), (FUNCT, 45)],
    &[(OP, SPECIAL), (RS, 0), (FUNCT, 33)],
    &[(OP, SPECIAL), (RS, 0), (FUNCT, 37)],
    &[(OP, SPECIAL), (RS, 0), (FUNCT, 45)],
    &[(OP, SPECIAL), (RT, 0), (FUNCT, 32)],
    &[(OP, SPECIAL), (RT, 0), (FUNCT, 38)],
    &[(OP, SPECIAL), (RT, 0), (FUNCT, 44)],
    // `negu` and `not`; subu with rt zero, nor with rs zero, sub and dsubu have none.
    &[(OP, SPECIAL), (RS, 0), (FUNCT, 35)],
    &[(OP, SPECIAL), (RT, 0), (FUNCT, 39)],
    &[(OP, SPECIAL), (RT, 0), (FUNCT, 35)],
    &[(OP, SPECIAL), (RS, 0), (FUNCT, 39)],
    &[(OP, SPECIAL), (RS, 0), (FUNCT, 34)],
    &[(OP, SPECIAL), (RS, 0), (FUNCT, 47)],
    // `b` and `bal` from REGIMM with rs zero; its other words have no alias.
    &[(OP, REGIMM), (RS, 0), (RT, 1)],
    &[(OP, REGIMM), (RS, 0), (RT, 17)],
    &[(OP, REGIMM), (RS, 0), (RT, 0)],
    &[(OP, REGIMM), (RS, 0), (RT, 3)],
    &[(OP, REGIMM), (RS, 0), (RT, 16)],
    // `beqz`, `bnez` and the likely ones; only op 4 also has `b`.
    &[(OP, 4), (RS, 0), (RT, 0)],
    &[(OP, 5), (RS, 0), (RT, 0)],
    &[(OP, 20), (RS, 0), (RT, 0)],
    &[(OP, 21), (RS, 0), (RT, 0)],
    &[(OP, 4), (RT, 0)],
    &[(OP, 5), (RT, 0)],
    &[(OP, 20), (RT, 0)],
    &[(OP, 21), (RT, 0)],
    &[(OP, 4), (RS, 0)],
    &[(OP, 5), (RS, 0)],
    // `li` from addiu, daddiu and ori; not from addi, daddi, andi, xori.
    &[(OP, 9), (RS, 0)],
    &[(OP, 25), (RS, 0)],
    &[(OP, 13), (RS, 0)],
    &[(OP, 8), (RS, 0)],
    &[(OP, 24), (RS, 0)],
    &[(OP, 12), (RS, 0)],
    &[(OP, 14), (RS, 0)],
    // COP0 words whose middle bits are not read.
    &[(OP, COP0), (RS, 16), (FUNCT, 24)],
    &[(OP, COP0), (RS, 16), (FUNCT, 32)],
    // SPECIAL3 words with fields that are not read.
    &[(OP, SPECIAL3), (SA, 2), (FUNCT, 32)],
    &[(OP, SPECIAL3), (SA, 16), (FUNCT, 32)],
    &[(OP, SPECIAL3), (SA, 24), (FUNCT, 32)],
    &[(OP, SPECIAL3), (FUNCT, 59)],
    // ext at the ends of its two numbers.
    &[(OP, SPECIAL3), (RD, 0), (SA, 0), (FUNCT, 0)],
    &[(OP, SPECIAL3), (RD, 0), (SA, 31), (FUNCT, 0)],
    &[(OP, SPECIAL3), (RD, 31), (SA, 0), (FUNCT, 0)],
    &[(OP, SPECIAL3), (RD, 31), (SA, 31), (FUNCT, 0)],
];

/// Samples of every spot; each is asked under both flags.
const SPOT_SAMPLES: u32 = 3;

/// The two whole words `nop` and `ssnop`, and shifts that differ from them in
/// rs or funct alone. They are asked under both flags at two addresses.
const WHOLE_WORDS: &[u32] = &[
    0x0000_0000,
    0x0000_0040,
    0x0020_0000,
    0x0040_0000,
    0x0020_0040,
    0x0000_0002,
    0x0020_0002,
    0x0060_0002,
];

/// The example words of the project's scope, at the addresses it gives (zero
/// where it gives none). They are asked under both flags.
#[rustfmt::skip]
pub const EXAMPLES: &[(u64, u32)] = &[
    (0, 0x0000_0000),
    (0, 0x0020_0000),
    (0, 0x0040_0000),
    (0, 0x3c04_8000),
    (0xffff_ffff_ffff_fffc, 0x0800_0001),
    (0x0fff_fffc, 0x0800_0000),
    (0x1000, 0x1000_ffff),
    (0x1000, 0x0401_ffff),
    (0, 0x2402_0005),
    (0, 0x6402_0005),
    (0, 0x3402_0005),
    (0, 0x3402_ffff),
    (0, 0x2402_ffff),
    (0, 0x0080_102d),
    (0, 0x7c82_1944),
    (0, 0x4200_0018),
    (0, 0x0000_0035),
    (0, 0x7c00_0001),
    // The six words of the sweep example.
    (0x8000_1000, 0x3c04_8000),
    (0x8000_1004, 0x0c00_0403),
    (0x8000_1008, 0x8c82_0010),
    (0x8000_100c, 0x03e0_0008),
    (0x8000_1010, 0x0000_0000),
    (0x8000_1014, 0x7c00_0001),
];

/// Addresses at the limits. Targets wrap at 2^64, a jump takes its upper bits
/// from the address of the word after it, and no address need be a multiple of 4.
#[rustfmt::skip]
const ADDRESSES: &[u64] = &[
    0,
    1,
    0x1000,
    0x0fff_fffb,
    0x0fff_fffc,
    0x8000_1003,
    0x7fff_ffff_ffff_ffff,
    0xffff_ffff_ffff_fffc,
    0xffff_ffff_ffff_ffff,
];

/// An ordinary address, far from all limits.
const PLAIN_ADDRESS: u64 = 0x8000_1000;

/// 16-bit immediates at the limits of their signed and unsigned readings.
const IMMEDIATES: &[u32] = &[0, 1, 0x7fff, 0x8000, 0xffff];

/// Accepted ops with an immediate that are no branches: arithmetic, loads, stores.
#[rustfmt::skip]
const IMMEDIATE_OPS: &[u32] = &[
    8, 9, 10, 11, 12, 13, 14, 15, 24, 25, 26, 27,
    32, 33, 34, 35, 36, 37, 38, 39, 40, 41, 42, 43, 44, 45, 46, 47,
    48, 49, 51, 52, 53, 55, 56, 57, 60, 61, 63,
];

/// Registers (rs, rt) at their limits, for the ops above.
const LIMIT_REGISTERS: &[(u32, u32)] = &[(0, 31), (31, 0)];

/// Every kind of branch; those that a zero register turns into an alias stand
/// twice, with that register held to zero and to 31.
#[rustfmt::skip]
const BRANCHES: &[Fixed] = &[
    &[(OP, REGIMM), (RT, 0)],
    &[(OP, REGIMM), (RT, 1), (RS, 31)],
    &[(OP, REGIMM), (RT, 1), (RS, 0)],
    &[(OP, REGIMM), (RT, 2)],
    &[(OP, REGIMM), (RT, 3)],
    &[(OP, REGIMM), (RT, 16)],
    &[(OP, REGIMM), (RT, 17), (RS, 31)],
    &[(OP, REGIMM), (RT, 17), (RS, 0)],
    &[(OP, 4), (RS, 0), (RT, 0)],
    &[(OP, 4), (RS, 31), (RT, 0)],
    &[(OP, 4), (RT, 31)],
    &[(OP, 5), (RT, 0)],
    &[(OP, 5), (RT, 31)],
    &[(OP, 6)],
    &[(OP, 7)],
    &[(OP, 20), (RT, 0)],
    &[(OP, 20), (RT, 31)],
    &[(OP, 21), (RT, 0)],
    &[(OP, 21), (RT, 31)],
    &[(OP, 22)],
    &[(OP, 23)],
    &[(OP, COP1), (RS, 8), (RT, 0)],
    &[(OP, COP1), (RS, 8), (RT, 1)],
    &[(OP, COP1), (RS, 8), (RT, 2)],
    &[(OP, COP1), (RS, 8), (RT, 3)],
];

/// 26-bit indexes at their limits.
const INDEXES: &[u32] = &[0, 1, 0x03ff_ffff];

/// Splitmix64: a few lines, and the same numbers on every machine.
pub struct Random {
    state: u64,
}

const SEED: u64 = 0x6361_6c6d_7572_6564;

impl Random {
    pub fn new(seed: u64) -> Random {
        Random { state: seed }
    }

    fn next(&mut self) -> u64 {
        self.state = self.state.wrapping_add(0x9e37_79b9_7f4a_7c15);
        let mut z = self.state;
        z = (z ^ (z >> 30)).wrapping_mul(0xbf58_476d_1ce4_e5b9);
        z = (z ^ (z >> 27)).wrapping_mul(0x94d0_49bb_1331_11eb);
        z ^ (z >> 31)
    }

    pub fn bit(&mut self) -> bool {
        self.next() >> 63 == 1
    }

    pub fn word(&mut self) -> u32 {
        (self.next() >> 32) as u32
    }

    /// What is in the free fields of a place's nth sample: all zeros and
    /// all ones once each, since those are the limits, else anything.
    pub fn filling(&mut self, sample: u64) -> u32 {
        match sample {
            1 => 0,
            2 => !0,
            _ => self.word(),
        }
    }

    /// Half of the addresses are at the limits, half are any.
    pub fn address(&mut self) -> u64 {
        let pick = self.next();
        if pick & 1 == 0 {
            ADDRESSES[(pick >> 1) as usize % ADDRESSES.len()]
        } else {
            self.next()
        }
    }

    /// A question to a place's nth sample, with any flag.
    pub fn ask(&mut self, place: Place, sample: u64) -> Ask {
        Ask {
            word: place.word(self.filling(sample)),
            va: self.address(),
            wide: self.bit(),
        }
    }
}

/// The list while it grows. A set sorts it and drops questions met twice.
struct List {
    asks: BTreeSet<Ask>,
    random: Random,
}

fn with_fixed(word: u32, fixed: &[(Field, u32)]) -> u32 {
    fixed
        .iter()
        .fold(word, |word, &(field, value)| field.put(word, value))
}

impl List {
    fn add(&mut self, word: u32, va: u64, wide: bool) {
        self.asks.insert(Ask { word, va, wide });
    }

    fn add_both(&mut self, word: u32, va: u64) {
        self.add(word, va, false);
        self.add(word, va, true);
    }

    /// The flag takes turns, so that a value with two samples has both.
    fn add_sweep(&mut self, place: &Sweep) {
        for value in 0..place.runs.values() {
            for sample in 0..place.each {
                let word = with_fixed(self.random.filling(sample.into()), place.fixed);
                let va = self.random.address();
                self.add(place.runs.put(word, value), va, (value + sample) % 2 == 1);
            }
        }
    }

    fn add_whole_word(&mut self, word: u32) {
        self.add_both(word, PLAIN_ADDRESS);
        self.add_both(word, u64::MAX);
    }

    fn add_spot(&mut self, fixed: Fixed) {
        for _ in 0..SPOT_SAMPLES {
            let word = with_fixed(self.random.word(), fixed);
            let va = self.random.address();
            self.add_both(word, va);
        }
    }

    fn add_immediates(&mut self, op: u32) {
        for &(rs, rt) in LIMIT_REGISTERS {
            for &imm in IMMEDIATES {
                let word = with_fixed(0, &[(OP, op), (RS, rs), (RT, rt), (IMM, imm)]);
                let va = self.random.address();
                self.add(word, va, rt == 0);
            }
        }
    }

    /// Every limit of the immediate at two addresses: one far from all limits,
    /// and one of the limits, taken in turn.
    fn add_branch(&mut self, number: usize, fixed: Fixed) {
        for (turn, &imm) in IMMEDIATES.iter().enumerate() {
            let word = IMM.put(with_fixed(self.random.word(), fixed), imm);
            let limit = ADDRESSES[(number + turn) % ADDRESSES.len()];
            self.add(word, PLAIN_ADDRESS, turn % 2 == 0);
            self.add(word, limit, turn % 2 == 1);
        }
    }

    fn add_jump(&mut self, op: u32) {
        for &index in INDEXES {
            for &va in ADDRESSES {
                let word = with_fixed(0, &[(OP, op), (INDEX, index)]);
                self.add(word, va, index == 1);
            }
        }
    }

    /// `ins` prints rd - sa + 1 as its size, also where that is below 1. Each
    /// size is asked with the smallest and with the largest sa that gives it.
    fn add_ins_sizes(&mut self) {
        let last = 31;
        for size in -30..=32_i32 {
            let difference = size - 1;
            let smallest = (-difference).max(0);
            let largest = (last - difference).min(last);
            for &sa in &[smallest, largest] {
                let rd = (sa + difference) as u32;
                let fixed = [(OP, SPECIAL3), (RD, rd), (SA, sa as u32), (FUNCT, 4)];
                let word = with_fixed(self.random.word(), &fixed);
                let va = self.random.address();
                self.add(word, va, sa == largest);
            }
        }
    }
}

/// The whole list, sorted by word, then address, then flag.
pub fn list() -> Vec<Ask> {
    let mut list = List {
        asks: BTreeSet::new(),
        random: Random::new(SEED),
    };
    SWEEPS.iter().for_each(|place| list.add_sweep(place));
    SPOTS.iter().for_each(|fixed| list.add_spot(fixed));
    EXAMPLES
        .iter()
        .for_each(|&(va, word)| list.add_both(word, va));
    WHOLE_WORDS
        .iter()
        .for_each(|&word| list.add_whole_word(word));
    IMMEDIATE_OPS.iter().for_each(|&op| list.add_immediates(op));
    BRANCHES
        .iter()
        .enumerate()
        .for_each(|(number, fixed)| list.add_branch(number, fixed));
    list.add_jump(J);
    list.add_jump(JAL);
    list.add_ins_sizes();
    list.asks.into_iter().collect()
}

/// A place as bits of the word: `mask` has those that it fixes, `bits` has what
/// they are.
#[derive(Clone, Copy)]
pub struct Place {
    mask: u32,
    bits: u32,
}

impl Place {
    /// Fixes nothing: any word.
    pub const ANY: Place = Place { mask: 0, bits: 0 };

    fn of(fixed: &[(Field, u32)]) -> Place {
        fixed
            .iter()
            .fold(Place::ANY, |place, &(field, value)| place.and(field, value))
    }

    fn whole(word: u32) -> Place {
        Place {
            mask: !0,
            bits: word,
        }
    }

    fn and(self, field: Field, value: u32) -> Place {
        Place {
            mask: field.put(self.mask, field.values() - 1),
            bits: field.put(self.bits, value),
        }
    }

    fn and_each(self, field: Field) -> impl Iterator<Item = Place> {
        (0..field.values()).map(move |value| self.and(field, value))
    }

    /// The word with the fixed bits, and `filling` in all others.
    pub fn word(self, filling: u32) -> u32 {
        (filling & !self.mask) | self.bits
    }
}

/// Every place of the tables above, once.
pub fn places() -> Vec<Place> {
    let mut places = Vec::new();
    for place in SWEEPS {
        places.extend(Place::of(place.fixed).and_each(place.runs));
    }
    places.extend(SPOTS.iter().map(|fixed| Place::of(fixed)));
    places.extend(WHOLE_WORDS.iter().map(|&word| Place::whole(word)));
    places.extend(EXAMPLES.iter().map(|&(_, word)| Place::whole(word)));
    for &imm in IMMEDIATES {
        let branches = BRANCHES.iter().map(|fixed| Place::of(fixed));
        places.extend(branches.map(|place| place.and(IMM, imm)));
        for &(rs, rt) in LIMIT_REGISTERS {
            let registers = Place::of(&[(RS, rs), (RT, rt), (IMM, imm)]);
            places.extend(IMMEDIATE_OPS.iter().map(|&op| registers.and(OP, op)));
        }
    }
    for &index in INDEXES {
        let jump = Place::of(&[(INDEX, index)]);
        places.extend([J, JAL].iter().map(|&op| jump.and(OP, op)));
    }
    // The sizes of `ins`, by either end.
    let ins = Place::of(&[(OP, SPECIAL3), (FUNCT, 4)]);
    places.extend(ins.and_each(RD));
    places.extend(ins.and_each(SA));
    places
}
