//! A word that has a given reading, found by trying, for a comparison with the
//! encoder where no word is known before.
//!
//! No table says here which field shows in which operand. A sampled word with the
//! reading's mnemonic is turned, operand after operand, into one that shows the
//! wanted operand: its value is put into one field after the other until the
//! decoder answers with it. Whether the word that comes out has the whole reading
//! is then asked again.

use std::collections::{BTreeMap, BTreeSet, HashMap};

use crate::answer::{Ask, Slot};
use crate::mips::{Insn, Op};
use crate::smallest::{is_same, lowest_fields};
use crate::vectors::{places, Field, Random, IMM, INDEX, OP, RD, RS, RT, SA};

/// The fields of five bits, in which registers and small numbers stand.
const SMALL: &[Field] = &[RS, RT, RD, SA];

/// Branches and jumps count in words.
const STEP: u64 = 4;

/// How often a place is sampled under each flag. The first sample has all ones
/// in the free fields: zeros would be another word's reading more often.
const SAMPLES_OF_PLACE: usize = 16;

/// Where the generator of the samples starts.
const SEED: u64 = 0x7772_6974_7465_6e21;

/// Words that a search starts from: by mnemonic and kinds of operands, one for each
/// op that has such words.
pub struct Finder {
    starts: HashMap<(String, Vec<u8>), BTreeMap<u32, u32>>,
    mnemonics: Vec<String>,
}

fn kinds(reading: &Insn) -> Vec<u8> {
    reading.ops.iter().map(|op| Slot::of(op).kind).collect()
}

/// A reading, and where and how it is wanted.
struct Wanted<'a> {
    reading: &'a Insn,
    va: u64,
    wide: bool,
}

impl Wanted<'_> {
    fn decode(&self, word: u32) -> Option<Insn> {
        let (va, wide) = (self.va, self.wide);
        Ask { word, va, wide }.decode()
    }

    /// Has the word the mnemonic and the operands up to number `last`?
    fn shows(&self, word: u32, last: usize) -> bool {
        self.decode(word).map_or(false, |reading| {
            reading.mnemonic == self.reading.mnemonic
                && reading.ops.len() == self.reading.ops.len()
                && reading.ops[..=last] == self.reading.ops[..=last]
        })
    }

    /// What a field of five bits may hold for operand `n` to show. The sizes of
    /// `ext` and `ins` are one more than a field, or than a field less the
    /// position, which is the operand before.
    fn small_values(&self, n: usize) -> Vec<u32> {
        let value = match self.reading.ops[n] {
            Op::Reg(r) | Op::FReg(r) | Op::Cop0(r) | Op::Mem(_, r) => return vec![r.into()],
            Op::Addr(_) => return Vec::new(),
            Op::Imm(value) => value as u32,
        };
        let before = n
            .checked_sub(1)
            .map(|n| Slot::of(&self.reading.ops[n]).value);
        let less = value.wrapping_sub(1);
        vec![value, less, less.wrapping_add(before.unwrap_or(0) as u32)]
    }

    /// The word itself, and with what a field of 16 or 26 bits may hold for
    /// operand `n` to show.
    fn with_large_fields(&self, word: u32, n: usize) -> Vec<u32> {
        let with = |field: Field, value: u64| field.put(word, value as u32 % field.values());
        match self.reading.ops[n] {
            Op::Reg(_) | Op::FReg(_) | Op::Cop0(_) => vec![word],
            Op::Imm(value) | Op::Mem(value, _) => vec![word, with(IMM, value as u64)],
            Op::Addr(to) => {
                let next = self.va.wrapping_add(STEP);
                let steps = to.wrapping_sub(next) / STEP;
                vec![word, with(IMM, steps), with(INDEX, to / STEP)]
            }
        }
    }

    /// The word, changed in at most two fields, so that operand `n` shows.
    fn with_operand(&self, word: u32, n: usize) -> Option<u32> {
        let values = self.small_values(n);
        for large in self.with_large_fields(word, n) {
            let fields = SMALL.iter();
            let small = fields.flat_map(|field| {
                let values = values.iter();
                values.map(move |value| field.put(large, value % field.values()))
            });
            let found = std::iter::once(large)
                .chain(small)
                .find(|&word| self.shows(word, n));
            if found.is_some() {
                return found;
            }
        }
        None
    }

    /// A word with the whole reading, made from one with its mnemonic.
    fn from_start(&self, start: u32) -> Option<u32> {
        let count = self.reading.ops.len();
        let word = (0..count).try_fold(start, |word, n| self.with_operand(word, n))?;
        let reading = self.decode(word)?;
        if is_same(&reading, self.reading) {
            Some(word)
        } else {
            None
        }
    }
}

impl Finder {
    pub fn new() -> Finder {
        let mut finder = Finder {
            starts: HashMap::new(),
            mnemonics: Vec::new(),
        };
        let mut random = Random::new(SEED);
        let places = places();
        for sample in 0..SAMPLES_OF_PLACE {
            for place in &places {
                let filling = if sample == 0 { !0 } else { random.word() };
                finder.add(place.word(filling));
            }
        }
        let names: BTreeSet<&String> = finder.starts.keys().map(|(name, _)| name).collect();
        finder.mnemonics = names.into_iter().cloned().collect();
        finder
    }

    /// All mnemonics that the samples have, in order.
    pub fn mnemonics(&self) -> &[String] {
        &self.mnemonics
    }

    /// The address does not matter: it shows in no mnemonic and no operand's kind.
    fn add(&mut self, word: u32) {
        for wide in [false, true] {
            let reading = match (Ask { word, va: 0, wide }).decode() {
                Some(reading) => reading,
                None => return,
            };
            let key = kinds(&reading);
            let starts = self.starts.entry((reading.mnemonic, key)).or_default();
            starts.entry(OP.get(word)).or_insert(word);
        }
    }

    /// The smallest word that has the reading at the address under the flag: of each
    /// op's words the one with the lowest fields, and of these the smallest.
    pub fn smallest(&self, reading: &Insn, va: u64, wide: bool) -> Option<u32> {
        let wanted = Wanted { reading, va, wide };
        let key = (reading.mnemonic.clone(), kinds(reading));
        let starts = self.starts.get(&key)?.values();
        let words = starts.filter_map(|&start| wanted.from_start(start));
        words
            .filter_map(|word| lowest_fields(&Ask { word, va, wide }))
            .min()
    }
}
