//! The smallest word that is read as a given one, for a comparison with the
//! encoder.
//!
//! It is found by trying. No table says here which words share a reading: the
//! decoder is asked about words that differ from the given one in a field, or in
//! the op and one more field, and whichever is lower and read alike takes its
//! place, until there is none.

use std::collections::BTreeSet;

use crate::answer::Ask;
use crate::mips::Insn;
use crate::vectors::{places, Field, Random, EXAMPLES};
use crate::vectors::{FUNCT, OP, RD, RS, RT, SA};

/// The fields that are lowered one at a time.
const SINGLE: &[Field] = &[RS, RT, RD, SA, FUNCT];

/// The fields that are tried together with the op: the source has one mnemonic
/// under two ops, and then another field chooses it.
const BESIDE_OP: &[Field] = &[RT, FUNCT, RS];

/// Where the generator of the list starts.
const SEED: u64 = 0x736d_616c_6c65_7374;

/// How many words of a place the list has.
const WORDS_OF_PLACE: usize = 4;

/// How often a place is sampled for them. Where a place has accepted words at
/// all, one word in 25 or more is accepted.
const TRIES: u64 = 256;

/// Are the two readings equal? The published `Insn` has no such comparison. The
/// cheap parts come first: nearly all comparisons end there.
pub fn is_same(a: &Insn, b: &Insn) -> bool {
    a.effect == b.effect
        && a.flow == b.flow
        && a.target == b.target
        && a.delay_slot == b.delay_slot
        && a.ops == b.ops
        && a.mnemonic == b.mnemonic
}

/// A reading whose smallest word is sought, and the question that it answers.
struct Search {
    ask: Ask,
    reading: Insn,
}

impl Search {
    fn is_read_alike(&self, word: u32) -> bool {
        let other = Ask { word, ..self.ask };
        other
            .decode()
            .map_or(false, |reading| is_same(&reading, &self.reading))
    }

    /// The word with the lowest value of the field that leaves the reading.
    fn with_lowest(&self, word: u32, field: Field) -> u32 {
        (0..field.get(word))
            .map(|value| field.put(word, value))
            .find(|&lower| self.is_read_alike(lower))
            .unwrap_or(word)
    }

    /// The word with every field as low as it goes while the others stand.
    fn with_low_fields(&self, word: u32) -> u32 {
        let lower = SINGLE
            .iter()
            .fold(word, |word, &field| self.with_lowest(word, field));
        if lower == word {
            word
        } else {
            self.with_low_fields(lower)
        }
    }

    /// The smallest word below this one that differs in the op and the field. The
    /// words come in rising order, so the first that is found is the smallest.
    fn under_other_op(&self, word: u32, field: Field) -> Option<u32> {
        (0..=OP.get(word))
            .map(|op| OP.put(word, op))
            .flat_map(|word| (0..field.values()).map(move |value| field.put(word, value)))
            .take_while(|&lower| lower < word)
            .find(|&lower| self.is_read_alike(lower))
    }

    fn smallest(&self) -> u32 {
        let mut word = self.ask.word;
        loop {
            let low = self.with_low_fields(word);
            let fields = BESIDE_OP.iter();
            let lower = fields.filter_map(|&field| self.under_other_op(low, field));
            match lower.min() {
                Some(lower) => word = lower,
                None => return low,
            }
        }
    }
}

fn search_of(ask: &Ask) -> Option<Search> {
    let reading = ask.decode()?;
    Some(Search { ask: *ask, reading })
}

/// The smallest word with the reading of the question's word, if it has one.
pub fn smallest_word(ask: &Ask) -> Option<u32> {
    search_of(ask).map(|search| search.smallest())
}

/// The same among the words with its op, for a search that knows the ops.
pub fn lowest_fields(ask: &Ask) -> Option<u32> {
    search_of(ask).map(|search| search.with_low_fields(ask.word))
}

/// Accepted words of every place that has any, sorted by word, then address, then flag. The
/// flag takes turns, so that a place without refused words has both.
pub fn list() -> Vec<Ask> {
    let mut random = Random::new(SEED);
    let mut asks = BTreeSet::new();
    for place in places() {
        let sampled = (0..TRIES).map(|sample| Ask {
            wide: sample % 2 == 1,
            ..random.ask(place, sample)
        });
        asks.extend(sampled.filter(Ask::is_accepted).take(WORDS_OF_PLACE));
    }
    for &(va, word) in EXAMPLES {
        let both = [false, true].map(|wide| Ask { word, va, wide });
        asks.extend(both.iter().filter(|ask| ask.is_accepted()));
    }
    asks.into_iter().collect()
}
