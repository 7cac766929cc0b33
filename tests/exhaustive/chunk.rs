//! A part of all words, compared batch by batch.

use crate::batch::{self, Batch};
use crate::record::{Record, NUMBER_BYTES, RECORD_BYTES};

/// The words with one upper byte, under one flag.
#[derive(Debug, Clone, Copy, PartialEq, Eq, PartialOrd, Ord)]
pub struct Chunk {
    pub wide: bool,
    pub upper: u8,
}

const UPPER_SHIFT: u32 = 24;
const WORDS: u32 = 1 << UPPER_SHIFT;

/// How many chunks there are under a flag.
pub const CHUNKS: usize = 256;

/// The step from one upper byte to the next that is taken. An odd number reaches all of
/// them, and a part of a run then has words of many ops.
const STRIDE: u8 = 37;

impl Chunk {
    /// All chunks, in the order in which they are taken.
    pub fn all() -> impl Iterator<Item = Chunk> {
        (0..=u8::MAX).flat_map(|number| {
            let upper = number.wrapping_mul(STRIDE);
            [false, true].map(|wide| Chunk { wide, upper })
        })
    }

    /// The first words of its batches.
    fn batches(self) -> impl Iterator<Item = u32> {
        let first = u32::from(self.upper) << UPPER_SHIFT;
        (0..WORDS)
            .step_by(batch::WORDS)
            .map(move |start| first + start)
    }
}

/// The outcome of a chunk.
#[derive(Debug, Default)]
pub struct Outcome {
    pub words: u64,
    pub accepted: u64,
    pub encoded: u64,
    pub differences: u64,
    pub first_difference: Option<u32>,
    pub checksum: u64,
}

impl Outcome {
    fn note_difference(&mut self, word: u32) {
        self.differences += 1;
        self.first_difference = self.first_difference.or(Some(word));
    }
}

const RECORD_NUMBERS: usize = RECORD_BYTES / NUMBER_BYTES;

/// A sum over records as ten numbers each, with a lane for each number.
#[derive(Default)]
struct Checksum {
    lanes: [u64; RECORD_NUMBERS],
}

// The steps of FxHash.
const MULTIPLIER: u64 = 0x517c_c1b7_2722_0a95;
const TURN: u32 = 5;

pub fn add_to_checksum(sum: u64, number: u64) -> u64 {
    (sum.rotate_left(TURN) ^ number).wrapping_mul(MULTIPLIER)
}

impl Checksum {
    fn add(&mut self, record: &Record) {
        for (lane, bytes) in self.lanes.iter_mut().zip(record.chunks_exact(NUMBER_BYTES)) {
            let bytes = bytes.try_into().expect("a number has eight bytes");
            *lane = add_to_checksum(*lane, u64::from_le_bytes(bytes));
        }
    }

    fn total(&self) -> u64 {
        let lanes = self.lanes.iter();
        lanes.fold(0, |sum, &lane| add_to_checksum(sum, lane))
    }
}

/// Adds a batch that was asked, and that the encoder was asked about if `is_encoding`.
fn add_batch(outcome: &mut Outcome, batch: &Batch, is_encoding: bool) {
    let accepted = batch.accepted();
    let encoded = match is_encoding {
        true => batch.encoded_rightly(),
        false => 0,
    };
    outcome.words += batch.records().len() as u64;
    outcome.accepted += accepted as u64;
    outcome.encoded += encoded as u64;
    if !batch.is_right() || is_encoding && encoded != accepted {
        let differences = batch.differences(is_encoding);
        differences.for_each(|(word, _)| outcome.note_difference(word));
    }
}

/// Compares all words of the chunk, and encodes the accepted ones if that is wanted.
pub fn compare(chunk: Chunk, is_encoding: bool) -> Outcome {
    let mut outcome = Outcome::default();
    let mut checksum = Checksum::default();
    let mut batch = Batch::new();
    for first in chunk.batches() {
        batch.ask(first, chunk.wide);
        if is_encoding {
            batch.ask_encoder();
        }
        let records = batch.records().iter();
        records.for_each(|record| checksum.add(record));
        add_batch(&mut outcome, &batch, is_encoding);
    }
    outcome.checksum = checksum.total();
    outcome
}

/// What differs at the word, if anything does.
pub fn difference(word: u32, wide: bool) -> Option<String> {
    let mut batch = Batch::new();
    batch.ask(word - word % batch::WORDS as u32, wide);
    batch.ask_encoder();
    let mut differences = batch.differences(true);
    let difference = differences.find(|(other, _)| *other == word);
    difference.map(|(_, text)| text)
}
