//! Some words that follow each other, answered by the library and by the Rust.
//!
//! The answers are compared when all are there: 80 bytes that were written a moment
//! ago in pieces are slow to read as a whole, and one comparison for all is quick.

use crate::answer::Ask;
use crate::boundary;
use crate::expected::{differing, has_record};
use crate::record::{bytes_of, write_record, Record, NO_WORD, NUMBER, RECORD_BYTES};
use crate::vectors::Random;

/// How many words a batch has.
pub const WORDS: usize = 64;

/// What a record has before the library writes there, so that a byte which it does
/// not write is noticed.
const UNWRITTEN: u8 = 0xa5;

pub struct Batch {
    first: u32,
    wide: bool,
    va: u64,
    big: bool,
    numbers: [u8; WORDS],
    records: [Record; WORDS],
    expected: [Record; WORDS],
    /// The encoder's answers to the records of accepted words.
    encoded: [u64; WORDS],
}

impl Batch {
    pub fn new() -> Batch {
        Batch {
            first: 0,
            wide: false,
            va: 0,
            big: false,
            numbers: [0; WORDS],
            records: [[0; RECORD_BYTES]; WORDS],
            expected: [[0; RECORD_BYTES]; WORDS],
            encoded: [0; WORDS],
        }
    }

    /// Asks library and Rust about these words.
    pub fn ask(&mut self, first: u32, wide: bool) {
        self.set_question(first, wide);
        self.ask_library();
        self.ask_rust();
    }

    /// Address and byte order are those of all words of the batch. They come from a
    /// generator that starts at the first word and the flag: half of the addresses are
    /// at the limits, half are any.
    fn set_question(&mut self, first: u32, wide: bool) {
        let mut random = Random::new(u64::from(wide) << 32 | u64::from(first));
        self.first = first;
        self.wide = wide;
        self.va = random.address();
        self.big = random.bit();
    }

    fn question(&self, place: usize) -> Ask {
        Ask {
            word: self.first + place as u32,
            va: self.va,
            wide: self.wide,
        }
    }

    fn ask_library(&mut self) {
        self.records = [[UNWRITTEN; RECORD_BYTES]; WORDS];
        let (big, wide) = (self.big as u8, self.wide as u8);
        for place in 0..WORDS {
            let bytes = bytes_of(self.question(place).word, self.big);
            let record = &mut self.records[place];
            self.numbers[place] = boundary::decode(&bytes, self.va, big, wide, record);
        }
    }

    fn ask_rust(&mut self) {
        for place in 0..WORDS {
            let ask = self.question(place);
            let bytes = bytes_of(ask.word, self.big);
            write_record(&bytes, &ask, self.big, &mut self.expected[place]);
        }
    }

    /// Has the library encode the accepted words' records.
    pub fn ask_encoder(&mut self) {
        for place in 0..WORDS {
            if self.is_accepted(place) {
                let record = &self.records[place];
                self.encoded[place] = boundary::encode(record, self.va, self.wide as u8);
            }
        }
    }

    pub fn records(&self) -> &[Record] {
        &self.records
    }

    fn is_accepted(&self, place: usize) -> bool {
        self.numbers[place] == 0
    }

    /// How many words the library accepts.
    pub fn accepted(&self) -> usize {
        (0..WORDS).filter(|&place| self.is_accepted(place)).count()
    }

    pub fn is_right(&self) -> bool {
        let mut numbers = self.numbers.iter().zip(&self.expected);
        self.records == self.expected
            && numbers.all(|(number, expected)| *number == expected[NUMBER])
    }

    fn is_right_at(&self, place: usize) -> bool {
        let expected = &self.expected[place];
        self.numbers[place] == expected[NUMBER] && self.records[place] == *expected
    }

    /// Is this the word, or a smaller one that the Rust gives the same record?
    fn may_be_encoded_as(&self, place: usize, answer: u64) -> bool {
        let ask = self.question(place);
        answer == u64::from(ask.word) || has_record(answer, ask.word, &ask, &self.records[place])
    }

    /// Is the word accepted, and its record encoded as it should be?
    fn is_encoded_rightly(&self, place: usize) -> bool {
        self.is_accepted(place) && self.may_be_encoded_as(place, self.encoded[place])
    }

    /// How many accepted words' records are encoded as they should be.
    pub fn encoded_rightly(&self) -> usize {
        (0..WORDS)
            .filter(|&place| self.is_encoded_rightly(place))
            .count()
    }

    /// The words where something differs, with what does; with the encoder's answers if
    /// it was asked.
    pub fn differences(&self, is_encoding: bool) -> impl Iterator<Item = (u32, String)> + '_ {
        (0..WORDS).filter_map(move |place| {
            let wrong = self.difference(place, is_encoding)?;
            let Ask { word, va, wide } = self.question(place);
            let (big, flag) = (self.big as u8, wide as u8);
            let text = format!("word {word:08x} at {va:016x}, flags {big} and {flag}: {wrong}");
            Some((word, text))
        })
    }

    fn difference(&self, place: usize, is_encoding: bool) -> Option<String> {
        if !self.is_right_at(place) {
            let number = self.numbers[place];
            let differing = differing(&self.records[place], &self.expected[place]);
            return Some(format!("it is answered with {number}; {differing}"));
        }
        if is_encoding && self.is_accepted(place) && !self.is_encoded_rightly(place) {
            let answer = self.encoded[place];
            return Some(format!("its record is encoded as {answer:x}"));
        }
        None
    }
}

// Where the comparison is tried: `lui`, which does not read rs, with rs zero and not,
// and words some of which are refused.
const LUI: u32 = 0x3c04_8000;
const LUI_WITH_RS: u32 = 0x3c24_8000;
const SOME_REFUSED: u32 = 0x0000_0000;

/// A comparison that overlooks wrong answers would agree with everything: is a wrong
/// number noticed, each wrong byte, and each way for a word to be wrong?
pub fn is_noticing() -> bool {
    notices_wrong_records(LUI) && notices_wrong_records(SOME_REFUSED) && notices_wrong_words()
}

/// A batch as a library that is right would answer.
fn right_batch(first: u32) -> Batch {
    let mut batch = Batch::new();
    batch.set_question(first, false);
    batch.ask_rust();
    batch.records = batch.expected;
    batch.numbers = batch.expected.map(|record| record[NUMBER]);
    batch
}

fn notices_wrong_records(first: u32) -> bool {
    let mut batch = right_batch(first);
    let was_right = batch.is_right() && (0..WORDS).all(|place| batch.is_right_at(place));
    was_right && (0..WORDS).all(|place| notices_wrong_record(&mut batch, place))
}

/// Makes the number wrong and each byte, one at a time.
fn notices_wrong_record(batch: &mut Batch, place: usize) -> bool {
    batch.numbers[place] ^= 1;
    let mut is_noticed = !batch.is_right() && !batch.is_right_at(place);
    batch.numbers[place] ^= 1;
    for byte in 0..RECORD_BYTES {
        batch.records[place][byte] ^= 1;
        is_noticed &= !batch.is_right() && !batch.is_right_at(place);
        batch.records[place][byte] ^= 1;
    }
    is_noticed
}

fn notices_wrong_words() -> bool {
    let with_rs = right_batch(LUI_WITH_RS);
    let without = right_batch(LUI);
    let right = [LUI, LUI_WITH_RS].map(u64::from);
    let wrong = [u64::from(LUI_WITH_RS), u64::from(LUI - 1), NO_WORD];
    right.iter().all(|&word| with_rs.may_be_encoded_as(0, word))
        && !wrong.iter().any(|&word| without.may_be_encoded_as(0, word))
}
