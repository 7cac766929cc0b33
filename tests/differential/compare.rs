//! Questions to the library, and what the unchanged Rust says to each answer.

use crate::answer::{Ask, OPERAND_SLOTS};
use crate::boundary;
use crate::expected::{differing, has_record, word_in};
use crate::record::{bytes_of, kind_of, record_of, write_record, Record};
use crate::record::{NO_RECORD, NO_WORD, NUMBER, RECORD_BYTES, SHORT_RECORD, WORD_BYTES};
use crate::smallest::smallest_word;
use crate::vectors::Random;

/// The two functions that are compared: the library's, or those of a library with
/// a mistake put into it.
pub trait Library {
    fn decode(&self, bytes: &[u8], va: u64, big: u8, wide: u8, record: &mut [u8]) -> u8;
    fn encode(&self, record: &[u8], va: u64, wide: u8) -> u64;
}

/// The library that the program is linked with.
pub struct Linked;

impl Library for Linked {
    fn decode(&self, bytes: &[u8], va: u64, big: u8, wide: u8, record: &mut [u8]) -> u8 {
        boundary::decode(bytes, va, big, wide, record)
    }

    fn encode(&self, record: &[u8], va: u64, wide: u8) -> u64 {
        boundary::encode(record, va, wide)
    }
}

// How many bytes may stand before a slice, so that it begins anywhere, and how many
// it may have after those that count.
const BEFORE: usize = 3;
const AFTER: usize = 4;

/// How far a near address is at most, in steps from one word to the next.
pub const NEAR: usize = 64;
pub const NEAR_STEP: u64 = 4;

/// How many kinds of operands there are, with the unused.
const KINDS: usize = 7;

/// A record with its surroundings.
type Lent = [u8; BEFORE + RECORD_BYTES + AFTER];

/// Stands where the library is to write, and around it, so that a byte is seen that
/// it leaves as it was or should have left.
const UNWRITTEN: u8 = 0xa5;

/// How many of each kind were compared.
#[derive(Default)]
pub struct Counts {
    pub words: u64,
    pub decoded: u64,
    pub encoded: u64,
    pub smallest: u64,
    pub refusals: u64,
    pub changed_to_none: u64,
    pub changed_to_other: u64,
    pub elsewhere: u64,
    pub short: u64,
}

/// All is well, or a text that names the difference.
type Said = Result<(), String>;

/// Is it so? If not, `text` says of the question what is wrong.
fn hold(is_so: bool, ask: &Ask, text: impl FnOnce() -> String) -> Said {
    if is_so {
        return Ok(());
    }
    let Ask { word, va, wide } = ask;
    let (flag, wrong) = (*wide as u8, text());
    Err(format!(
        "word {word:08x} at {va:016x}, flag {flag}: {wrong}"
    ))
}

pub struct Comparison<L> {
    library: L,
    random: Random,
    pub counts: Counts,
}

impl<L: Library> Comparison<L> {
    pub fn new(library: L, seed: u64) -> Comparison<L> {
        Comparison {
            library,
            // The words come from a generator that starts at the seed itself.
            random: Random::new(!seed),
            counts: Counts::default(),
        }
    }

    /// Everything that is compared for a word, under either flag.
    pub fn word(&mut self, ask: Ask) -> Said {
        self.counts.words += 1;
        self.under_flag(Ask { wide: false, ..ask })?;
        self.under_flag(Ask { wide: true, ..ask })
    }

    fn under_flag(&mut self, ask: Ask) -> Said {
        let record = record_of(&ask);
        self.decodes(&ask, false)?;
        self.decodes(&ask, true)?;
        if ask.is_accepted() {
            self.encodes(&ask, &record)?;
            self.encodes_elsewhere(&ask, &record)?;
        } else {
            self.has_no_word(&ask, &record)?;
        }
        self.encodes_changed(&ask, &record)?;
        self.refuses_short_slice(&ask)?;
        self.refuses_short_record(&ask, &record)
    }

    /// A number below the limit.
    fn below(&mut self, limit: usize) -> usize {
        self.random.word() as usize % limit
    }

    /// A flag as C has it: every number but 0 is on.
    fn flag(&mut self, is_on: bool) -> u8 {
        match is_on {
            true => 1 + self.below(u8::MAX.into()) as u8,
            false => 0,
        }
    }

    /// The word's bytes, anything before and after them, and where they begin.
    fn input(&mut self, word: u32, big: bool) -> ([u8; BEFORE + WORD_BYTES + AFTER], usize) {
        let mut input = [self.random.word() as u8; BEFORE + WORD_BYTES + AFTER];
        let start = self.below(BEFORE + 1);
        input[start..][..WORD_BYTES].copy_from_slice(&bytes_of(word, big));
        (input, start)
    }

    /// The library answers the bytes with the number and the record that the Rust's
    /// reading of them has, and writes nothing beside the record.
    fn answers(&mut self, ask: &Ask, bytes: &[u8], big: bool) -> Said {
        let mut expected = [0; RECORD_BYTES];
        write_record(bytes, ask, big, &mut expected);
        let start = self.below(BEFORE + 1);
        let end = start + RECORD_BYTES + self.below(AFTER + 1);
        let (big, wide) = (self.flag(big), self.flag(ask.wide));
        let mut lent: Lent = [UNWRITTEN; BEFORE + RECORD_BYTES + AFTER];
        let mut to_be = lent;
        to_be[start..][..RECORD_BYTES].copy_from_slice(&expected);
        let record = &mut lent[start..end];
        let number = self.library.decode(bytes, ask.va, big, wide, record);
        hold(number == expected[NUMBER] && lent == to_be, ask, || {
            let (length, differing) = (bytes.len(), differing(&lent[start..], &to_be[start..]));
            format!("{length} bytes, flags {big} and {wide}: answered with {number}; {differing}")
        })
    }

    fn decodes(&mut self, ask: &Ask, big: bool) -> Said {
        self.counts.decoded += 1;
        let (input, start) = self.input(ask.word, big);
        let end = start + WORD_BYTES + self.below(AFTER + 1);
        self.answers(ask, &input[start..end], big)
    }

    /// The answer to an accepted record is a word that the Rust reads alike, and
    /// none above the record's own; and it is the same when more bytes follow.
    fn encodes(&mut self, ask: &Ask, record: &Record) -> Said {
        self.counts.encoded += 1;
        let flag = self.flag(ask.wide);
        let answer = self.library.encode(record, ask.va, flag);
        hold(has_record(answer, ask.word, ask, record), ask, || {
            format!("its record is encoded as {answer:x}")
        })?;
        let start = self.below(BEFORE + 1);
        let mut longer: Lent = [UNWRITTEN; BEFORE + RECORD_BYTES + AFTER];
        longer[start..][..RECORD_BYTES].copy_from_slice(record);
        let again = self.library.encode(&longer[start..], ask.va, flag);
        hold(again == answer, ask, || {
            format!("its record is encoded as {answer:x}, and when bytes follow as {again:x}")
        })
    }

    /// An address: a near one, where another word can have the record of a branch, or
    /// any.
    fn any_address(&mut self, va: u64) -> u64 {
        match self.random.bit() {
            true => va.wrapping_add(NEAR_STEP * self.below(NEAR) as u64),
            false => self.random.address(),
        }
    }

    /// At any address and under any flag a record has a word if the Rust gives its
    /// own word the same record there; else it has none, or is another word's there.
    fn encodes_elsewhere(&mut self, ask: &Ask, record: &Record) -> Said {
        self.counts.elsewhere += 1;
        let there = Ask {
            va: self.any_address(ask.va),
            wide: self.random.bit(),
            ..*ask
        };
        let has_word = record_of(&there) == *record;
        let limit = if has_word { ask.word } else { u32::MAX };
        let flag = self.flag(there.wide);
        let answer = self.library.encode(record, there.va, flag);
        let has_none = answer == NO_WORD && !has_word;
        let is_right = has_none || has_record(answer, limit, &there, record);
        hold(is_right, ask, || {
            let va = there.va;
            format!("its record at {va:016x} with flag {flag} is encoded as {answer:x}")
        })
    }

    /// A refused word's record is no word's record.
    fn has_no_word(&mut self, ask: &Ask, record: &Record) -> Said {
        self.counts.refusals += 1;
        let flag = self.flag(ask.wide);
        let answer = self.library.encode(record, ask.va, flag);
        hold(answer == NO_WORD, ask, || {
            format!("it is refused, and its record is encoded as {answer:x}")
        })
    }

    /// The record with one byte changed, and which: an operand's kind to another kind,
    /// which the encoder has to tell apart, or any byte, in one bit or in any.
    fn changed(&mut self, record: &Record) -> (Record, usize) {
        let mut changed = *record;
        if self.random.bit() {
            let place = kind_of(self.below(OPERAND_SLOTS));
            let step = 1 + self.below(KINDS - 1);
            changed[place] = ((usize::from(record[place]) + step) % KINDS) as u8;
            return (changed, place);
        }
        let place = self.below(RECORD_BYTES);
        changed[place] ^= match self.random.bit() {
            true => 1 << self.below(u8::BITS as usize),
            false => self.flag(true),
        };
        (changed, place)
    }

    /// With one byte changed a record is no word's, or that of another word, and
    /// then it is that word's in every byte.
    fn encodes_changed(&mut self, ask: &Ask, record: &Record) -> Said {
        let (changed, place) = self.changed(record);
        let flag = self.flag(ask.wide);
        let answer = self.library.encode(&changed, ask.va, flag);
        if answer == NO_WORD {
            self.counts.changed_to_none += 1;
            return Ok(());
        }
        self.counts.changed_to_other += 1;
        hold(has_record(answer, u32::MAX, ask, &changed), ask, || {
            let value = changed[place];
            format!("its record with byte {place} changed to {value:02x} is encoded as {answer:x}")
        })
    }

    fn refuses_short_slice(&mut self, ask: &Ask) -> Said {
        self.counts.short += 1;
        let big = self.random.bit();
        let (input, start) = self.input(ask.word, big);
        let end = start + self.below(WORD_BYTES);
        self.answers(ask, &input[start..end], big)
    }

    /// Too short a record is neither written nor read.
    fn refuses_short_record(&mut self, ask: &Ask, record: &Record) -> Said {
        self.counts.short += 2;
        let length = self.below(RECORD_BYTES);
        let flag = self.flag(ask.wide);
        let answer = self.library.encode(&record[..length], ask.va, flag);
        hold(answer == NO_RECORD, ask, || {
            format!("{length} bytes of its record are encoded as {answer:x}")
        })?;
        let mut lent = [UNWRITTEN; RECORD_BYTES];
        let bytes = bytes_of(ask.word, false);
        let short = &mut lent[..length];
        let number = self.library.decode(&bytes, ask.va, 0, flag, short);
        let written = lent.iter().filter(|&&byte| byte != UNWRITTEN).count();
        hold(number == SHORT_RECORD && written == 0, ask, || {
            format!("{length} bytes for its record: answered with {number}, {written} written")
        })
    }

    /// The answer to an accepted word's record is the smallest word that the Rust
    /// reads alike, as it is found by trying.
    pub fn smallest(&mut self, ask: Ask) -> Said {
        self.counts.smallest += 1;
        let flag = self.flag(ask.wide);
        let answer = self.library.encode(&record_of(&ask), ask.va, flag);
        let smallest = smallest_word(&ask);
        hold(word_in(answer) == smallest, &ask, || {
            format!("its record is encoded as {answer:x}, the smallest word is {smallest:x?}")
        })
    }
}
