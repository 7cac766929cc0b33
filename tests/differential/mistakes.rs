//! A library with a mistake put into it, for seeing that the comparison notices.

use crate::compare::{Library, Linked, NEAR, NEAR_STEP};
use crate::record::{MARKS, NO_RECORD, NO_WORD, NUMBER, RECORD_BYTES, WORD_BYTES};

#[derive(Debug, Clone, Copy)]
pub enum Mistake {
    /// This byte of a record is wrong.
    WrongByte(usize),
    /// This byte of a record is left as it was.
    ByteUnwritten(usize),
    /// The number is another than the record's first byte.
    WrongNumber,
    OtherByteOrder,
    /// A flag is on for 1 alone.
    OnIsOne,
    WidthNotSeen,
    AddressCut,
    /// A slice without a word is read as if zeros followed.
    ShortSliceRead,
    /// Of a longer slice the last four bytes are read.
    LastBytesRead,
    WrittenPastRecord,
    ShortRecordWritten,
    /// The encoder does not look at this byte.
    ByteUnread(usize),
    /// A word with the record, but not the smallest one.
    NotSmallest,
    OtherWord,
    NoWordForBranches,
    /// A word that has the record at a near address will do.
    NearAddressTaken,
    RefusedHasWord,
    ShortRecordRead,
    LongRecordRefused,
}

const SINGLE: &[Mistake] = &[
    Mistake::WrongNumber,
    Mistake::OtherByteOrder,
    Mistake::OnIsOne,
    Mistake::WidthNotSeen,
    Mistake::AddressCut,
    Mistake::ShortSliceRead,
    Mistake::LastBytesRead,
    Mistake::WrittenPastRecord,
    Mistake::ShortRecordWritten,
    Mistake::NotSmallest,
    Mistake::OtherWord,
    Mistake::NoWordForBranches,
    Mistake::NearAddressTaken,
    Mistake::RefusedHasWord,
    Mistake::ShortRecordRead,
    Mistake::LongRecordRefused,
];

/// All mistakes, those of a byte once for every byte.
pub fn all() -> Vec<Mistake> {
    let mut mistakes = SINGLE.to_vec();
    for place in 0..RECORD_BYTES {
        mistakes.push(Mistake::WrongByte(place));
        mistakes.push(Mistake::ByteUnwritten(place));
        mistakes.push(Mistake::ByteUnread(place));
    }
    mistakes
}

/// The linked library with one mistake.
pub struct Mistaken(pub Mistake);

// `lui`, and a bit of the field that it does not read.
const OP_SHIFT: u32 = 26;
const OP_LUI: u64 = 15;
const BIT_OF_RS: u64 = 1 << 21;

impl Mistaken {
    /// The bytes that are read in place of the input.
    fn input<'a>(&self, bytes: &'a [u8], padded: &'a mut [u8; WORD_BYTES]) -> &'a [u8] {
        match self.0 {
            Mistake::ShortSliceRead if bytes.len() < WORD_BYTES => {
                padded[..bytes.len()].copy_from_slice(bytes);
                padded
            }
            Mistake::LastBytesRead => &bytes[bytes.len().saturating_sub(WORD_BYTES)..],
            _ => bytes,
        }
    }

    /// Address and flags as they are taken.
    fn place(&self, va: u64, big: u8, wide: u8) -> (u64, u8, u8) {
        match self.0 {
            Mistake::AddressCut => (va % (1 << 32), big, wide),
            Mistake::OtherByteOrder => (va, (big == 0) as u8, wide),
            Mistake::OnIsOne => (va, (big == 1) as u8, (wide == 1) as u8),
            Mistake::WidthNotSeen => (va, big, 0),
            _ => (va, big, wide),
        }
    }

    fn spoil(&self, before: &[u8], record: &mut [u8]) {
        let is_whole = record.len() >= RECORD_BYTES;
        match self.0 {
            Mistake::WrongByte(place) if is_whole => record[place] ^= 1,
            Mistake::ByteUnwritten(place) if is_whole => record[place] = before[place],
            Mistake::WrittenPastRecord if is_whole => record[RECORD_BYTES..].fill(0),
            Mistake::ShortRecordWritten if !is_whole => record.fill(0),
            _ => {}
        }
    }
}

/// The answer for the first value of the byte that gives a word.
fn encode_without(place: usize, record: &[u8], va: u64, wide: u8) -> u64 {
    let mut tried = record.to_vec();
    let mut answers = (0..=u8::MAX).map(|value| {
        tried[place] = value;
        Linked.encode(&tried, va, wide)
    });
    answers.find(|&answer| answer != NO_WORD).unwrap_or(NO_WORD)
}

/// The answer at the first of the addresses before this one that gives a word.
fn encode_near(record: &[u8], va: u64, wide: u8) -> u64 {
    (0..NEAR as u64)
        .map(|steps| Linked.encode(record, va.wrapping_sub(NEAR_STEP * steps), wide))
        .find(|&answer| answer != NO_WORD)
        .unwrap_or(NO_WORD)
}

impl Library for Mistaken {
    fn decode(&self, bytes: &[u8], va: u64, big: u8, wide: u8, record: &mut [u8]) -> u8 {
        let mut padded = [0; WORD_BYTES];
        let bytes = self.input(bytes, &mut padded);
        let (va, big, wide) = self.place(va, big, wide);
        let before = record.to_vec();
        let number = Linked.decode(bytes, va, big, wide, record);
        self.spoil(&before, record);
        match self.0 {
            Mistake::WrongNumber => number ^ 1,
            _ => number,
        }
    }

    fn encode(&self, record: &[u8], va: u64, wide: u8) -> u64 {
        let answer = Linked.encode(record, va, wide);
        let is_word = answer < NO_WORD;
        match self.0 {
            Mistake::ByteUnread(place) if answer == NO_WORD => {
                encode_without(place, record, va, wide)
            }
            Mistake::NearAddressTaken if answer == NO_WORD => encode_near(record, va, wide),
            Mistake::NotSmallest if answer >> OP_SHIFT == OP_LUI => answer | BIT_OF_RS,
            Mistake::OtherWord if is_word => answer ^ 1,
            Mistake::NoWordForBranches if is_word && record[MARKS] != 0 => NO_WORD,
            Mistake::RefusedHasWord if answer == NO_WORD && record[NUMBER] != 0 => 0,
            Mistake::ShortRecordRead if answer == NO_RECORD => NO_WORD,
            Mistake::LongRecordRefused if record.len() > RECORD_BYTES => NO_WORD,
            _ => answer,
        }
    }
}
