//! What the unchanged Rust says, for comparing answers of the library with it.

use crate::answer::Ask;
use crate::record::{record_of, Record};

/// How many differing bytes are named.
const NAMED_BYTES: usize = 4;

/// The first bytes of a record that are not as expected.
pub fn differing(record: &[u8], expected: &[u8]) -> String {
    let bytes = record.iter().zip(expected).enumerate();
    let differing = bytes.filter(|(_, (is, to_be))| is != to_be);
    let named: Vec<String> = differing
        .map(|(place, (is, to_be))| format!("byte {place} is {is:02x} and not {to_be:02x}"))
        .take(NAMED_BYTES)
        .collect();
    named.join(", ")
}

/// The word of an encoder's answer; an answer with a refusal number does not fit.
pub fn word_in(answer: u64) -> Option<u32> {
    u32::try_from(answer).ok()
}

/// Is the answer a word that the Rust gives this record, at the question's address
/// and under its flag, and is it no larger than the limit?
pub fn has_record(answer: u64, limit: u32, ask: &Ask, record: &Record) -> bool {
    match word_in(answer) {
        Some(word) => word <= limit && record_of(&Ask { word, ..*ask }) == *record,
        None => false,
    }
}
