//! Answers as lines of text; `../vectors/README.md` lists the columns.

use std::fmt::Write as _;
use std::io::{self, Write};

use crate::answer::Ask;
use crate::record::{record_of, NO_WORD};
use crate::smallest::smallest_word;

/// The question's word with the record of its answer, in hex.
fn answer(ask: &Ask) -> String {
    let mut line = format!("{ask} ");
    for byte in record_of(ask) {
        // Writing to a string does not fail.
        let _ = write!(line, "{byte:02x}");
    }
    line
}

/// Asks the decoder and writes its answer.
pub fn write_answer(out: &mut impl Write, ask: &Ask) -> io::Result<()> {
    writeln!(out, "{}", answer(ask))
}

/// The same, and after it what an encoder has to answer to the record.
pub fn write_kept(out: &mut impl Write, ask: &Ask) -> io::Result<()> {
    let encoded = smallest_word(ask).map_or(NO_WORD, u64::from);
    writeln!(out, "{} {encoded:016x}", answer(ask))
}

/// Writes the question and the smallest word with the answer's reading; nothing for a
/// refused word.
pub fn write_smallest(out: &mut impl Write, ask: &Ask) -> io::Result<()> {
    match smallest_word(ask) {
        Some(word) => writeln!(out, "{ask} {word:08x}"),
        None => Ok(()),
    }
}
