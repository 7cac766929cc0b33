//! The file of results: a line for each chunk that is finished.
//!
//! Columns: flag, upper byte, words, words accepted, records encoded, differences,
//! the first word that differs or `-`, checksum. The upper byte, the first word and
//! the checksum are in hex.

use std::collections::BTreeMap;
use std::fs::{self, File};
use std::io::{self, Write};
use std::path::Path;

use crate::chunk::{Chunk, Outcome};

pub type Results = BTreeMap<Chunk, Outcome>;

const NONE: &str = "-";

fn line(chunk: &Chunk, outcome: &Outcome) -> String {
    let first = match outcome.first_difference {
        Some(word) => format!("{word:08x}"),
        None => NONE.to_string(),
    };
    format!(
        "{} {:02x} {} {} {} {} {first} {:016x}",
        chunk.wide as u8,
        chunk.upper,
        outcome.words,
        outcome.accepted,
        outcome.encoded,
        outcome.differences,
        outcome.checksum
    )
}

fn parse_flag(text: &str) -> Option<bool> {
    match text {
        "0" => Some(false),
        "1" => Some(true),
        _ => None,
    }
}

fn parse_first(text: &str) -> Option<Option<u32>> {
    match text {
        NONE => Some(None),
        _ => u32::from_str_radix(text, 16).ok().map(Some),
    }
}

fn parse(line: &str) -> Option<(Chunk, Outcome)> {
    let columns: Vec<&str> = line.split(' ').collect();
    match columns[..] {
        [flag, upper, words, accepted, encoded, differences, first, checksum] => {
            let chunk = Chunk {
                wide: parse_flag(flag)?,
                upper: u8::from_str_radix(upper, 16).ok()?,
            };
            let outcome = Outcome {
                words: words.parse().ok()?,
                accepted: accepted.parse().ok()?,
                encoded: encoded.parse().ok()?,
                differences: differences.parse().ok()?,
                first_difference: parse_first(first)?,
                checksum: u64::from_str_radix(checksum, 16).ok()?,
            };
            Some((chunk, outcome))
        }
        _ => None,
    }
}

/// The results so far; none if there is no file yet.
pub fn read(file: &Path) -> io::Result<Results> {
    if !file.exists() {
        return Ok(Results::new());
    }
    let text = fs::read_to_string(file)?;
    let results: Option<Results> = text.lines().map(parse).collect();
    let damaged = || io::Error::new(io::ErrorKind::InvalidData, "the file of results is damaged");
    results.ok_or_else(damaged)
}

/// Writes all lines to a new file that then takes the old one's place, so that a run
/// may end at any moment and leaves a whole file.
pub fn write(file: &Path, results: &Results) -> io::Result<()> {
    let part = file.with_extension("part");
    let mut out = File::create(&part)?;
    let lines: String = results
        .iter()
        .map(|(chunk, outcome)| line(chunk, outcome) + "\n")
        .collect();
    out.write_all(lines.as_bytes())?;
    out.sync_all()?;
    fs::rename(part, file)
}
