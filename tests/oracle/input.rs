//! Questions from standard input, one a line: `WIDE VA WORD`.

use std::io::{self, BufRead};

use crate::answer::Ask;

const VA_DIGITS: usize = 16;
const WORD_DIGITS: usize = 8;

/// Reads plain hex digits. The standard parser alone would also take a sign,
/// and a sign in these columns can only be a mistake.
fn hex(text: &str) -> Option<u64> {
    if text.bytes().all(|b| b.is_ascii_hexdigit()) {
        u64::from_str_radix(text, 16).ok()
    } else {
        None
    }
}

fn parse_wide(text: &str) -> Option<bool> {
    match text {
        "0" => Some(false),
        "1" => Some(true),
        _ => None,
    }
}

fn parse_va(text: &str) -> Option<u64> {
    if text.len() > VA_DIGITS {
        return None;
    }
    hex(text)
}

fn parse_word(text: &str) -> Option<u32> {
    if text.len() != WORD_DIGITS {
        return None;
    }
    hex(text).map(|value| value as u32)
}

/// Reads one question; `None` if the line is anything else.
fn parse_ask(line: &str) -> Option<Ask> {
    let mut columns = line.split_ascii_whitespace();
    let wide = parse_wide(columns.next()?)?;
    let va = parse_va(columns.next()?)?;
    let word = parse_word(columns.next()?)?;
    match columns.next() {
        None => Some(Ask { word, va, wide }),
        Some(_) => None,
    }
}

/// Hands every question of the input to `answer`, up to the first malformed
/// line, which becomes an error with the line's number.
pub fn for_each_ask<F>(mut input: impl BufRead, mut answer: F) -> io::Result<()>
where
    F: FnMut(&Ask) -> io::Result<()>,
{
    // One buffer for all lines: a run may have many millions of them.
    let mut line = Vec::new();
    let mut number: u64 = 0;
    while input.read_until(b'\n', &mut line)? > 0 {
        number += 1;
        let ask = std::str::from_utf8(&line).ok().and_then(parse_ask);
        match ask {
            Some(ask) => answer(&ask)?,
            None => return Err(malformed(number)),
        }
        line.clear();
    }
    Ok(())
}

fn malformed(number: u64) -> io::Error {
    let message =
        format!("line {number} is not `WIDE VA WORD` (0 or 1, up to 16 hex digits, 8 hex digits)");
    io::Error::new(io::ErrorKind::InvalidData, message)
}
