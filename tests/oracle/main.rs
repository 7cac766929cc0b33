//! Driver around the unchanged Rust decoder, for comparing the project with it.
//!
//! Without an argument it answers the questions on standard input with records; `text`
//! answers them in listing lines, and `back` with the smallest word of the same reading.
//! `vectors` prints the kept answers. `records` writes questions to the library for C in
//! binary frames, with the answers to them.

mod damage;
mod find;
mod input;
mod line;
mod records;
#[path = "shared.rs"]
mod shared;
mod text;

use std::env;
use std::io::{self, BufWriter, Write};
use std::process::exit;

use shared::{answer, many, mips, model, record, smallest, vectors};

const USAGE: &str = "usage: oracle [text | back | vectors | records COUNT SEED]";
const STATUS_FAILED: i32 = 1;
const STATUS_USAGE: i32 = 2;

/// Large buffers keep a run over many millions of words from waiting on calls
/// to the system.
const BUFFER_BYTES: usize = 1 << 16;

enum Mode {
    Answers,
    Text,
    Back,
    Vectors,
    Records { count: usize, seed: u64 },
}

fn records_mode(count: &str, seed: &str) -> Option<Mode> {
    let count = count.parse().ok()?;
    let seed = seed.parse().ok()?;
    Some(Mode::Records { count, seed })
}

fn mode_of(arguments: &[String]) -> Option<Mode> {
    match arguments {
        [] => Some(Mode::Answers),
        [one] if one == "text" => Some(Mode::Text),
        [one] if one == "back" => Some(Mode::Back),
        [one] if one == "vectors" => Some(Mode::Vectors),
        [one, count, seed] if one == "records" => records_mode(count, seed),
        _ => None,
    }
}

fn run(mode: Mode, out: &mut impl Write) -> io::Result<()> {
    let input = io::BufReader::with_capacity(BUFFER_BYTES, io::stdin());
    match mode {
        Mode::Answers => input::for_each_ask(input, |ask| line::write_answer(out, ask)),
        Mode::Text => input::for_each_ask(input, |ask| text::write_text(out, ask)),
        Mode::Back => input::for_each_ask(input, |ask| line::write_smallest(out, ask)),
        Mode::Vectors => vectors::list()
            .iter()
            .try_for_each(|ask| line::write_kept(out, ask)),
        Mode::Records { count, seed } => records::write_frames(out, count, seed),
    }
}

fn main() {
    let arguments: Vec<String> = env::args().skip(1).collect();
    let mode = match mode_of(&arguments) {
        Some(mode) => mode,
        None => {
            eprintln!("{USAGE}");
            exit(STATUS_USAGE);
        }
    };
    let mut out = BufWriter::with_capacity(BUFFER_BYTES, io::stdout());
    // Answers before a malformed line are still good: flush them in any case,
    // then report whichever error came first.
    let answered = run(mode, &mut out);
    let flushed = out.flush();
    if let Err(error) = answered.and(flushed) {
        eprintln!("oracle: {error}");
        exit(STATUS_FAILED);
    }
}
