//! Compares the library, as a program in another language calls it, with the
//! unchanged Rust in the same process.
//!
//! `differential COUNT SEARCHED SEED` compares COUNT generated words in every way
//! of `compare.rs`, and SEARCHED words with the smallest word that is found by
//! trying. It prints what it compared, or names what differs and ends with status 1.

mod boundary;
mod compare;
mod expected;
mod mistakes;
#[allow(dead_code)]
#[path = "../oracle/shared.rs"]
mod shared;

use std::env;
use std::process::exit;

use answer::Ask;
use compare::{Comparison, Counts, Library, Linked};
use mistakes::{Mistake, Mistaken};
use shared::{answer, many, mips, model, record, smallest, vectors};

const USAGE: &str = "usage: differential COUNT SEARCHED SEED";
const STATUS_FAILED: i32 = 1;
const STATUS_USAGE: i32 = 2;

/// How many differences are named.
const NAMED: usize = 6;

/// In how many words a mistake is to be noticed. Some show in a few places only, and
/// the generator comes to each place once in some 1,760 words.
const NOTICED_IN: usize = 10_000;

fn accepted_words(seed: u64) -> impl Iterator<Item = Ask> {
    many::asks(seed).filter(Ask::is_accepted)
}

fn is_noticed(mistake: Mistake, seed: u64) -> bool {
    let mut comparison = Comparison::new(Mistaken(mistake), seed);
    many::asks(seed)
        .take(NOTICED_IN)
        .any(|ask| comparison.word(ask).is_err())
}

fn search_notices(seed: u64) -> bool {
    let mut comparison = Comparison::new(Mistaken(Mistake::NotSmallest), seed);
    accepted_words(seed)
        .take(NOTICED_IN)
        .any(|ask| comparison.smallest(ask).is_err())
}

/// A comparison that overlooks a wrong answer would agree with everything. Answers
/// with how many mistakes are noticed, all of them, or names one that is not.
fn check_notices(seed: u64) -> Result<usize, String> {
    let mistakes = mistakes::all();
    for &mistake in &mistakes {
        if !is_noticed(mistake, seed) {
            return Err(format!("{mistake:?}, a mistake put in, is not noticed"));
        }
    }
    match search_notices(seed) {
        true => Ok(mistakes.len()),
        false => Err("an answer that is not the smallest word is not noticed".to_string()),
    }
}

/// The differences, up to as many as are named.
fn compare<L: Library>(comparison: &mut Comparison<L>, size: &Size) -> Vec<String> {
    let words = many::asks(size.seed).take(size.count);
    let mut differences: Vec<String> = words
        .filter_map(|ask| comparison.word(ask).err())
        .take(NAMED)
        .collect();
    let words = accepted_words(size.seed).take(size.searched);
    differences.extend(
        words
            .filter_map(|ask| comparison.smallest(ask).err())
            .take(NAMED),
    );
    differences
}

/// How much is compared, and where the generator starts.
struct Size {
    count: usize,
    searched: usize,
    seed: u64,
}

fn size_of(arguments: &[String]) -> Option<Size> {
    match arguments {
        [count, searched, seed] => Some(Size {
            count: count.parse().ok()?,
            searched: searched.parse().ok()?,
            seed: seed.parse().ok()?,
        }),
        _ => None,
    }
}

fn print_counts(counts: &Counts, mistakes: usize) {
    println!(
        "{} generated words, under both flags and in both byte orders: \
         {} numbers and records are those of the published mips.rs; \
         {} accepted records are encoded as a word no larger that it reads alike; \
         {} at any address and flag so too where it reads their word alike, else as another such word or not at all; \
         {} are encoded as the smallest word that is found by trying; {} records of refused words have no word; \
         with a byte changed {} records are refused and {} are another word's in every byte; \
         {} short slices and records are refused; \
         {mistakes} mistakes put into the library are noticed",
        counts.words,
        counts.decoded,
        counts.encoded,
        counts.elsewhere,
        counts.smallest,
        counts.refusals,
        counts.changed_to_none,
        counts.changed_to_other,
        counts.short,
    );
}

fn run(size: &Size) -> Result<(), String> {
    let mut comparison = Comparison::new(Linked, size.seed);
    let differences = compare(&mut comparison, size);
    if !differences.is_empty() {
        return Err(differences.join("\n"));
    }
    // With a wrong library the mistakes put into it would say nothing, so this is last.
    let mistakes = check_notices(size.seed)?;
    print_counts(&comparison.counts, mistakes);
    Ok(())
}

fn main() {
    let arguments: Vec<String> = env::args().skip(1).collect();
    let size = match size_of(&arguments) {
        Some(size) => size,
        None => {
            eprintln!("{USAGE}");
            exit(STATUS_USAGE);
        }
    };
    if let Err(text) = run(&size) {
        eprintln!("{text}");
        exit(STATUS_FAILED);
    }
}
