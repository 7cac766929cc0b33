//! The sums over all chunks.

use crate::chunk::{self, Chunk, Outcome};
use crate::results::Results;

const STATUS_FAILED: i32 = 1;
const STATUS_UNFINISHED: i32 = 3;

/// How many words are accepted under a flag.
const ACCEPTED: u64 = 3_388_112_896;

/// How many differences are named, each the first of its chunk.
const NAMED: usize = 8;

/// The sum of the chunks under one flag.
#[derive(Default)]
struct Total {
    chunks: usize,
    sum: Outcome,
}

impl Total {
    fn add(mut self, outcome: &Outcome) -> Total {
        self.chunks += 1;
        self.sum.words += outcome.words;
        self.sum.accepted += outcome.accepted;
        self.sum.encoded += outcome.encoded;
        self.sum.differences += outcome.differences;
        self.sum.checksum = chunk::add_to_checksum(self.sum.checksum, outcome.checksum);
        self
    }

    /// The results are in the order of their chunks, so the checksum is the same in
    /// whatever order they were compared.
    fn of(results: &Results, wide: bool) -> Total {
        let chunks = results.iter().filter(|(chunk, _)| chunk.wide == wide);
        chunks.fold(Total::default(), |total, (_, outcome)| total.add(outcome))
    }

    fn print(&self, flag: usize) {
        println!(
            "flag {flag}: {} of {} chunks, {} words, {} accepted, {} encoded, {} differences, checksum {:016x}",
            self.chunks,
            chunk::CHUNKS,
            self.sum.words,
            self.sum.accepted,
            self.sum.encoded,
            self.sum.differences,
            self.sum.checksum
        );
    }
}

fn print_differences(results: &Results) {
    let first = |(chunk, outcome): (&Chunk, &Outcome)| {
        chunk::difference(outcome.first_difference?, chunk.wide)
    };
    let differences = results.iter().filter_map(first).take(NAMED);
    differences.for_each(|text| println!("{text}"));
}

/// Prints the sums under each flag, and a last line that says what they mean.
/// Answers with the program's status.
pub fn print(results: &Results) -> i32 {
    print_differences(results);
    let totals = [false, true].map(|wide| Total::of(results, wide));
    for (flag, total) in totals.iter().enumerate() {
        total.print(flag);
    }
    let (status, text) = verdict(&totals);
    println!("{text}");
    status
}

fn verdict(totals: &[Total; 2]) -> (i32, String) {
    let all_of = |part: fn(&Total) -> u64| totals.iter().map(part).sum::<u64>();
    let words = all_of(|total| total.sum.words);
    let encoded = all_of(|total| total.sum.encoded);
    let differences = all_of(|total| total.sum.differences);
    if differences > 0 {
        let text = format!("{differences} of {words} answers differ from the published mips.rs");
        return (STATUS_FAILED, text);
    }
    if totals.iter().any(|total| total.chunks < chunk::CHUNKS) {
        let text = format!(
            "{words} answers are compared so far, and none differs from the published mips.rs"
        );
        return (STATUS_UNFINISHED, text);
    }
    if totals.iter().any(|total| total.sum.accepted != ACCEPTED) {
        let text = format!("the words accepted are not {ACCEPTED} under each flag");
        return (STATUS_FAILED, text);
    }
    let text = format!(
        "{words} answers, to all words under both flags, have the number and the record of the published mips.rs; \
         {ACCEPTED} words are accepted under each flag; {encoded} records are encoded as their word \
         or as a smaller one with the same record"
    );
    (0, text)
}
