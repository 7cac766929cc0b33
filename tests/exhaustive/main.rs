//! Compares the library with the unchanged Rust on all 2^32 words under both flags,
//! in chunks: a chunk that is finished stays finished when the program is stopped.
//!
//! `compare RESULTS THREADS EVERY MOST` compares up to MOST of the chunks that are not
//! in the file RESULTS yet and adds them to it. For each upper byte that EVERY divides
//! the accepted records are encoded as well; with 0 none are. `summary RESULTS` prints
//! the sums over all chunks in the file.

mod batch;
#[path = "../differential/boundary.rs"]
mod boundary;
mod chunk;
#[path = "../differential/expected.rs"]
mod expected;
mod results;
#[allow(dead_code)]
#[path = "../oracle/shared.rs"]
mod shared;
mod summary;
mod work;

use std::env;
use std::io;
use std::path::Path;
use std::process::exit;

use shared::{answer, mips, model, record, vectors};
use work::Plan;

const USAGE: &str = "usage: exhaustive (compare RESULTS THREADS EVERY MOST | summary RESULTS)";
const STATUS_FAILED: i32 = 1;
const STATUS_USAGE: i32 = 2;

fn plan_of(arguments: &[String]) -> Option<Plan> {
    match arguments {
        [mode, file, threads, every, most] if mode == "compare" => Some(Plan {
            file: file.into(),
            threads: threads.parse().ok()?,
            every: every.parse().ok()?,
            most: most.parse().ok()?,
        }),
        _ => None,
    }
}

/// Answers with the program's status.
fn run(arguments: &[String]) -> io::Result<i32> {
    if let [mode, file] = arguments {
        if mode == "summary" {
            return Ok(summary::print(&results::read(Path::new(file))?));
        }
    }
    let plan = match plan_of(arguments) {
        Some(plan) => plan,
        None => {
            eprintln!("{USAGE}");
            return Ok(STATUS_USAGE);
        }
    };
    if !batch::is_noticing() {
        eprintln!("exhaustive: the comparison does not notice wrong answers");
        return Ok(STATUS_FAILED);
    }
    work::compare(&plan, results::read(&plan.file)?).map(|()| 0)
}

fn main() {
    let arguments: Vec<String> = env::args().skip(1).collect();
    match run(&arguments) {
        Ok(status) => exit(status),
        Err(error) => {
            eprintln!("exhaustive: {error}");
            exit(STATUS_FAILED);
        }
    }
}
