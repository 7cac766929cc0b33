//! The chunks that are not finished, some at a time.

use std::io;
use std::path::PathBuf;
use std::process;
use std::sync::atomic::{AtomicUsize, Ordering};
use std::sync::Mutex;
use std::thread;
use std::time::Instant;

use crate::chunk::{self, Chunk, Outcome};
use crate::results::{self, Results};

pub struct Plan {
    /// The file of results.
    pub file: PathBuf,
    /// How many chunks are compared at a time.
    pub threads: usize,
    /// The records of the upper bytes that this divides are encoded; 0 for none.
    pub every: u8,
    /// How many chunks are compared at most.
    pub most: usize,
}

impl Plan {
    fn is_encoding(&self, chunk: Chunk) -> bool {
        self.every != 0 && chunk.upper % self.every == 0
    }

    /// A chunk whose records were not encoded is taken again if they should be.
    fn is_finished(&self, chunk: Chunk, results: &Results) -> bool {
        match results.get(&chunk) {
            Some(outcome) => !self.is_encoding(chunk) || outcome.encoded == outcome.accepted,
            None => false,
        }
    }
}

/// What the threads share.
struct Work<'a> {
    plan: &'a Plan,
    chunks: Vec<Chunk>,
    next: AtomicUsize,
    results: Mutex<Results>,
}

impl Work<'_> {
    /// Takes chunks until there are no more.
    fn take_chunks(&self) -> io::Result<()> {
        while let Some(&chunk) = self.chunks.get(self.next.fetch_add(1, Ordering::Relaxed)) {
            let begun = Instant::now();
            let outcome = chunk::compare(chunk, self.plan.is_encoding(chunk));
            self.keep(chunk, outcome, begun)?;
        }
        Ok(())
    }

    /// Adds a chunk's outcome to the file of results, and says so.
    fn keep(&self, chunk: Chunk, outcome: Outcome, begun: Instant) -> io::Result<()> {
        let (upper, flag) = (chunk.upper, chunk.wide as u8);
        let text = format!(
            "words {upper:02x}000000 to {upper:02x}ffffff, flag {flag}: {} accepted, {} encoded, {} differences",
            outcome.accepted, outcome.encoded, outcome.differences
        );
        let mut results = self
            .results
            .lock()
            .expect("no thread stops while it has the lock");
        results.insert(chunk, outcome);
        results::write(&self.plan.file, &results)?;
        let (finished, all) = (results.len(), Chunk::all().count());
        let seconds = begun.elapsed().as_secs_f64();
        println!("{text}; {seconds:.1} seconds; {finished} of {all} chunks");
        Ok(())
    }
}

/// Compares what is not finished, as much of it as the plan has.
pub fn compare(plan: &Plan, results: Results) -> io::Result<()> {
    let unfinished = Chunk::all().filter(|&chunk| !plan.is_finished(chunk, &results));
    let work = Work {
        plan,
        chunks: unfinished.take(plan.most).collect(),
        next: AtomicUsize::new(0),
        results: Mutex::new(results),
    };
    let (id, count, threads) = (process::id(), work.chunks.len(), plan.threads);
    println!("process {id} compares {count} chunks, {threads} at a time");
    thread::scope(|scope| {
        let begin = |_| scope.spawn(|| work.take_chunks());
        let threads: Vec<_> = (0..threads).map(begin).collect();
        threads
            .into_iter()
            .try_for_each(|thread| thread.join().expect("no thread stops early"))
    })
}
