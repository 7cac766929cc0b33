//! Questions to the library's two functions with the answers that it has to give,
//! in binary frames, for `../host`. The `README.md` here has a frame's layout.
//!
//! Answers of the decoder are packed from those of the Rust. For the encoder the
//! smallest word is found with the Rust by trying: of a word's own record from that
//! word on (`smallest.rs`), of any other bytes from their reading on (`find.rs`).

use std::io::{self, Write};
use std::num::NonZeroUsize;
use std::thread;

use crate::answer::{Ask, OPERAND_SLOTS};
use crate::damage;
use crate::find::Finder;
use crate::many;
use crate::mips::Insn;
use crate::record::{bytes_of, pack, parse, record_of, register_of, value_of, write_record};
use crate::record::{Record, NO_RECORD, NO_WORD, NUMBER, NUMBER_BYTES, PARTS, RECORD_BYTES};
use crate::record::{FIRST, SECOND, TARGET, VALUE, WORD_BYTES};
use crate::smallest::{self, smallest_word};
use crate::vectors::{self, Random};

// What a frame asks.
const DECODE: u8 = b'd';
const ENCODE_WORD: u8 = b'w';
const ENCODE_SHORT: u8 = b's';
const ENCODE_CHANGED: u8 = b'c';
const ENCODE_PAIR: u8 = b'p';
const ENCODE_OTHER: u8 = b'o';
const ENCODE_LENGTH: u8 = b'l';
const ENCODE_MOVED: u8 = b'a';
const ENCODE_MIXED: u8 = b'm';
const ENCODE_RANDOM: u8 = b'r';
const END: u8 = b'z';

/// Numbers that mean a flag which is on.
const ON: [u8; 3] = [1, 2, 255];

/// A slice has up to this many bytes after its word, which are not looked at.
const MOST_AFTER_WORD: u32 = 4;

/// One word in this many is also asked with slices that end before it does.
const SHORT_EVERY: usize = 64;

/// One record in this many is cut to each length; the others are only made longer.
const CUT_EVERY: usize = 16;

const REGISTERS: u32 = 32;

/// The longest record that is asked about.
const LONGEST: usize = 200;

// How many records are made of one.
const MIXED_OF_RECORD: usize = 8;
const RANDOM_OF_RECORD: usize = 25;

/// What is added to the address of a record: nothing, a word or a byte more or less,
/// as far as a branch reaches, and into the next part that a jump reaches.
#[rustfmt::skip]
const MOVES: &[i64] = &[0, 4, -4, 1, -1, 0x0001_fffc, -0x0002_0000, 0x0002_0000, 0x1000_0000];

/// How many words a thread takes at a time.
const WORDS_OF_JOB: usize = 1024;
const DAMAGED_OF_JOB: usize = 64;

/// Makes frames. Every job has its own, so that they do not depend on which thread
/// was faster.
struct Maker<'a> {
    finder: &'a Finder,
    random: Random,
    frames: Vec<u8>,
    count: u64,
}

impl Maker<'_> {
    fn byte(&mut self) -> u8 {
        self.random.word() as u8
    }

    fn below(&mut self, limit: u32) -> u32 {
        self.random.word() % limit
    }

    fn flag(&mut self, on: bool) -> u8 {
        let pick = self.below(ON.len() as u32);
        if on {
            ON[pick as usize]
        } else {
            0
        }
    }

    /// Puts a frame; for the decoder its record follows.
    fn frame(&mut self, kind: u8, flags: [u8; 2], va: u64, input: &[u8], answer: u64) {
        self.frames.push(kind);
        self.frames.extend(flags);
        self.frames.push(input.len() as u8);
        self.frames.extend(va.to_le_bytes());
        self.frames.extend(answer.to_le_bytes());
        self.frames.extend(input);
        self.count += 1;
    }

    /// Puts a question to the decoder, about bytes of the word and any after them, or
    /// only the first of them.
    fn decode(&mut self, bytes: &[u8], ask: &Ask, big: bool) -> Record {
        let mut record = [0; RECORD_BYTES];
        write_record(bytes, ask, big, &mut record);
        let flags = [self.flag(big), self.flag(ask.wide)];
        self.frame(DECODE, flags, ask.va, bytes, record[NUMBER].into());
        self.frames.extend(record);
        record
    }

    /// Puts a question to the encoder whose answer is known.
    fn encode_known(&mut self, kind: u8, bytes: &[u8], va: u64, wide: bool, answer: u64) {
        let flags = [0, self.flag(wide)];
        self.frame(kind, flags, va, bytes, answer);
    }

    /// Puts a question to the encoder, about any bytes.
    fn encode(&mut self, kind: u8, bytes: &[u8], va: u64, wide: bool) {
        let record = bytes
            .get(..RECORD_BYTES)
            .and_then(|b| Record::try_from(b).ok());
        let answer = match record {
            None => NO_RECORD,
            Some(record) => parse(&record)
                .and_then(|reading| self.finder.smallest(&reading, va, wide))
                .map_or(NO_WORD, u64::from),
        };
        self.encode_known(kind, bytes, va, wide, answer);
    }
}

/// Words, in both byte orders, and their records.
impl Maker<'_> {
    fn slice(&mut self, word: u32, big: bool) -> Vec<u8> {
        let after = self.below(MOST_AFTER_WORD + 1);
        let mut slice = bytes_of(word, big).to_vec();
        slice.extend((0..after).map(|_| self.byte()));
        slice
    }

    fn short_slices(&mut self, ask: &Ask, big: bool) {
        let slice = self.slice(ask.word, big);
        for length in 0..WORD_BYTES {
            let record = self.decode(&slice[..length], ask, big);
            self.encode_known(ENCODE_SHORT, &record, ask.va, ask.wide, NO_WORD);
        }
    }

    fn word(&mut self, ask: &Ask) {
        let slices = [false, true].map(|big| (big, self.slice(ask.word, big)));
        let [record, _] = slices.map(|(big, slice)| self.decode(&slice, ask, big));
        let smallest = smallest_word(ask).map_or(NO_WORD, u64::from);
        self.encode_known(ENCODE_WORD, &record, ask.va, ask.wide, smallest);
        // Few words are read otherwise under the other flag; none of them is left out.
        let wide = !ask.wide;
        if record_of(&Ask { wide, ..*ask }) != record {
            self.encode(ENCODE_MOVED, &record, ask.va, wide);
        }
    }

    fn words(&mut self, asks: &[Ask]) {
        for (n, ask) in asks.iter().enumerate() {
            self.word(ask);
            if n % SHORT_EVERY == 0 {
                self.short_slices(ask, false);
                self.short_slices(ask, true);
            }
        }
    }
}

/// Records that are damaged in one way or the other. Some of them are the record of
/// another word.
impl Maker<'_> {
    /// Every byte, one at a time: one more, one less, and anything else.
    fn changed(&mut self, ask: &Ask, record: &Record) {
        for at in 0..RECORD_BYTES {
            let bits = 1 + self.below(u8::MAX.into()) as u8;
            let old = record[at];
            for new in [old.wrapping_add(1), old.wrapping_sub(1), old ^ bits] {
                let mut record = *record;
                record[at] = new;
                self.encode(ENCODE_CHANGED, &record, ask.va, ask.wide);
            }
        }
    }

    fn pair(&mut self, ask: &Ask, record: &Record, places: [usize; 2], value: u8) {
        let mut changed = *record;
        for at in places {
            changed[at] = value;
        }
        if changed != *record {
            self.encode(ENCODE_PAIR, &changed, ask.va, ask.wide);
        }
    }

    /// Operands and what an effect or target repeats of them, changed alike.
    fn pairs(&mut self, ask: &Ask, record: &Record) {
        for n in 0..OPERAND_SLOTS {
            for at in [FIRST, SECOND] {
                let register = self.below(REGISTERS) as u8;
                self.pair(ask, record, [at, register_of(n)], register);
            }
            for byte in 0..NUMBER_BYTES {
                let value = self.byte();
                let at = value_of(n) + byte;
                self.pair(ask, record, [TARGET + byte, at], value);
                self.pair(ask, record, [VALUE + byte, at], value);
            }
        }
    }

    /// Records of readings that differ from the word's in one part.
    fn others(&mut self, ask: &Ask, reading: &Insn) {
        let names = self.finder.mnemonics();
        for other in damage::readings(reading, names, &mut self.random) {
            self.encode(ENCODE_OTHER, &pack(&other), ask.va, ask.wide);
        }
    }

    fn longer(&mut self, ask: &Ask, record: &Record) {
        let any = RECORD_BYTES + 1 + self.below((LONGEST - RECORD_BYTES) as u32) as usize;
        for length in [RECORD_BYTES + 1, any, LONGEST] {
            let mut bytes = record.to_vec();
            bytes.extend((RECORD_BYTES..length).map(|_| self.byte()));
            self.encode(ENCODE_LENGTH, &bytes, ask.va, ask.wide);
        }
    }

    fn cut(&mut self, ask: &Ask, record: &Record) {
        for length in 0..RECORD_BYTES {
            self.encode(ENCODE_LENGTH, &record[..length], ask.va, ask.wide);
        }
    }

    /// The record where and how it was not made.
    fn moved(&mut self, ask: &Ask, record: &Record) {
        let any = self.random.address();
        let moves = MOVES.iter().map(|&by| ask.va.wrapping_add(by as u64));
        for va in moves.chain([any]) {
            self.encode(ENCODE_MOVED, record, va, !ask.wide);
            if va != ask.va {
                self.encode(ENCODE_MOVED, record, va, ask.wide);
            }
        }
    }

    /// Each part out of one of two records.
    fn mixed(&mut self, ask: &Ask, record: &Record, other: &Record) {
        for _ in 0..MIXED_OF_RECORD {
            let mut record = *record;
            for part in PARTS.windows(2).map(|ends| ends[0]..ends[1]) {
                if self.random.bit() {
                    record[part.clone()].copy_from_slice(&other[part]);
                }
            }
            self.encode(ENCODE_MIXED, &record, ask.va, ask.wide);
        }
    }

    fn random_bytes(&mut self, ask: &Ask) {
        for _ in 0..RANDOM_OF_RECORD {
            let record = [(); RECORD_BYTES].map(|_| self.byte());
            self.encode(ENCODE_RANDOM, &record, ask.va, ask.wide);
        }
    }

    fn damaged(&mut self, asks: &[Ask]) {
        let records: Vec<Record> = asks.iter().map(record_of).collect();
        for (n, (ask, record)) in asks.iter().zip(&records).enumerate() {
            self.changed(ask, record);
            self.pairs(ask, record);
            if let Some(reading) = ask.decode() {
                self.others(ask, &reading);
            }
            self.longer(ask, record);
            if n % CUT_EVERY == 0 {
                self.cut(ask, record);
            }
            self.moved(ask, record);
            self.mixed(ask, record, &records[(n + 1) % records.len()]);
            self.random_bytes(ask);
        }
    }
}

/// A job of a thread: words, and what is made of them.
struct Job {
    asks: Vec<Ask>,
    damaged: bool,
}

impl Job {
    fn make<'a>(&self, finder: &'a Finder, seed: u64) -> Maker<'a> {
        let mut maker = Maker {
            finder,
            random: Random::new(seed),
            frames: Vec::new(),
            count: 0,
        };
        if self.damaged {
            maker.damaged(&self.asks);
        } else {
            maker.words(&self.asks);
        }
        maker
    }
}

fn add_jobs(jobs: &mut Vec<Job>, asks: &[Ask], of_job: usize, damaged: bool) {
    jobs.extend(asks.chunks(of_job).map(|asks| Job {
        asks: asks.to_vec(),
        damaged,
    }));
}

/// The kept words come first, then the accepted words of every place and damage to their
/// records, then COUNT generated words.
fn jobs(count: usize, seed: u64) -> Vec<Job> {
    let mut jobs = Vec::new();
    let accepted = smallest::list();
    let generated: Vec<Ask> = many::asks(seed).take(count).collect();
    add_jobs(&mut jobs, &vectors::list(), WORDS_OF_JOB, false);
    add_jobs(&mut jobs, &accepted, WORDS_OF_JOB, false);
    add_jobs(&mut jobs, &accepted, DAMAGED_OF_JOB, true);
    add_jobs(&mut jobs, &generated, WORDS_OF_JOB, false);
    jobs
}

/// Makes the frames of some jobs, each in a thread of its own.
fn make_together<'a>(jobs: &[Job], finder: &'a Finder, first_seed: u64) -> Vec<Maker<'a>> {
    thread::scope(|scope| {
        let seeds = (0..).map(|n| first_seed.wrapping_add(n));
        let threads: Vec<_> = (jobs.iter().zip(seeds))
            .map(|(job, seed)| scope.spawn(move || job.make(finder, seed)))
            .collect();
        let made = threads.into_iter().map(|thread| thread.join());
        made.map(|made| made.expect("a job ends")).collect()
    })
}

/// Writes all frames, and one that says how many there were.
pub fn write_frames(out: &mut impl Write, count: usize, seed: u64) -> io::Result<()> {
    let finder = Finder::new();
    let threads = thread::available_parallelism().map_or(1, NonZeroUsize::get);
    let mut frames = 0;
    let mut seed_of_job = seed;
    for together in jobs(count, seed).chunks(threads) {
        for made in make_together(together, &finder, seed_of_job) {
            out.write_all(&made.frames)?;
            frames += made.count;
        }
        seed_of_job = seed_of_job.wrapping_add(together.len() as u64);
    }
    out.write_all(&[END, 0, 0, 0])?;
    out.write_all(&0u64.to_le_bytes())?;
    out.write_all(&u64::to_le_bytes(frames))
}
