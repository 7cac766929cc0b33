//! Questions by the million, for a comparison at scale.
//!
//! They go round the places of `vectors.rs`, so that a place which few words
//! have is asked as often as any other, with any words in between. A count and
//! a seed name the same questions on every machine.

use crate::answer::Ask;
use crate::vectors::{places, Place, Random};

/// How many questions of a round have any word at all. The tables have some 1,500
/// places, so that this is about one question in seven.
const ANY_WORDS: usize = 256;

/// Questions without an end.
pub fn asks(seed: u64) -> impl Iterator<Item = Ask> {
    let mut round = places();
    round.extend([Place::ANY; ANY_WORDS]);
    let in_round = round.len() as u64;
    let mut random = Random::new(seed);
    (0..).map(move |number| {
        let place = round[(number % in_round) as usize];
        random.ask(place, number / in_round)
    })
}
