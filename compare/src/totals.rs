//! Bits by stem, by the rule alone (Q8.1 to Q8.5). The published Rust has no totals: all else is held to
//! it, and a state whose totals exceed its place is left to the rule (Q8.6).
use crate::theirs::{self, MAX_BYTES, Read, State, Word};
use std::iter::once;

/// The refusal of a state whose totals together exceed its place.
const EXCESS: u32 = 12;

/// Where the totals stand in the slots of a state, left and right.
pub const TOTALS: [usize; 2] = [13, 14];

/// An accepted word of a history: the channel that was due, and how many bits it took from its place to
/// the next, a run field included. A zero out of a run took none.
#[derive(Clone, Copy, Debug)]
pub struct Took {
    pub channel: u32,
    pub bits: u32,
}

/// Bits of left and of right: for each the sum over a history of what its own words took.
pub fn sums(history: &[Took]) -> [u32; 2] {
    [0, 1].map(|channel| history.iter().filter(|took| took.channel == channel).map(|took| took.bits).sum())
}

/// Whether the totals of a state together exceed its place.
pub fn exceed(state: &State) -> bool {
    let [left, right] = TOTALS.map(|slot| u64::from(state[slot]));
    left + right > u64::from(state[0])
}

/// One word: what the Rust answers, and the totals after it; or the refusal number.
pub fn word(payload: &[u8], state: &State) -> Result<Word<15>, u32> {
    // A payload that is too long is found before the totals are looked at.
    if payload.len() <= MAX_BYTES && exceed(state) {
        return Err(EXCESS);
    }
    let Word { sample, state: theirs, report } = theirs::word(payload, state)?;
    let mut after = *state;
    after[..theirs.len()].copy_from_slice(&theirs);
    after[TOTALS[state[1] as usize]] += theirs[0] - state[0];
    Ok(Word { sample, state: after, report })
}

/// What the words of a reading took, by the places that they led to: it starts at place 0, and the
/// channels alternate from left on.
fn history(places: &[u32]) -> Vec<Took> {
    let from = once(&0).chain(places);
    let took = from.zip(places).zip([0, 1].into_iter().cycle());
    took.map(|((from, to), channel)| Took { channel, bits: to - from }).collect()
}

/// The ten numbers of a reading's answer: the Rust's eight, and the sums over the words that it accepted.
pub fn answer(read: &Read) -> [u32; 10] {
    let [left, right] = sums(&history(&read.places));
    let [used, a, b, c, d, e, f, written] = read.answer;
    assert_eq!(left + right, used, "every bit that is used is a word's");
    [used, a, b, c, d, e, f, written, left, right]
}
