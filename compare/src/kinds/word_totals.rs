//! Words from states with totals of any kind: one above the place, at it and below it, at the ends of 32
//! bits, at places at the ends of theirs; run fields with each channel due.
use super::words::{SLOTS, Word, agree_on, states};
use crate::case::{Failed, Run};
use crate::fields::{self, Bits};
use crate::random::Random;
use crate::theirs::{MAX_BYTES, State};
use crate::totals::TOTALS;

/// The ends of 32 bits, and where the sum of two leaves them.
const ENDS: [u32; 5] = [0, 1, 1 << 31, u32::MAX - 1, u32::MAX];

/// Two numbers of 32 bits with this sum, which is at most 2^32.
fn split(random: &mut Random, sum: u64) -> [u32; 2] {
    let least = sum.saturating_sub(u32::MAX.into());
    let left = least + random.next() % (sum - 2 * least + 1);
    [left, sum - left].map(|part| part as u32)
}

/// Totals at a place: mostly all bits before it, as reading leaves them, or fewer; rarely one more, or
/// any two numbers.
fn any(random: &mut Random, place: u32) -> [u32; 2] {
    let all = u64::from(place);
    let sum = match random.below(32) {
        0 => return [fields::median(random), fields::median(random)],
        1 => all + 1,
        2..8 => all.saturating_sub(1),
        8..16 => random.next() % (all + 1),
        _ => all,
    };
    split(random, sum)
}

/// Puts a state at a place, with totals that mostly do not exceed it.
pub fn stand(random: &mut Random, state: &mut State, place: u32) {
    state[0] = place;
    [state[TOTALS[0]], state[TOTALS[1]]] = any(random, place);
}

/// Totals at the ends of 32 bits, and around a place: one below it, at it and one above.
fn around(random: &mut Random, place: u32) -> Vec<[u32; 2]> {
    let mut out: Vec<[u32; 2]> = ENDS.iter().flat_map(|&left| ENDS.map(|right| [left, right])).collect();
    let all = u64::from(place);
    for sum in [all.saturating_sub(1), all, all + 1] {
        out.extend([split(random, sum), split(random, sum)]);
        if let Ok(sum) = u32::try_from(sum) {
            out.extend([[sum, 0], [0, sum]]);
        }
    }
    out
}

/// Every kind of state at a place with these totals, for each channel and one that does not exist.
fn states_at(random: &mut Random, place: u32, [left, right]: [u32; 2]) -> Vec<State> {
    let medians = std::array::from_fn(|_| fields::median(random));
    let at = |mut state: State, channel| {
        [state[0], state[1], state[TOTALS[0]], state[TOTALS[1]]] = [place, channel, left, right];
        state
    };
    states(medians).into_iter().flat_map(|state| [0, 1, 2].map(|channel| at(state, channel))).collect()
}

/// Such totals at places at the ends of their type and around a payload's end, in every kind of state,
/// with a slot less, as many as are asked for and one more.
fn at_ends(run: &mut Run, payload: &[u8]) -> Result<(), Failed> {
    let end = 8 * payload.len() as u32;
    for place in [0, 1, end / 2, end.saturating_sub(1), end, end + 1, u32::MAX - 1, u32::MAX] {
        for totals in around(&mut run.random, place) {
            for state in states_at(&mut run.random, place, totals) {
                for first in SLOTS[0] - 1..=SLOTS[0] + 1 {
                    let slots = [first, SLOTS[1], SLOTS[2]];
                    run.agree(Word { payload: payload.to_vec(), state, slots })?;
                }
            }
        }
    }
    Ok(())
}

/// A run length of `run` ones, then a word of `word` ones, which is read at once where the run is 0.
fn run_and_word(random: &mut Random, run: usize, word: usize, fill: usize) -> Bits {
    let mut bits = Bits::default();
    bits.ones(run);
    bits.filled(run.saturating_sub(1), fill, random);
    bits.ones(word);
    bits.filled(40, fill, random);
    bits
}

/// A state in which a run length is due.
fn run_due(random: &mut Random, channel: u32) -> State {
    let mut state: State = std::array::from_fn(|_| fields::median(random));
    state[1..7].copy_from_slice(&[channel, 0, 0, 0, 0, 0]);
    // The gate of a run: both channels' first medians are below 2.
    [state[7], state[10]] = [random.below(2) as u32, random.below(2) as u32];
    state
}

/// The bits of a word where a run length is due, cut at every bit, after up to five bytes.
fn cut_run(run: &mut Run, bits: &Bits, channel: u32) -> Result<(), Failed> {
    for count in 0..=bits.0.len() {
        let random = &mut run.random;
        let ((cut, within), before) = (bits.cut(count), random.below(6));
        let (payload, place) = ([random.bytes(before), cut].concat(), 8 * before as u32 + within);
        let mut state = run_due(random, channel);
        stand(random, &mut state, place);
        agree_on(run, payload, state)?;
    }
    Ok(())
}

/// Run fields with each channel due: a run, a run of 0 and the word after it, and words that are refused
/// after it.
fn run_fields(run: &mut Run) -> Result<(), Failed> {
    for length in [0, 1, 2, 3, 5, 31, 32, 33, 34] {
        for word in [0, 1, 2, 15, 16, 17, 33] {
            for fill in 0..3 {
                let bits = run_and_word(&mut run.random, length, word, fill);
                cut_run(run, &bits, 0)?;
                cut_run(run, &bits, 1)?;
            }
        }
    }
    Ok(())
}

/// Totals that exceed the place, one of them alone or both together, in the longest payload and in one
/// that is too long, which is found first.
fn in_longest(run: &mut Run) -> Result<(), Failed> {
    for length in [MAX_BYTES, MAX_BYTES + 1] {
        for totals in [[10, 0], [0, 10], [5, 5], [5, 4]] {
            for state in states_at(&mut run.random, 9, totals) {
                agree_on(run, vec![0; length], state)?;
            }
        }
    }
    Ok(())
}

pub fn run(run: &mut Run) -> Result<(), Failed> {
    for length in [0, 1, 9, 40] {
        let payload = fields::fresh(&mut run.random, length);
        at_ends(run, &payload)?;
        at_ends(run, &vec![0; length])?;
    }
    in_longest(run)?;
    run_fields(run)
}
