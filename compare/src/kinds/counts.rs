//! Counts of ones, seen through the words that begin with them: from every bit of payloads of up to
//! 20 bytes to every place of the zero that ends the count, and through the largest payloads. A
//! word's next place shows where its count ended.
use super::words::{SLOTS, Word};
use crate::case::{Case, Failed, Run, Smaller};
use crate::fields::Bits;
use crate::theirs::{MAX_BYTES, State};
use std::iter::successors;

/// A run length is due, which code bits follow.
const RUN: State = [0, 0, 0, 0, 0, 0, 0, 1, 40, 90, 1, 16, 15, 0, 0];
/// A prefix is due, which code bits and a sign follow.
const PREFIX: State = [0, 1, 0, 0, 0, 0, 0, 700, 5000, 3000, 100, 900, 5000, 0, 0];
/// A prefix is due, which a sign alone follows: there a count shows up to the payload's end.
const PREFIX_AND_SIGN: State = [0, 0, 0, 0, 0, 1, 1, 0, 0, 0, 0, 0, 0, 0, 0];

/// A word at `start`, all of whose bits before count for left and for right.
fn word(payload: Vec<u8>, start: usize, mut state: State) -> Word {
    state[0] = start as u32;
    [state[13], state[14]] = [state[0] / 3, state[0] - state[0] / 3];
    Word { payload, state, slots: SLOTS }
}

/// Ones from `start` up to `zero`, in a payload of `end` bits, with any bits before and after.
fn count(run: &mut Run, start: usize, zero: usize, end: usize) -> Result<(), Failed> {
    let (before, after) = (start.min(end), end.saturating_sub(zero + 1));
    for fill_before in 0..=before.min(1) {
        for fill_after in 0..=after.min(2) {
            let mut bits = Bits::default();
            bits.filled(before, fill_before, &mut run.random);
            bits.ones(zero - before);
            bits.filled(after, fill_after, &mut run.random);
            // A zero at the end is none: it lies after the payload.
            bits.0.truncate(end);
            for state in [RUN, PREFIX, PREFIX_AND_SIGN] {
                run.agree(word(bits.bytes(), start, state))?;
            }
        }
    }
    Ok(())
}

/// A word in a payload of ones that ends with zeros. It is made small by its length alone: to try
/// all that is simpler would take hours.
#[derive(Clone, Debug)]
struct Long {
    bytes: usize,
    zeros: usize,
    start: usize,
    state: State,
}

impl Case for Long {
    fn compare(&self) -> Result<u32, String> {
        let ones = (8 * self.bytes).saturating_sub(self.zeros);
        let mut payload = vec![0xff; ones / 8];
        payload.push((1 << (ones % 8)) - 1);
        payload.resize(self.bytes, 0);
        word(payload, self.start, self.state).compare()
    }

    fn smaller(&self) -> Smaller<'_, Long> {
        let parts = successors(Some(self.bytes), |part| Some(part / 2)).take_while(|&part| part > 0);
        Box::new(parts.map(|part| Long { bytes: self.bytes - part, ..*self }))
    }
}

/// Counts through payloads of the most bytes, one less and one more: without a zero, with one so
/// near the end that the word is cut, and with one before a whole word, also the payload's last.
fn largest(run: &mut Run) -> Result<(), Failed> {
    for start in 0..8 {
        // The zero lies in another byte for each start, and is another bit of it.
        for zeros in [0, 1 + 9 * start] {
            run.agree(Long { bytes: MAX_BYTES, zeros, start, state: PREFIX })?;
        }
    }
    for bytes in [MAX_BYTES - 1, MAX_BYTES, MAX_BYTES + 1] {
        run.agree(Long { bytes, zeros: 3, start: 3, state: PREFIX_AND_SIGN })?;
    }
    run.agree(Long { bytes: MAX_BYTES, zeros: 64, start: 3, state: RUN })
}

pub fn run(run: &mut Run) -> Result<(), Failed> {
    for end in (0..=20).map(|bytes| 8 * bytes) {
        for start in (0..=end + 1).chain([end + 8]) {
            for zero in start.min(end)..=end {
                count(run, start, zero, end)?;
            }
        }
    }
    largest(run)
}
