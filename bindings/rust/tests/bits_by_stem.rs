//! Bits by stem (rows Q8.1 to Q8.5 of docs/PROVED.md). Random recordings are packed, read, and walked word
//! by word: after each word the totals are the sums over the words so far of what each took, by the channel
//! that was due, and together the place. A reading reports the totals after as many words, also where a
//! word ends it. Totals that together exceed the place are refused.
mod random;

use random::Random;
use wavpack_stereo::{
    BYTES_PER_FRAME, MAX_FRAMES, MAX_RESIDUAL, MIN_RESIDUAL, Refusal, Word, WordState, pack, read, word,
};

/// How many random recordings are walked, and how many states are tried with other totals.
const RECORDINGS: usize = 600;
const STATES: usize = 40_000;

/// 16 ones, and 33 ones for the second count: the end of a stream, where a prefix starts with them.
const END: [u8; 7] = [0xff, 0xff, 0xfe, 0xff, 0xff, 0xff, 0x03];

/// What was met on the walks and in the readings.
#[derive(Debug, Default, PartialEq, Eq)]
struct Counts {
    words: usize,
    runs: usize,
    zeros_out_of_runs: usize,
    run_lengths_of_0: usize,
    readings: usize,
    truncated: usize,
    ends_of_stream: usize,
}

impl Random {
    fn bytes(&mut self, length: usize) -> Vec<u8> {
        (0..length).map(|_| self.next() as u8).collect()
    }

    /// An entropy payload of log words below a bound: medians of 0 and 1 let runs start.
    fn entropy(&mut self) -> [u8; 12] {
        let bound = [1, 300, 2_000, 8_192][self.below(4)];
        let mut bytes = [0; 12];
        for pair in bytes.chunks_exact_mut(2) {
            pair.copy_from_slice(&(self.below(bound) as u16).to_le_bytes());
        }
        bytes
    }

    /// Residuals in passages, in each of which a stem is silent, quiet or of any height.
    fn residuals(&mut self, frames: usize) -> Vec<i32> {
        let (mut residuals, mut shifts) = (self.numbers(2 * frames), [None; 2]);
        for frame in residuals.chunks_exact_mut(2) {
            if self.below(5) == 0 {
                shifts = shifts.map(|_| [None, None, Some(30), Some(24), Some(0)][self.below(5)]);
            }
            for (residual, shift) in frame.iter_mut().zip(shifts) {
                *residual = shift.map_or(0, |shift| *residual >> shift).clamp(MIN_RESIDUAL, MAX_RESIDUAL);
            }
        }
        residuals
    }

    /// An entropy payload and the payload of a recording.
    fn packed(&mut self, frames: usize) -> Result<([u8; 12], Vec<u8>), Refusal> {
        let (entropy, residuals) = (self.entropy(), self.residuals(frames));
        let mut payload = vec![0; BYTES_PER_FRAME * frames];
        let packed = pack(&residuals, &entropy, frames, &mut payload)?;
        payload.truncate(packed.bytes());
        Ok((entropy, payload))
    }

    /// A state with totals of 0, half of them within a run, where a word is accepted at any place.
    fn state(&mut self) -> WordState {
        let mut state = WordState::new([0, 1].map(|_| [0, 1, 2].map(|_| self.below(99) as u32)));
        state.place = [self.below(70) as u32, self.number() as u32][self.below(2)];
        state.next_channel = self.below(2) as u32;
        state.zero_run_pending = self.below(2) as u32;
        state
    }

    /// Totals of 32 bits, half of them together at a place, one below or one above.
    fn totals(&mut self, place: u32) -> [u32; 2] {
        let left = [self.number() as u32, self.below(place as usize + 1) as u32][self.below(2)];
        let near = place.wrapping_sub(left).wrapping_sub(1).wrapping_add(self.below(3) as u32);
        [left, [self.number() as u32, near][self.below(2)]]
    }
}

/// What the words of a channel took, by their channels and bits.
fn sum(history: &[(u32, u32)], channel: u32) -> u32 {
    history.iter().filter(|&&(due, _)| due == channel).map(|&(_, bits)| bits).sum()
}

/// Whether the next word reads a run length.
fn reads_run_length(state: &WordState) -> bool {
    let flags = state.last_zero || state.last_one || state.run_break;
    state.zero_run_pending == 0 && !flags && state.medians.iter().all(|medians| medians[0] <= 1)
}

/// Holds what a word took to its kind.
fn hold_word(payload: &[u8], before: WordState, after: WordState, read: Word, counts: &mut Counts) {
    let took = after.place - before.place;
    counts.words += 1;
    if before.zero_run_pending > 0 {
        assert_eq!((took, after.bits_read), (0, before.bits_read));
        counts.zeros_out_of_runs += 1;
    } else if read.zone.is_none() {
        // A run length above 0 takes two bits for each of its binary digits.
        let length = after.zero_run_pending + 1;
        assert!(reads_run_length(&before) && took == 2 * (u32::BITS - length.leading_zeros()));
        counts.runs += 1;
    } else if reads_run_length(&before) {
        // Without its run length, one bit, the same word takes one bit less.
        let mut alone = WordState { place: before.place + 1, run_break: true, ..before };
        assert_eq!(word(payload, &mut alone), Ok(read));
        alone.bits_read[before.next_channel as usize] += 1;
        assert_eq!(alone, after);
        counts.run_lengths_of_0 += 1;
    }
}

/// The states of a walk, before its first word and after each accepted one, and what ended it.
type Walk = (Vec<WordState>, Option<Refusal>);

fn walk(entropy: &[u8], payload: &[u8], words: usize, counts: &mut Counts) -> Result<Walk, Refusal> {
    let mut state = WordState::from_entropy(entropy)?;
    let (mut states, mut history) = (vec![state], Vec::new());
    for _ in 0..words {
        let before = state;
        let read = match word(payload, &mut state) {
            Ok(read) => read,
            Err(refusal) => {
                assert_eq!(state, before);
                return Ok((states, Some(refusal)));
            }
        };
        history.push((before.next_channel, state.place - before.place));
        assert_eq!(state.bits_read, [0, 1].map(|channel| sum(&history, channel)));
        assert_eq!(state.bits_read.iter().sum::<u32>(), state.place);
        hold_word(payload, before, state, read, counts);
        states.push(state);
    }
    Ok((states, None))
}

/// Holds a reading to a walk over the same payload that is at least as long.
fn hold_reading(entropy: &[u8], payload: &[u8], frames: usize, walk: &Walk, counts: &mut Counts) {
    let (reading, ended) = match read(entropy, payload, frames, &mut vec![77; 2 * frames]) {
        Ok(reading) => (reading, None),
        Err(error) => (error.reading, Some(error.refusal)),
    };
    assert_eq!(reading.written, (2 * frames).min(walk.0.len() - 1));
    let after = walk.0[reading.written];
    assert_eq!((reading.bits_used, reading.bits_read), (after.place, after.bits_read));
    assert_eq!(reading.medians, after.medians);
    assert_eq!(ended, if reading.written < 2 * frames { walk.1 } else { None });
    counts.readings += 1;
    counts.truncated += usize::from(ended == Some(Refusal::Truncated));
    counts.ends_of_stream += usize::from(ended == Some(Refusal::EndOfStream));
}

#[test]
fn totals_are_the_sums_of_what_the_words_took() -> Result<(), Refusal> {
    let (mut random, mut counts) = (Random(20_261_117), Counts::default());
    for _ in 0..RECORDINGS {
        let frames = random.below(25);
        let (entropy, mut payload) = random.packed(frames)?;
        let whole = walk(&entropy, &payload, 2 * frames, &mut counts)?;
        assert_eq!(whole.1, None);
        for count in 0..=frames {
            hold_reading(&entropy, &payload, count, &whole, &mut counts);
        }
        for bytes in 0..payload.len() {
            let cut = walk(&entropy, &payload[..bytes], 2 * frames, &mut counts)?;
            assert!(whole.0.starts_with(&cut.0));
            hold_reading(&entropy, &payload[..bytes], frames, &cut, &mut counts);
        }
        // Damaged from some byte on.
        payload.truncate(random.below(payload.len() + 1));
        payload.extend(END);
        payload.extend(random.bytes(40));
        let damaged = walk(&entropy, &payload, 2 * frames, &mut counts)?;
        hold_reading(&entropy, &payload, frames, &damaged, &mut counts);
    }
    let met = Counts {
        words: 425_433,
        runs: 11_292,
        zeros_out_of_runs: 72_158,
        run_lengths_of_0: 3_561,
        readings: 31_084,
        truncated: 22_622,
        ends_of_stream: 140,
    };
    assert_eq!(counts, met);
    Ok(())
}

#[test]
fn totals_above_the_place_are_refused() {
    let (mut random, mut above, mut at, mut charged) = (Random(20_261_118), 0, 0, 0);
    for _ in 0..STATES {
        let payload = random.bytes(16);
        let mut fresh = random.state();
        let [left, right] = random.totals(fresh.place);
        let mut state = WordState { bits_read: [left, right], ..fresh };
        let before = state;
        let (outcome, expected) = (word(&payload, &mut state), word(&payload, &mut fresh));
        if u64::from(left) + u64::from(right) > u64::from(before.place) {
            assert_eq!((outcome, state), (Err(Refusal::InvalidChannel), before));
            above += 1;
            continue;
        }
        // Other totals change nothing but the totals.
        let [more_left, more_right] = fresh.bits_read;
        assert_eq!(outcome, expected);
        assert_eq!(state, WordState { bits_read: [left + more_left, right + more_right], ..fresh });
        at += usize::from(left + right == before.place);
        charged += usize::from(state.place > before.place);
    }
    assert_eq!((above, at, charged), (28_454, 4_350, 2_100));
}

#[test]
fn largest_recording() -> Result<(), Refusal> {
    let mut random = Random(7);
    let (entropy, payload) = random.packed(MAX_FRAMES)?;
    let mut state = WordState::from_entropy(&entropy)?;
    let mut history = Vec::new();
    for _ in 0..2 * MAX_FRAMES {
        let (due, place) = (state.next_channel, state.place);
        word(&payload, &mut state)?;
        history.push((due, state.place - place));
    }
    assert_eq!(state.bits_read, [0, 1].map(|channel| sum(&history, channel)));
    let reading = read(&entropy, &payload, MAX_FRAMES, &mut vec![0; 2 * MAX_FRAMES])?;
    assert_eq!((reading.bits_read, reading.bits_used), (state.bits_read, state.place));
    Ok(())
}
