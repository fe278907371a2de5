//! Whole readings: every payload of up to 2 bytes, random, damaged and cut payloads, payloads of
//! plain words cut to each of their last lengths, and the largest sizes; the random and the largest
//! ones also with a zero right set. Log words at the limits of their reach, at each place and beside
//! other faults.
use crate::case::{Case, Failed, Run, Smaller, plainer, same, shorter};
use crate::fields;
use crate::lent::Lent;
use crate::ours;
use crate::payloads::{around_reach, encoded, entropy, entropy_of, residuals, silent_right};
use crate::random::Random;
use crate::reach;
use crate::theirs::{self, MAX_BYTES, MAX_FRAMES};
use crate::totals;
use reference::samples::encode_packed_samples_stereo;
use std::fmt;

/// As many slots of the answer as the interface asks for.
pub const SLOTS: usize = 10;

#[derive(Clone)]
pub struct Read {
    pub entropy: Vec<u8>,
    pub payload: Vec<u8>,
    pub frames: usize,
    /// The length of the list of samples, and that of the answer.
    pub length: usize,
    pub slots: usize,
}

impl fmt::Debug for Read {
    fn fmt(&self, f: &mut fmt::Formatter<'_>) -> fmt::Result {
        let shown = &self.payload[..self.payload.len().min(4096)];
        write!(
            f,
            "Read {{ entropy: {:02x?}, payload of {}: {shown:02x?}, ",
            self.entropy,
            self.payload.len()
        )?;
        write!(f, "frames: {}, length: {}, slots: {} }}", self.frames, self.length, self.slots)
    }
}

impl Case for Read {
    fn compare(&self) -> Result<u32, String> {
        let (mut samples, mut answer) = (Lent::marked(self.length), Lent::marked(self.slots));
        let (mut entropy, mut payload) = (Lent::holding(&self.entropy), Lent::holding(&self.payload));
        let refusal = ours::read(entropy.list(), payload.list(), self.frames, samples.list(), answer.list());
        entropy.kept("entropy")?;
        payload.kept("payload")?;
        if self.slots < SLOTS {
            same("refusal", &refusal, &6)?;
            samples.kept("samples")?;
            answer.kept("answer")?;
            return Ok(refusal);
        }
        let read = theirs::read(&self.entropy, &self.payload, self.frames, self.length);
        same("refusal", &refusal, &read.refusal)?;
        answer.written("answer", &totals::answer(&read))?;
        samples.written("samples", &read.samples)?;
        Ok(refusal)
    }

    fn smaller(&self) -> Smaller<'_, Read> {
        let frames = [self.frames / 2, self.frames.saturating_sub(1)]
            .into_iter()
            .filter(|&frames| frames < self.frames);
        let frames = frames.filter(|_| self.frames.checked_mul(2) == Some(self.length));
        let frames = frames.map(|frames| Read { frames, length: 2 * frames, ..self.clone() });
        let payloads = shorter(&self.payload).chain(plainer(&self.payload));
        let payloads = payloads.map(|payload| Read { payload, ..self.clone() });
        let entropies = plainer(&self.entropy).map(|entropy| Read { entropy, ..self.clone() });
        Box::new(frames.chain(payloads).chain(entropies))
    }

    fn silent_right(&self) -> bool {
        theirs::silent_right(&self.entropy)
    }

    fn out_of_reach(&self) -> bool {
        reach::holds_one(&self.entropy)
    }
}

fn agree_on(run: &mut Run, entropy: &[u8], payload: Vec<u8>, frames: usize) -> Result<(), Failed> {
    run.agree(Read { entropy: entropy.to_vec(), payload, frames, length: 2 * frames, slots: SLOTS })
}

/// Six words of each kind: small, middling, largest, and with a zero right set.
const WORDS: [[i16; 6]; 9] = [
    [0, 0, 0, 256, 0, 0],
    [256; 6],
    [0, 0, 0, 0, 0, 300],
    [1000, 900, 800, 1100, 1000, 900],
    [8191; 6],
    [0; 6],
    [256, 256, 256, 0, 0, 0],
    [1000, 900, 800, 255, -255, 1],
    [8191, 8191, 8191, 0, 0, 0],
];

/// Every payload of up to two bytes.
fn short_payloads(run: &mut Run) -> Result<(), Failed> {
    for entropy in WORDS.map(entropy_of) {
        for both in 0..=u16::MAX {
            agree_on(run, &entropy, both.to_le_bytes().to_vec(), 3)?;
            if both < 256 {
                agree_on(run, &entropy, vec![both as u8], 2)?;
            }
        }
    }
    Ok(())
}

/// A reading of a payload that was encoded, or of fields; at times the lists have other lengths.
fn random_read(random: &mut Random, mut entropy: Vec<u8>, is_encoded: bool) -> Read {
    let (frames, length) = (random.below(24), random.below(60));
    let payload = if is_encoded { encoded(random, &entropy, frames) } else { None };
    let payload = payload.unwrap_or_else(|| fields::payload(random, length));
    if random.once_in(16) {
        entropy.truncate(random.below(13));
    }
    let length = if random.once_in(16) { random.below(60) } else { 2 * frames };
    let slots = if random.once_in(16) { random.below(SLOTS + 3) } else { SLOTS };
    Read { entropy, payload, frames, length, slots }
}

pub fn run(run: &mut Run) -> Result<(), Failed> {
    short_payloads(run)?;
    for (make, rounds) in [(entropy as fn(&mut Random) -> Vec<u8>, 100_000), (silent_right, 52_000)] {
        for round in 0..rounds * run.scale {
            let entropy = make(&mut run.random);
            let case = random_read(&mut run.random, entropy, round % 2 == 0);
            run.agree(case)?;
        }
    }
    plain_words(run)?;
    at_limits(run)?;
    largest(run, [1500, 1400, 1300, 1600, 1500, 1400])?;
    largest(run, [1500, 1400, 1300, 0, 0, 0])?;
    largest(run, [0; 6])?;
    long_words(run)
}

/// How many bytes before a payload's end no plain word is begun any more, and some.
const TAIL: usize = 40;

/// Payloads that are long enough for plain words, of residuals or of fields around every cap, and cut
/// to each of their last lengths: the loop over plain words then ends at every word, before runs and
/// escapes, in the left and in the right channel, and at each distance from the payload's end.
fn plain_words(run: &mut Run) -> Result<(), Failed> {
    for round in 0..3_000 * run.scale {
        let random = &mut run.random;
        let (entropy, frames, length) = (entropy(random), 32 + random.below(64), 64 + random.below(200));
        let made = if round % 3 == 0 { None } else { encoded(random, &entropy, frames) };
        let payload = made.unwrap_or_else(|| fields::payload(random, length));
        for length in payload.len().saturating_sub(TAIL)..=payload.len() {
            agree_on(run, &entropy, payload[..length].to_vec(), frames)?;
        }
    }
    Ok(())
}

/// Limits of a log word's reach beside other faults, too many frames, a list that does not suit them,
/// an answer of fewer slots; and at the largest sizes.
fn at_limits(run: &mut Run) -> Result<(), Failed> {
    for entropy in around_reach() {
        for (frames, length) in [(2, 4), (2, 3), (MAX_FRAMES + 1, 4)] {
            for slots in SLOTS - 1..=SLOTS + 1 {
                let payload = run.random.bytes(3);
                run.agree(Read { entropy: entropy.clone(), payload, frames, length, slots })?;
            }
        }
    }
    for words in [[8192, 0, 0, 0, 0, 0], [0, 0, 0, 0, 0, -8192]] {
        for (frames, bytes) in
            [(MAX_FRAMES, MAX_BYTES), (MAX_FRAMES + 1, MAX_BYTES), (MAX_FRAMES, MAX_BYTES + 1)]
        {
            let payload = run.random.bytes(bytes);
            agree_on(run, &entropy_of(words), payload, frames)?;
        }
    }
    Ok(())
}

/// Frames and bytes at their limits and one above.
fn largest(run: &mut Run, words: [i16; 6]) -> Result<(), Failed> {
    let entropy = entropy_of(words);
    for bits in [0, 1, 4, 12, 24, 31] {
        let values = residuals(&mut run.random, 2 * MAX_FRAMES, bits, 500);
        let mut seeds = theirs::seeds(&entropy).expect("it is accepted");
        let payload = encode_packed_samples_stereo(&values, &mut seeds).unwrap();
        agree_on(run, &entropy, payload.clone(), MAX_FRAMES)?;
        agree_on(run, &entropy, payload, MAX_FRAMES + 1)?;
    }
    for length in [MAX_BYTES, MAX_BYTES + 1] {
        let payload = run.random.bytes(length);
        agree_on(run, &entropy, payload, MAX_FRAMES)?;
        agree_on(run, &entropy, vec![0xff; length], MAX_FRAMES)?;
    }
    for frames in [usize::MAX, usize::MAX / 2 + 1] {
        run.agree(Read { entropy: entropy.clone(), payload: vec![0; 4], frames, length: 0, slots: SLOTS })?;
    }
    Ok(())
}

/// One word that takes nearly all bits of the longest payload, of the left channel and of the right.
fn long_words(run: &mut Run) -> Result<(), Failed> {
    for zeros in 0..3 {
        let mut payload = vec![0xff; MAX_BYTES];
        payload[..zeros].fill(0);
        payload[MAX_BYTES - 16..].fill(0);
        agree_on(run, &entropy_of([1500, 1400, 1300, 1600, 1500, 1400]), payload, 4)?;
    }
    Ok(())
}
