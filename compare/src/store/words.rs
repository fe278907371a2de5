//! One word from any state, and short readings.
use super::{Records, SEED};
use crate::fields;
use crate::kinds::words;
use crate::payloads;
use crate::random::Random;
use crate::theirs::{self, Word};
use crate::totals;

/// Words: payload length, state, 16 bytes, refusal, sample, state after, report.
pub fn words() -> Records {
    let (random, mut out) = (&mut Random::new(SEED), Records::default());
    for _ in 0..800 {
        let length = random.below(17);
        let mut payload = fields::payload(random, length);
        payload.truncate(16);
        let state = words::any_state(random, 8 * payload.len());
        let (refusal, word) = match totals::word(&payload, &state) {
            Ok(word) => (0, word),
            Err(refusal) => (refusal, Word { sample: 0, state, report: [0, 0] }),
        };
        out.numbers(&[payload.len() as u32]);
        out.numbers(&state);
        out.bytes(&payload, 16);
        out.numbers(&[refusal]);
        out.signed(&[word.sample]);
        out.numbers(&word.state);
        out.numbers(&word.report);
    }
    out
}

/// Readings: payload length, frames, 12 entropy bytes, 48 payload bytes, refusal, answer, 32
/// samples. The last 100 have a zero right set.
pub fn readings() -> Records {
    let (random, mut out) = (&mut Random::new(SEED), Records::default());
    for round in 0..500 {
        let entropy = if round < 400 { payloads::entropy(random) } else { payloads::silent_right(random) };
        let (frames, length) = (random.below(17), random.below(49));
        let payload = if round % 2 == 0 { payloads::encoded(random, &entropy, frames) } else { None };
        let mut payload = payload.unwrap_or_else(|| fields::payload(random, length));
        payload.truncate(48);
        let read = theirs::read(&entropy, &payload, frames, 2 * frames);
        let answer = totals::answer(&read);
        let mut samples = read.samples;
        samples.resize(32, 0);
        out.numbers(&[payload.len() as u32, frames as u32]);
        out.bytes(&entropy, 12);
        out.bytes(&payload, 48);
        out.numbers(&[read.refusal]);
        out.numbers(&answer);
        out.signed(&samples);
    }
    out
}
