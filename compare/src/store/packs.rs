//! Packing of up to eight frames.
use super::{Records, SEED};
use crate::kinds::packs;
use crate::payloads;
use crate::random::Random;
use crate::their_packing;

/// Packings: frames, 12 entropy bytes, 16 residuals, refusal, answer, the packed bytes in room for
/// eight frames. The last 100 have a zero right set.
pub fn packs() -> Records {
    let (random, mut out) = (&mut Random::new(SEED), Records::default());
    for round in 0..400 {
        let entropy = if round < 300 { payloads::entropy(random) } else { payloads::silent_right(random) };
        let frames = random.below(9);
        let mut residuals = packs::list(random, 2 * frames);
        if round % 32 == 0 && frames > 0 {
            residuals[random.below(2 * frames)] = their_packing::SPAN;
        }
        let (refusal, answer, bytes) = match their_packing::pack(&residuals, &entropy, frames, 28 * frames) {
            Ok((answer, bytes)) => (0, answer, bytes),
            Err(refusal) => (refusal, [0; 7], Vec::new()),
        };
        residuals.resize(16, 0);
        out.numbers(&[frames as u32]);
        out.bytes(&entropy, 12);
        out.signed(&residuals);
        out.numbers(&[refusal]);
        out.numbers(&answer);
        out.bytes(&bytes, 224);
    }
    out
}
