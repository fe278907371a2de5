//! Log words, term and weight bytes, entropy payloads.
use super::{Records, SEED};
use crate::kinds::entropy::payload;
use crate::random::Random;
use crate::theirs;
use reference::decorrelation::{decode_term_byte, expand_weights};
use wavpack_stereo::Slots;

/// The refusal and the value of each log word, in the order of their 16-bit patterns.
pub fn log_words() -> Records {
    let mut out = Records::default();
    for pattern in 0..=u16::MAX {
        let (refusal, value) = match theirs::log_word(pattern as i16) {
            Ok(value) => (0, value),
            Err(refusal) => (refusal, 0),
        };
        out.numbers(&[refusal]);
        out.signed(&[value]);
    }
    out
}

/// The term and the delta of each byte.
pub fn term_bytes() -> Records {
    let mut out = Records::default();
    for (term, delta) in (0..=u8::MAX).map(decode_term_byte) {
        out.signed(&[i32::from(term), delta]);
    }
    out
}

/// The weight of each byte.
pub fn weight_bytes() -> Records {
    let mut out = Records::default();
    let bytes: Vec<u8> = (0..=u8::MAX).collect();
    out.signed(&expand_weights(&bytes).weights);
    out
}

/// Entropy payloads: length, refusal, 16 bytes of which the first are the payload, six medians.
pub fn entropy() -> Records {
    let (random, mut out) = (&mut Random::new(SEED), Records::default());
    for round in 0..640 {
        let length = if round < 68 { round % 17 } else { random.pick(&[6, 12, 12]) };
        let bytes = payload(random, length);
        let (refusal, medians) = match theirs::info(&bytes) {
            Ok(info) => (0, [info.medians_left, info.medians_right].slots()),
            Err(refusal) => (refusal, [0; 6]),
        };
        out.numbers(&[length as u32, refusal]);
        out.bytes(&bytes, 16);
        out.signed(&medians);
    }
    out
}
