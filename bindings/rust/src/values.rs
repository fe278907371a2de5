//! Values of one word or byte, and of the entropy payload.
use crate::slots::Slots;
use crate::{Delta, Medians, Refusal, Weight, ffi};

/// What a term byte holds.
#[derive(Clone, Copy, Debug, PartialEq, Eq, Hash)]
pub struct TermByte {
    /// The term, -5 to 26; [`Pass::new`](crate::Pass::new) refuses an invalid one.
    pub term: i32,
    /// The delta, 0 to 7.
    pub delta: Delta,
}

/// The signed value of a log word, -2,143,289,344 to 2,143,289,344.
///
/// # Errors
///
/// Refuses [`Refusal::LogWordOutOfReach`] for a word outside [`MIN_LOG_WORD`](crate::MIN_LOG_WORD) to
/// [`MAX_LOG_WORD`](crate::MAX_LOG_WORD).
///
/// # Examples
///
/// ```
/// use wavpack_stereo::{Refusal, log_word};
/// assert_eq!(log_word(2304), Ok(256));
/// assert_eq!(log_word(-256), Ok(-1));
/// assert_eq!(log_word(8191), Ok(2_143_289_344));
/// assert_eq!(log_word(8192), Err(Refusal::LogWordOutOfReach));
/// assert_eq!(log_word(-8192), Err(Refusal::LogWordOutOfReach));
/// ```
pub fn log_word(word: i16) -> Result<i32, Refusal> {
    let mut value = [0];
    Refusal::outcome(ffi::log_word(word, &mut value))?;
    Ok(value[0])
}

/// The term and the delta of a term byte.
///
/// ```
/// use wavpack_stereo::{Delta, TermByte, term_byte};
/// assert_eq!(term_byte(0x57), TermByte { term: 18, delta: Delta(2) });
/// ```
#[must_use]
pub fn term_byte(byte: u8) -> TermByte {
    let mut out = [0; 2];
    // Only a list with fewer than two slots is refused.
    ffi::term_byte(byte, &mut out);
    TermByte::from_slots(out)
}

/// The weight of a weight byte, -1024 to 1024.
///
/// ```
/// use wavpack_stereo::{Weight, weight_byte};
/// assert_eq!(weight_byte(0x7f), Weight(1024));
/// ```
#[must_use]
pub fn weight_byte(byte: u8) -> Weight {
    let mut out = [0];
    // Only a list without a slot is refused.
    ffi::weight_byte(byte, &mut out);
    Weight(out[0])
}

/// The signed medians of an entropy payload of 6 bytes (mono: the right ones are 0) or 12 bytes
/// (stereo).
///
/// # Errors
///
/// Refuses [`Refusal::EntropyLength`], then [`Refusal::LogWordOutOfReach`] for one of its three or six
/// log words.
///
/// # Examples
///
/// ```
/// use wavpack_stereo::{Refusal, entropy};
/// let payload = [0, 1, 0, 9, 0, 0, 0, 255, 0, 1, 0, 1];
/// assert_eq!(entropy(&payload), Ok([[1, 256, 0], [-1, 1, 1]]));
///
/// // The second word is 8192, whose bytes are 0 and 32.
/// let worn = [0, 1, 0, 32, 0, 0];
/// assert_eq!(entropy(&worn), Err(Refusal::LogWordOutOfReach));
/// assert_eq!(entropy(&worn[..5]), Err(Refusal::EntropyLength));
/// ```
pub fn entropy(entropy: &[u8]) -> Result<Medians<i32>, Refusal> {
    let mut medians = [0; 6];
    Refusal::outcome(ffi::entropy(entropy, &mut medians))?;
    Ok(Medians::from_slots(medians))
}

#[cfg(test)]
mod tests {
    use super::*;

    #[test]
    fn a_refused_log_word_leaves_its_list() {
        for word in i16::MIN..=i16::MAX {
            let (mut value, out_of_reach) = ([77; 2], word >= 8192 || word <= -8192);
            assert_eq!(ffi::log_word(word, &mut []), 6);
            assert_eq!(ffi::log_word(word, &mut value), if out_of_reach { 17 } else { 0 }, "{word}");
            assert_eq!(value, [if out_of_reach { 77 } else { log_word(word).unwrap() }, 77]);
        }
    }

    #[test]
    fn a_refused_payload_leaves_its_list() {
        for word in 0..6 {
            let (mut payload, mut medians) = ([0; 12], [77; 7]);
            payload[2 * word + 1] = 32;
            assert_eq!(ffi::entropy(&payload, &mut medians), 17);
            assert_eq!(ffi::entropy(&payload[..11], &mut medians), 1);
            assert_eq!(medians, [77; 7]);
        }
    }
}
