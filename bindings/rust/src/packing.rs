//! Packing residuals.
use crate::slots::Slots;
use crate::{Medians, Refusal, bytes_for_bits, ffi};

/// What a packing reports.
#[derive(Clone, Copy, Debug, Default, PartialEq, Eq, Hash)]
pub struct Packed {
    /// How many bits were written.
    pub bits_written: u32,
    /// The medians after the last word.
    pub medians: Medians,
}

impl Packed {
    /// How many bytes hold the bits: the payload is as many from the first on.
    #[must_use]
    pub const fn bytes(&self) -> usize {
        bytes_for_bits(self.bits_written)
    }
}

/// Packs the residuals of a stereo block: `frames` frames, left then right, 2 times `frames`
/// residuals, into `out`, which has at least [`BYTES_PER_FRAME`](crate::BYTES_PER_FRAME) bytes for each
/// frame. Reading the bytes that hold the bits, with the same entropy payload and frames, gives the
/// residuals. The spare bits of the last byte are 0, and the bytes after it keep their values.
///
/// # Errors
///
/// Refuses [`Refusal::TooLarge`], [`Refusal::ListLength`], [`Refusal::EntropyLength`],
/// [`Refusal::LogWordOutOfReach`], [`Refusal::NotStereo`], [`Refusal::OutputTooShort`] and
/// [`Refusal::ResidualOutOfSpan`], in this order; `out` is then as it was.
///
/// # Examples
///
/// ```
/// use wavpack_stereo::{BYTES_PER_FRAME, Refusal, pack};
/// let entropy = [0, 1, 0, 1, 0, 1, 0, 1, 0, 1, 0, 1];
/// let mut out = [0; BYTES_PER_FRAME];
/// let packed = pack(&[3, -1], &entropy, 1, &mut out)?;
/// assert_eq!((packed.bits_written, &out[..packed.bytes()]), (10, &[0x7e, 0x02][..]));
/// assert_eq!(pack(&[3, -1], &entropy, 1, &mut out[..27]), Err(Refusal::OutputTooShort));
/// # Ok::<(), Refusal>(())
/// ```
pub fn pack(residuals: &[i32], entropy: &[u8], frames: usize, out: &mut [u8]) -> Result<Packed, Refusal> {
    let mut answer = [0; 7];
    Refusal::outcome(ffi::pack(residuals, entropy, frames, out, &mut answer))?;
    Ok(Packed::from_slots(answer))
}

#[cfg(test)]
mod tests {
    use super::*;
    use crate::BYTES_PER_FRAME;

    #[test]
    fn a_log_word_out_of_reach_leaves_zeros() {
        let (mut out, mut answer) = ([77; BYTES_PER_FRAME], [77; 8]);
        let number = ffi::pack(&[3, -1], &[0, 32, 0, 0, 0, 0], 1, &mut out, &mut answer);
        assert_eq!((number, out, answer), (17, [77; BYTES_PER_FRAME], [0, 0, 0, 0, 0, 0, 0, 77]));
    }
}
