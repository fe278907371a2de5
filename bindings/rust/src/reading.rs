//! Reading a packed payload.
use crate::slots::Slots;
use crate::{Medians, Refusal, ffi};
use core::error::Error;
use core::fmt;

/// What a reading reports of its accepted words.
#[derive(Clone, Copy, Debug, Default, PartialEq, Eq, Hash)]
pub struct Reading {
    /// How many bits were used.
    pub bits_used: u32,
    /// The medians after the last word.
    pub medians: Medians,
    /// How many samples were written.
    pub written: usize,
    /// The bits read for left and for right, as [`word`](crate::word) counts them: together the bits
    /// used.
    pub bits_read: [u32; 2],
}

/// A refused reading, with what it reports of the words before the one that ended it.
#[derive(Clone, Copy, Debug, PartialEq, Eq, Hash)]
pub struct ReadError {
    /// Why it was refused.
    pub refusal: Refusal,
    /// What was read until then; all 0 where no word was tried.
    pub reading: Reading,
}

impl fmt::Display for ReadError {
    fn fmt(&self, f: &mut fmt::Formatter<'_>) -> fmt::Result {
        write!(f, "the reading ended after {} samples", self.reading.written)
    }
}

impl Error for ReadError {
    /// Why: the refusal.
    fn source(&self) -> Option<&(dyn Error + 'static)> {
        Some(&self.refusal)
    }
}

impl From<ReadError> for Refusal {
    fn from(error: ReadError) -> Refusal {
        error.refusal
    }
}

/// Reads the packed payload of a stereo block: `frames` frames, left then right, into `samples`,
/// which has 2 times `frames` elements.
///
/// An entropy payload of 12 bytes is stereo whatever it holds: three right medians of 0 are a right
/// channel that starts silent.
///
/// # Errors
///
/// Refuses [`Refusal::TooLarge`], [`Refusal::ListLength`], [`Refusal::EntropyLength`],
/// [`Refusal::LogWordOutOfReach`] and [`Refusal::NotStereo`], in this order, with `samples` as it was;
/// then, in a word, [`Refusal::Truncated`] or [`Refusal::EndOfStream`], with the samples of the words before
/// it in `samples` and, after them, what it held.
///
/// # Examples
///
/// ```
/// use wavpack_stereo::{Refusal, read};
/// let entropy = [0, 1, 0, 1, 0, 1, 0, 1, 0, 1, 0, 1];
/// let mut samples = [0; 2];
/// let reading = read(&entropy, &[0x7e, 0x02], 1, &mut samples)?;
/// assert_eq!((samples, reading.bits_used, reading.bits_read), ([3, -1], 10, [9, 1]));
///
/// let left_only = [0, 1, 0, 1, 0, 1, 0, 0, 0, 0, 0, 0];
/// let reading = read(&left_only, &[0x7e, 0x02], 1, &mut samples)?;
/// assert_eq!((samples, reading.medians), ([3, -1], [[6; 3], [0; 3]]));
///
/// let mut samples = [77; 8];
/// let error = read(&entropy, &[0x7e, 0x02], 4, &mut samples).unwrap_err();
/// assert_eq!((error.refusal, error.reading.written), (Refusal::Truncated, 6));
/// assert_eq!(samples, [3, -1, 0, 0, 0, 0, 77, 77]);
/// # Ok::<(), wavpack_stereo::ReadError>(())
/// ```
pub fn read(
    entropy: &[u8],
    payload: &[u8],
    frames: usize,
    samples: &mut [i32],
) -> Result<Reading, ReadError> {
    let mut answer = [0; 10];
    let outcome = Refusal::outcome(ffi::read(entropy, payload, frames, samples, &mut answer));
    let reading = Reading::from_slots(answer);
    match outcome {
        Ok(()) => Ok(reading),
        Err(refusal) => Err(ReadError { refusal, reading }),
    }
}

#[cfg(test)]
mod tests {
    use super::*;

    #[test]
    fn an_error_reports_its_refusal() {
        let error = read(&[0, 1], &[], 1, &mut [0; 2]).unwrap_err();
        let why = error.source().and_then(|source| source.downcast_ref::<Refusal>());
        assert_eq!((why, error.reading), (Some(&Refusal::EntropyLength), Reading::default()));
    }

    #[test]
    fn a_log_word_out_of_reach_leaves_zeros() {
        let (mut samples, mut answer) = ([77; 2], [77; 11]);
        let number = ffi::read(&[0, 32, 0, 0, 0, 0], &[0x7e, 0x02], 1, &mut samples, &mut answer);
        assert_eq!((number, samples, answer), (17, [77; 2], [0, 0, 0, 0, 0, 0, 0, 0, 0, 0, 77]));
    }
}
