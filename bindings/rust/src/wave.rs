//! Sound files: RIFF WAVE with two channels of 16 bits and a header of 44 bytes.
use crate::slots::Slots;
use crate::{Refusal, ffi};

/// What an import reports.
#[derive(Clone, Copy, Debug, PartialEq, Eq, Hash)]
pub struct Wave {
    /// Frames a second.
    pub rate: u32,
    /// How many samples were written.
    pub written: usize,
}

/// Writes samples, left then right, as a sound file into `out`, which has at least
/// [`WAVE_HEADER_BYTES`](crate::WAVE_HEADER_BYTES) and
/// [`WAVE_BYTES_PER_SAMPLE`](crate::WAVE_BYTES_PER_SAMPLE) for each, and gives the number of bytes written.
/// The bytes after them keep their values. [`wave_import`] gives rate and samples back.
///
/// # Errors
///
/// Refuses [`Refusal::TooLarge`] for over [`MAX_ELEMENTS`](crate::MAX_ELEMENTS) samples,
/// [`Refusal::ListLength`] for an odd number of them, [`Refusal::OutputTooShort`],
/// [`Refusal::NotWave`] for a rate outside [`MIN_RATE`](crate::MIN_RATE) to
/// [`MAX_RATE`](crate::MAX_RATE) and [`Refusal::SampleOutOfSpan`], in this order; `out` is then as it was.
///
/// # Examples
///
/// ```
/// use wavpack_stereo::{Refusal, WAVE_HEADER_BYTES, wave_export};
/// let mut out = [0; WAVE_HEADER_BYTES + 4];
/// assert_eq!(wave_export(44_100, &[3, -1], &mut out)?, 48);
/// assert_eq!((&out[..4], &out[44..]), (&b"RIFF"[..], &[3, 0, 0xff, 0xff][..]));
/// assert_eq!(wave_export(0, &[3, 32_768], &mut out), Err(Refusal::NotWave));
/// assert_eq!(wave_export(1, &[3, 32_768], &mut out), Err(Refusal::SampleOutOfSpan));
/// # Ok::<(), Refusal>(())
/// ```
pub fn wave_export(rate: u32, samples: &[i32], out: &mut [u8]) -> Result<usize, Refusal> {
    let mut answer = [0];
    Refusal::outcome(ffi::wave_export(rate, samples, out, &mut answer))?;
    Ok(answer[0] as usize)
}

/// Reads the samples of a sound file, left then right, into `samples`, which has at least an
/// element for each; the elements after them keep their values. A file is accepted if it is what
/// [`wave_export`] writes, whoever wrote it: no other header, chunk, length or rate.
///
/// # Errors
///
/// Refuses [`Refusal::TooLarge`] for over [`MAX_WAVE_BYTES`](crate::MAX_WAVE_BYTES), [`Refusal::NotWave`]
/// and [`Refusal::OutputTooShort`], in this order; `samples` is then as it was.
///
/// # Examples
///
/// ```
/// use wavpack_stereo::{Refusal, WAVE_HEADER_BYTES, Wave, wave_export, wave_import};
/// let mut file = [0; WAVE_HEADER_BYTES + 4];
/// wave_export(44_100, &[3, -1], &mut file)?;
/// let mut samples = [77; 3];
/// assert_eq!(wave_import(&file, &mut samples)?, Wave { rate: 44_100, written: 2 });
/// assert_eq!(samples, [3, -1, 77]);
/// assert_eq!(wave_import(&file[..47], &mut samples), Err(Refusal::NotWave));
/// # Ok::<(), Refusal>(())
/// ```
pub fn wave_import(file: &[u8], samples: &mut [i32]) -> Result<Wave, Refusal> {
    let mut answer = [0; 2];
    Refusal::outcome(ffi::wave_import(file, samples, &mut answer))?;
    Ok(Wave::from_slots(answer))
}
