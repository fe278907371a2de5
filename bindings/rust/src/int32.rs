//! Recordings wider than the words: low bits that stand apart from them, and low bits that follow
//! from those above.
use crate::{Refusal, ffi};

/// What stands below the words of a recording, for each sample. Each field is 0 to
/// [`MAX_FIELD`](crate::MAX_FIELD), in any combination; of `zeros`, `ones` and `dups` only the first that
/// is not 0 counts.
#[derive(Clone, Copy, Debug, Default, PartialEq, Eq, Hash)]
pub struct Int32Info {
    /// How many bits come from the literal bits, right below the word.
    pub sent_bits: u32,
    /// How many 0s stand below these.
    pub zeros: u32,
    /// How many 1s.
    pub ones: u32,
    /// How many copies of the bit above them.
    pub dups: u32,
}

/// Completes samples that are wider than the words, each in turn, and gives the number of bits of
/// `literal` that were read: `sent_bits` for each sample.
///
/// A sample is shifted left by `sent_bits`, with its literal bits below it; then it is shifted left by
/// the first of `zeros`, `ones` and `dups` that is not 0, with as many 0s, 1s or copies of its lowest
/// bit below it. What is shifted out of 32 bits is lost. The literal bits of a sample are read with
/// the lowest first, and so are the bits of a byte; what stands after them is not read.
///
/// # Errors
///
/// Refuses [`Refusal::FieldAbove31`], [`Refusal::TooLarge`] for over
/// [`MAX_ELEMENTS`](crate::MAX_ELEMENTS) samples and [`Refusal::Truncated`] for too few literal bits, in
/// this order; `samples` is then as it was.
///
/// # Examples
///
/// ```
/// use wavpack_stereo::{Int32Info, Refusal, reassemble_int32};
/// // 1 is completed to 1_0101, and then by two copies of its lowest bit to 101_0111.
/// let info = Int32Info { sent_bits: 4, dups: 2, ..Int32Info::default() };
/// let mut samples = [1, -1];
/// assert_eq!(reassemble_int32(info, &mut samples, &[0b1010_0101])?, 8);
/// assert_eq!(samples, [0b101_0111, -24]);
///
/// assert_eq!(reassemble_int32(info, &mut samples, &[]), Err(Refusal::Truncated));
/// let wider = Int32Info { dups: 32, ..info };
/// assert_eq!(reassemble_int32(wider, &mut samples, &[0]), Err(Refusal::FieldAbove31));
/// # Ok::<(), Refusal>(())
/// ```
pub fn reassemble_int32(info: Int32Info, samples: &mut [i32], literal: &[u8]) -> Result<u32, Refusal> {
    let mut answer = [0];
    Refusal::outcome(ffi::reassemble_int32(info, samples, literal, &mut answer))?;
    Ok(answer[0])
}

/// The way back: makes samples narrow, puts their literal bits into `literal`, which has at least
/// [`LITERAL_BYTES_PER_SAMPLE`](crate::LITERAL_BYTES_PER_SAMPLE) for each, and gives the number of bits
/// written: `sent_bits` for each sample. [`reassemble_int32`] by the same fields gives the samples back.
///
/// A sample is shifted right by the first of `zeros`, `ones` and `dups` that is not 0; then its lowest
/// `sent_bits` bits are literal bits, and it is shifted right by as many. Both shifts keep the sign.
/// The spare bits of the last literal byte are 0, and the bytes after it keep their values.
///
/// # Errors
///
/// Refuses [`Refusal::FieldAbove31`], [`Refusal::TooLarge`] for over
/// [`MAX_ELEMENTS`](crate::MAX_ELEMENTS) samples, [`Refusal::OutputTooShort`], and
/// [`Refusal::NotReinsertable`] for a sample that does not end in the 0s, 1s or copies that `zeros`, `ones`
/// or `dups` put in, in this order; `samples` and `literal` are then as they were.
///
/// # Examples
///
/// ```
/// use wavpack_stereo::{Int32Info, LITERAL_BYTES_PER_SAMPLE, Refusal, bytes_for_bits};
/// use wavpack_stereo::{deconstruct_int32, reassemble_int32};
/// // 24 bits in the upper bytes of 32, of which the words are to hold 20.
/// let info = Int32Info { sent_bits: 4, zeros: 8, ..Int32Info::default() };
/// let recording = [0x1234_5600, -0x0080_0100, i32::MAX - 0xff, i32::MIN];
/// let (mut samples, mut literal) = (recording, [0; 4 * LITERAL_BYTES_PER_SAMPLE]);
/// let bits = deconstruct_int32(info, &mut samples, &mut literal)?;
/// assert_eq!(samples, [0x1_2345, -0x801, 0x7_ffff, -0x8_0000]);
/// let literal_bytes = &literal[..bytes_for_bits(bits)];
/// assert_eq!((bits, literal_bytes), (16, &[0xf6, 0x0f][..]));
///
/// assert_eq!(reassemble_int32(info, &mut samples, literal_bytes)?, bits);
/// assert_eq!(samples, recording);
///
/// // A sample that uses its lowest byte is not one of 24 bits.
/// samples[3] += 1;
/// assert_eq!(deconstruct_int32(info, &mut samples, &mut literal), Err(Refusal::NotReinsertable));
/// assert_eq!(samples[..3], recording[..3]);
/// # Ok::<(), Refusal>(())
/// ```
pub fn deconstruct_int32(info: Int32Info, samples: &mut [i32], literal: &mut [u8]) -> Result<u32, Refusal> {
    let mut answer = [0];
    Refusal::outcome(ffi::deconstruct_int32(info, samples, literal, &mut answer))?;
    Ok(answer[0])
}
