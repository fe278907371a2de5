//! Archives: files of packed recordings, in blocks of 512 bytes.
use crate::{ARCHIVE_NUMBERS_PER_RECORDING, Refusal, ffi};
use core::error::Error;
use core::fmt;

/// A recording in an archive.
#[derive(Clone, Copy, Debug, PartialEq, Eq, Hash)]
pub struct Recording<'a> {
    /// The house that it was made in.
    pub house: u16,
    /// The second at which it starts.
    pub start: u32,
    /// Of the recordings with the same house and start the one with the highest issue is in force.
    pub issue: u16,
    /// What was packed.
    pub payload: &'a [u8],
}

/// The recordings of an archive that are in force, in the order of the file.
#[derive(Clone, Debug)]
pub struct Recordings<'a> {
    list: &'a [[u32; ARCHIVE_NUMBERS_PER_RECORDING]],
    payloads: &'a [u8],
}

impl<'a> Iterator for Recordings<'a> {
    type Item = Recording<'a>;

    fn next(&mut self) -> Option<Recording<'a>> {
        let (&[house, start, issue, length], rest) = self.list.split_first()?;
        let (payload, payloads) = self.payloads.split_at(length as usize);
        *self = Recordings { list: rest, payloads };
        // House and issue are numbers of 16 bits in the file.
        Some(Recording { house: house as u16, start, issue: issue as u16, payload })
    }

    fn size_hint(&self) -> (usize, Option<usize>) {
        (self.list.len(), Some(self.list.len()))
    }
}

impl ExactSizeIterator for Recordings<'_> {}

/// A refused reading of an archive.
#[derive(Clone, Copy, Debug, PartialEq, Eq, Hash)]
pub struct ArchiveError {
    /// Why it was refused.
    pub refusal: Refusal,
    /// With [`Refusal::BadBlock`] the first bad block, counted from 0 in the file.
    pub bad_block: Option<usize>,
}

impl fmt::Display for ArchiveError {
    fn fmt(&self, f: &mut fmt::Formatter<'_>) -> fmt::Result {
        match self.bad_block {
            Some(block) => write!(f, "the archive was not read: block {block} is bad"),
            None => f.write_str("the archive was not read"),
        }
    }
}

impl Error for ArchiveError {
    /// Why: the refusal.
    fn source(&self) -> Option<&(dyn Error + 'static)> {
        Some(&self.refusal)
    }
}

impl From<ArchiveError> for Refusal {
    fn from(error: ArchiveError) -> Refusal {
        error.refusal
    }
}

/// Writes a recording for an archive into `out`, which has at least
/// [`archive_bytes`](crate::archive_bytes) of the payload's length, and gives the number of bytes written.
/// The bytes after them keep their values. An archive is what this function writes of each of its
/// recordings, one after the other, in any order; [`archive_read`] gives them back.
///
/// # Errors
///
/// Refuses [`Refusal::TooLarge`] for over [`MAX_PAYLOAD_BYTES`](crate::MAX_PAYLOAD_BYTES) and
/// [`Refusal::OutputTooShort`], in this order; `out` is then as it was.
///
/// # Examples
///
/// ```
/// use wavpack_stereo::{Refusal, archive_bytes, archive_write};
/// let mut out = [77; archive_bytes(2) + 1];
/// assert_eq!(archive_write(3, 86_400, 1, &[0x7e, 0x02], &mut out)?, 512);
/// // Block 0 uses 14 bytes: house, start, issue, payload length and payload.
/// assert_eq!(out[..18], [0, 0, 14, 0, 3, 0, 0x80, 0x51, 1, 0, 1, 0, 2, 0, 0, 0, 0x7e, 0x02]);
/// assert_eq!((out[507], out[512]), (0, 77));
/// assert_eq!(archive_write(3, 86_400, 1, &[0x7e], &mut out[..511]), Err(Refusal::OutputTooShort));
/// # Ok::<(), Refusal>(())
/// ```
pub fn archive_write(
    house: u16,
    start: u32,
    issue: u16,
    payload: &[u8],
    out: &mut [u8],
) -> Result<usize, Refusal> {
    let mut answer = [0];
    Refusal::outcome(ffi::archive_write(house, start, issue, payload, out, &mut answer))?;
    Ok(answer[0] as usize)
}

/// Reads an archive, and gives its recordings in force, in the order of the file. A recording is in force
/// unless another one with the same house and start has a higher issue. A file is accepted if it is what
/// [`archive_write`] writes of recordings of which no two have the same house, start and issue; an empty
/// file has no recordings.
///
/// `list` has room for each recording in force, and `payloads` for their payloads, one after the other.
/// An element of `list` for each [`ARCHIVE_BLOCK_BYTES`](crate::ARCHIVE_BLOCK_BYTES) of the file, and as many
/// bytes of `payloads` as the file has, are always enough. What stands after the recordings keeps its
/// values.
///
/// # Errors
///
/// Refuses [`Refusal::BadBlock`], with the first bad block, [`Refusal::RecordingTwice`] for the same house,
/// start and issue twice, and [`Refusal::OutputTooShort`], in this order; `list` and `payloads` are then as
/// they were. A block is bad that has under 512 bytes, a wrong check, a payload length over
/// [`MAX_PAYLOAD_BYTES`](crate::MAX_PAYLOAD_BYTES), a number, a count of used bytes or a filling other than
/// that length and the blocks before it ask for, or that is the file's last while its recording is
/// unfinished.
///
/// # Examples
///
/// ```
/// use wavpack_stereo::{ArchiveError, Recording, Refusal, archive_read, archive_write};
/// let mut file = [0; 3 * 512];
/// archive_write(3, 86_400, 1, b"first", &mut file[..512])?;
/// archive_write(4, 86_400, 1, b"another house", &mut file[512..1_024])?;
/// archive_write(3, 86_400, 2, b"second issue", &mut file[1_024..])?;
///
/// let (mut list, mut payloads) = ([[0; 4]; 3], [0; 3 * 512]);
/// let mut recordings = archive_read(&file, &mut list, &mut payloads)?;
/// assert_eq!(recordings.len(), 2);
/// let other = Recording { house: 4, start: 86_400, issue: 1, payload: b"another house" };
/// assert_eq!(recordings.next(), Some(other));
/// assert_eq!(recordings.next().map(|recording| recording.payload), Some(&b"second issue"[..]));
///
/// file[600] ^= 1;
/// let error = archive_read(&file, &mut list, &mut payloads).unwrap_err();
/// assert_eq!(error, ArchiveError { refusal: Refusal::BadBlock, bad_block: Some(1) });
/// # Ok::<(), Refusal>(())
/// ```
pub fn archive_read<'a>(
    file: &[u8],
    list: &'a mut [[u32; ARCHIVE_NUMBERS_PER_RECORDING]],
    payloads: &'a mut [u8],
) -> Result<Recordings<'a>, ArchiveError> {
    let mut answer = [0; 2];
    let number = ffi::archive_read(file, list.as_flattened_mut(), payloads, &mut answer);
    match Refusal::outcome(number) {
        Ok(()) => Ok(Recordings { list: &list[..answer[0] as usize], payloads }),
        Err(refusal) => {
            let bad_block = (refusal == Refusal::BadBlock).then_some(answer[0] as usize);
            Err(ArchiveError { refusal, bad_block })
        }
    }
}

#[cfg(test)]
mod tests {
    use super::*;

    /// Two recordings of a block each.
    fn archive() -> [u8; 1_024] {
        let mut file = [0; 1_024];
        for (house, block) in (1..).zip(file.chunks_exact_mut(512)) {
            assert_eq!(archive_write(house, 7, 0, &[9; 3], block), Ok(512));
        }
        file
    }

    #[test]
    fn an_error_reports_its_refusal() {
        let error = archive_read(&[0; 3], &mut [], &mut []).unwrap_err();
        let why = error.source().and_then(|source| source.downcast_ref::<Refusal>());
        assert_eq!((why, error.bad_block), (Some(&Refusal::BadBlock), Some(0)));
        assert_eq!(Refusal::from(error), Refusal::BadBlock);
    }

    #[test]
    fn only_a_bad_block_changes_the_answer() {
        let (mut list, mut payloads, mut answer) = ([77; 8], [77; 6], [77; 3]);
        let mut read = |file: &[u8], room: [usize; 3]| {
            let [numbers, bytes, slots] = room;
            let (list, payloads) = (&mut list[..numbers], &mut payloads[..bytes]);
            (ffi::archive_read(file, list, payloads, &mut answer[..slots]), answer)
        };
        let file = archive();
        let (twice, cut) = ([&file[..512], &file[..512]].concat(), &file[..1_023]);
        assert_eq!(read(cut, [7, 5, 1]), (6, [77; 3]));
        assert_eq!(read(&twice, [7, 5, 2]), (19, [77; 3]));
        assert_eq!(read(&file, [7, 6, 3]), (11, [77; 3]));
        assert_eq!(read(&file, [8, 5, 3]), (11, [77; 3]));
        assert_eq!(read(cut, [7, 5, 3]), (18, [1, 0, 77]));
        assert_eq!((list, payloads), ([77; 8], [77; 6]));
    }
}
