//! The morning page: peaks and clicks of a recording, a line of text for each 1,024 frames.
use crate::{Refusal, ffi};

/// Writes the morning page of samples, left then right, into `page`, which has at least
/// [`page_bytes`](crate::page_bytes) of their frames, and gives the number of bytes written. The bytes
/// after them keep their values.
///
/// There is a line for each block of [`LINE_FRAMES`](crate::LINE_FRAMES) frames, the last for the frames
/// that are left, and none for no frames. A line has the number of its block from 0 (6 wide), left peak
/// (11), right peak (11), left clicks (8) and right clicks (8), right-aligned with spaces, and a newline:
/// [`LINE_BYTES`](crate::LINE_BYTES) of ASCII.
///
/// A peak is the largest distance from 0 in the block, at most 2,147,483,648. A click is a sample
/// whose distance from 0 exceeds the threshold while that of the sample before it in its channel,
/// also across blocks, did not; before the first sample the distance is 0. So the click columns add
/// up to the clicks of the whole recording. Any threshold is accepted.
///
/// # Errors
///
/// Refuses [`Refusal::TooLarge`] for over [`MAX_ELEMENTS`](crate::MAX_ELEMENTS) samples,
/// [`Refusal::ListLength`] for an odd number of them and [`Refusal::OutputTooShort`], in this order;
/// `page` is then as it was.
///
/// # Examples
///
/// ```
/// use wavpack_stereo::{Refusal, morning_page, page_bytes};
/// // The left stem is loud in the frames 1 and 2, which is one click, and again in frame 4; the
/// // right one reaches the threshold and does not exceed it.
/// let samples = [3, -1, 700, 8, -900, 500, 2, -500, 501, 0];
/// let mut page = [0; page_bytes(5)];
/// assert_eq!(morning_page(&samples, 500, &mut page)?, 45);
/// assert_eq!(std::str::from_utf8(&page), Ok("     0        900        500       2       0\n"));
/// assert_eq!(morning_page(&samples, 500, &mut page[..44]), Err(Refusal::OutputTooShort));
/// # Ok::<(), Refusal>(())
/// ```
pub fn morning_page(samples: &[i32], threshold: u32, page: &mut [u8]) -> Result<usize, Refusal> {
    let mut answer = [0];
    Refusal::outcome(ffi::morning_page(samples, threshold, page, &mut answer))?;
    Ok(answer[0] as usize)
}
