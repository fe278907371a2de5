//! The morning page of the largest recording. The Rust is written here, twice: as a plain loop over
//! the frames, and as one over 16 samples at once, the fastest that was found without unsafe code;
//! all sides fill lent storage.
use super::{row, timed};
use crate::random::Random;
use crate::their_pages::{self, BLOCK, LINE, MAX_SAMPLES, page_bytes};
use std::time::Duration;
use wavpack_stereo::morning_page;

/// Samples with a name, and the threshold that suits them.
pub struct Sound {
    pub name: &'static str,
    pub samples: Vec<i32>,
    pub threshold: u32,
}

/// Noise with few clicks, samples of which any may be loud, and silence.
pub fn sounds(random: &mut Random) -> [Sound; 3] {
    let mut list = |sample: fn(&mut Random) -> i32| (0..MAX_SAMPLES).map(|_| sample(random)).collect();
    let noise = |random: &mut Random| random.next() as i32 >> if random.once_in(1000) { 8 } else { 16 };
    [
        Sound { name: "noise of 16 bits, one in 1,000 louder", samples: list(noise), threshold: 1 << 15 },
        Sound {
            name: "random samples of 32 bits, half of them loud",
            samples: list(|random| random.next() as i32),
            threshold: 1 << 30,
        },
        Sound { name: "silence", samples: list(|_| 0), threshold: 1 << 15 },
    ]
}

/// Writes a number at the end of a column, after spaces.
fn write_column(column: &mut [u8], mut number: u32) {
    column.fill(b' ');
    for byte in column.iter_mut().rev() {
        *byte = b'0' + (number % 10) as u8;
        number /= 10;
        if number == 0 {
            break;
        }
    }
}

fn write_line(line: &mut [u8], number: usize, peaks: [u32; 2], clicks: [u32; 2]) {
    write_column(&mut line[..6], number as u32);
    write_column(&mut line[6..17], peaks[0]);
    write_column(&mut line[17..28], peaks[1]);
    write_column(&mut line[28..36], clicks[0]);
    write_column(&mut line[36..44], clicks[1]);
    line[44] = b'\n';
}

/// A block's number, its samples and the line for it.
type Line<'a> = (usize, (&'a [i32], &'a mut [u8]));

/// The lines of a page; none where the rules refuse.
fn lines<'a>(samples: &'a [i32], page: &'a mut [u8]) -> Option<impl Iterator<Item = Line<'a>>> {
    let page = page.get_mut(..page_bytes(samples.len()))?;
    if samples.len() > MAX_SAMPLES || samples.len() % 2 == 1 {
        return None;
    }
    Some(samples.chunks(2 * BLOCK).zip(page.chunks_exact_mut(LINE)).enumerate())
}

/// The page as a loop over the frames.
pub fn loop_page(samples: &[i32], threshold: u32, page: &mut [u8]) -> Option<usize> {
    let mut loud = [false; 2];
    for (number, (block, line)) in lines(samples, page)? {
        let (mut peaks, mut clicks) = ([0; 2], [0; 2]);
        for frame in block.chunks_exact(2) {
            for channel in 0..2 {
                let distance = frame[channel].unsigned_abs();
                peaks[channel] = distance.max(peaks[channel]);
                if distance > threshold && !loud[channel] {
                    clicks[channel] += 1;
                }
                loud[channel] = distance > threshold;
            }
        }
        write_line(line, number, peaks, clicks);
    }
    Some(page_bytes(samples.len()))
}

/// How many samples are read at once.
const LANES: usize = 16;

/// The page without a branch for any sample: each beside the one before it in its channel. Distances
/// are negated, since so they fit 32 signed bits, which the processor compares faster.
fn lanes_page(samples: &[i32], threshold: u32, page: &mut [u8]) -> Option<usize> {
    let negated = |sample: i32| sample.wrapping_abs().wrapping_neg();
    let limit = threshold.min(1 << 31).wrapping_neg() as i32;
    let mut last = [0; 2];
    for (number, (block, line)) in lines(samples, page)? {
        let (mut lowest, mut clicks) = ([0; LANES], [0; LANES]);
        let mut take = |lane: usize, now: i32, before: i32| {
            lowest[lane] = negated(now).min(lowest[lane]);
            clicks[lane] += u32::from(negated(now) < limit) & u32::from(negated(before) >= limit);
        };
        (0..2).for_each(|channel| take(channel, block[channel], last[channel]));
        let (chunks, rest) = block[2..].as_chunks::<LANES>();
        for (now, before) in chunks.iter().zip(block.as_chunks::<LANES>().0) {
            (0..LANES).for_each(|lane| take(lane, now[lane], before[lane]));
        }
        for (lane, (&now, &before)) in rest.iter().zip(&block[LANES * chunks.len()..]).enumerate() {
            take(lane, now, before);
        }
        last = [block[block.len() - 2], block[block.len() - 1]];
        let channels = |lanes: [u32; LANES], join: fn(u32, u32) -> u32| {
            [0, 1].map(|channel| lanes.into_iter().skip(channel).step_by(2).fold(0, join))
        };
        write_line(
            line,
            number,
            channels(lowest.map(i32::unsigned_abs), u32::max),
            channels(clicks, |a, b| a + b),
        );
    }
    Some(page_bytes(samples.len()))
}

/// The page by one side: how many bytes it wrote.
pub type Write = fn(&[i32], u32, &mut [u8]) -> Option<usize>;

pub fn our_page(samples: &[i32], threshold: u32, page: &mut [u8]) -> Option<usize> {
    morning_page(samples, threshold, page).ok()
}

fn turn(write: Write, sound: &Sound, expected: &[u8], page: &mut [u8]) -> Duration {
    page.fill(0x5a);
    let (time, written) = timed(|| write(&sound.samples, sound.threshold, page));
    assert!(written == Some(expected.len()) && page == expected, "{}: another page is written", sound.name);
    time
}

pub fn run(random: &mut Random) {
    for sound in &sounds(random) {
        let page = their_pages::page(&sound.samples, sound.threshold, usize::MAX).unwrap();
        let [mut ours, mut theirs] = [vec![0; page.len()], vec![0; page.len()]];
        for (what, write) in
            [("a loop over the frames", loop_page as Write), ("16 samples at once", lanes_page)]
        {
            row(
                &format!("morning page, {} (the Rust: {what})", sound.name),
                || turn(our_page, sound, &page, &mut ours),
                || turn(write, sound, &page, &mut theirs),
            );
        }
    }
}
