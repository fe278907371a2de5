//! The morning page, stated from its rules alone (Q5.1 to Q5.6 of docs/PROVED.md): the published Rust
//! has none.
use std::iter::once;

/// The most samples of the rules.
pub const MAX_SAMPLES: usize = 262_144;

/// How many frames a line covers, and how many bytes it has.
pub const BLOCK: usize = 1024;
pub const LINE: usize = 45;

/// How many bytes the page of so many samples has.
pub fn page_bytes(samples: usize) -> usize {
    LINE * (samples / 2).div_ceil(BLOCK)
}

/// The distances from 0 of a channel's samples.
fn distances(samples: &[i32], channel: usize) -> Vec<u32> {
    samples.iter().skip(channel).step_by(2).map(|sample| sample.unsigned_abs()).collect()
}

/// Peak and clicks of each block of a channel. Blocks are cut only when every click is known, since
/// a block's first sample has one before it too.
fn blocks(samples: &[i32], channel: usize, threshold: u32) -> Vec<(u32, usize)> {
    let distances = distances(samples, channel);
    let before = once(&0).chain(&distances);
    let click = |(now, before): (&u32, &u32)| *now > threshold && *before <= threshold;
    let clicks: Vec<bool> = distances.iter().zip(before).map(click).collect();
    let peaks = distances.chunks(BLOCK).map(|block| block.iter().copied().fold(0, u32::max));
    let counts = clicks.chunks(BLOCK).map(|block| block.iter().filter(|&&click| click).count());
    peaks.zip(counts).collect()
}

/// How many clicks a channel has in the whole recording: as many as it has stretches beyond the
/// threshold, each of which begins with one.
pub fn clicks(samples: &[i32], channel: usize, threshold: u32) -> usize {
    let beyond: Vec<bool> =
        distances(samples, channel).into_iter().map(|distance| distance > threshold).collect();
    beyond.chunk_by(bool::eq).filter(|stretch| stretch[0]).count()
}

/// The page, or the refusal number.
pub fn page(samples: &[i32], threshold: u32, room: usize) -> Result<Vec<u8>, u32> {
    if samples.len() > MAX_SAMPLES {
        return Err(5);
    }
    if samples.len() % 2 == 1 {
        return Err(6);
    }
    if room < page_bytes(samples.len()) {
        return Err(11);
    }
    let [left, right] = [0, 1].map(|channel| blocks(samples, channel, threshold));
    let lines = left.into_iter().zip(right).enumerate().map(|(number, (left, right))| {
        let ((left_peak, left_clicks), (right_peak, right_clicks)) = (left, right);
        format!("{number:>6}{left_peak:>11}{right_peak:>11}{left_clicks:>8}{right_clicks:>8}\n")
    });
    Ok(lines.collect::<String>().into_bytes())
}
