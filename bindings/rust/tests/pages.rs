//! Morning pages against a plain statement of their rules (rows Q5.1 to Q5.6 of docs/PROVED.md):
//! samples and thresholds at the ends of 32 bits, loud and quiet samples around the edge of a block,
//! the lengths around whole blocks up to the largest, and each refusal.
mod random;

use random::Random;
use wavpack_stereo::{LINE_BYTES, LINE_FRAMES, MAX_ELEMENTS, MAX_FRAMES, Refusal, morning_page, page_bytes};

/// The ends of the distances and of the thresholds. No distance is over the last two.
const THRESHOLDS: [u32; 5] = [0, 1, (1 << 31) - 1, 1 << 31, u32::MAX];

/// Whether a sample's distance from 0 exceeds the threshold.
fn is_loud(sample: i32, threshold: u32) -> bool {
    i64::from(sample).abs() > i64::from(threshold)
}

/// Q5.4: whether the sample at a place is a click. Its channel's sample before it stands two places
/// before.
fn is_click(samples: &[i32], place: usize, threshold: u32) -> bool {
    let before = if place < 2 { 0 } else { samples[place - 2] };
    is_loud(samples[place], threshold) && !is_loud(before, threshold)
}

/// The clicks of the whole recording in a channel, 0 left and 1 right.
fn clicks(samples: &[i32], channel: usize, threshold: u32) -> usize {
    let places = (0..samples.len()).filter(|place| place % 2 == channel);
    places.filter(|&place| is_click(samples, place, threshold)).count()
}

/// Q5.1 to Q5.4: the page.
fn stated(samples: &[i32], threshold: u32) -> String {
    let mut page = String::new();
    for (block, first) in (0..samples.len()).step_by(2 * 1_024).enumerate() {
        let (mut peaks, mut clicks) = ([0; 2], [0; 2]);
        for place in first..samples.len().min(first + 2 * 1_024) {
            let channel = place % 2;
            peaks[channel] = i64::from(samples[place]).abs().max(peaks[channel]);
            clicks[channel] += usize::from(is_click(samples, place, threshold));
        }
        page += &format!("{block:>6}{:>11}{:>11}{:>8}{:>8}\n", peaks[0], peaks[1], clicks[0], clicks[1]);
    }
    page
}

/// At how many edges of blocks a channel is loud on both sides: without the block before there would
/// be a click more.
fn loud_edges(samples: &[i32], threshold: u32) -> usize {
    let edges = (2 * 1_024..samples.len()).step_by(2 * 1_024).flat_map(|first| [first, first + 1]);
    edges
        .filter(|&place| is_loud(samples[place - 2], threshold) && is_loud(samples[place], threshold))
        .count()
}

/// What `morning_page` writes into storage with `room` bytes after the page, which keep their values.
fn written(samples: &[i32], threshold: u32, room: usize) -> String {
    let mut storage = vec![77; page_bytes(samples.len() / 2) + room];
    let bytes = morning_page(samples, threshold, &mut storage).expect("a page");
    let after = storage.split_off(bytes);
    assert_eq!(after, vec![77; room], "{} samples over {threshold}", samples.len());
    String::from_utf8(storage).expect("a page of text")
}

/// The click columns of each line, left and right.
fn columns(page: &str) -> Vec<[usize; 2]> {
    let column = |line: &str, first: usize| line[first..first + 8].trim_start().parse().expect("a number");
    page.lines().map(|line| [column(line, 28), column(line, 36)]).collect()
}

/// How many pages were compared, and what they had together.
#[derive(Debug, Default, PartialEq)]
struct Tally {
    pages: usize,
    lines: usize,
    clicks: [usize; 2],
    loud_edges: usize,
}

impl Tally {
    /// Holds a page to the rules, and its click columns to the clicks of the whole recording (Q5.5).
    fn compare(&mut self, samples: &[i32], threshold: u32, room: usize) -> Vec<[usize; 2]> {
        let page = written(samples, threshold, room);
        assert_eq!(page, stated(samples, threshold), "{} samples over {threshold}", samples.len());
        let columns = columns(&page);
        for channel in [0, 1] {
            let summed: usize = columns.iter().map(|clicks| clicks[channel]).sum();
            assert_eq!(
                summed,
                clicks(samples, channel, threshold),
                "{} samples over {threshold}",
                samples.len()
            );
            self.clicks[channel] += summed;
        }
        self.pages += 1;
        self.lines += columns.len();
        self.loud_edges += loud_edges(samples, threshold);
        columns
    }
}

#[test]
fn a_page_by_hand() {
    assert_eq!((LINE_BYTES, LINE_FRAMES), (45, 1_024));
    let mut samples = vec![0; 2 * 1_026];
    let sounds =
        [(0, 5, -3), (1, -4, 0), (2, 3, 0), (3, i32::MIN, 0), (1_023, 9, 3), (1_024, -9, 4), (1_025, 4, -1)];
    for (frame, left, right) in sounds {
        samples[2 * frame..][..2].copy_from_slice(&[left, right]);
    }
    let lines = [
        "     0 2147483648          3       3       0\n", //
        "     1          9          4       0       1\n",
    ];
    assert_eq!(written(&samples, 3, 0), lines.concat());
    assert_eq!(stated(&samples, 3), lines.concat());
}

#[test]
fn ends_of_the_numbers_over_every_threshold() {
    let ends = [0, 1, -1, 2, i32::MAX - 1, i32::MAX, -i32::MAX, i32::MIN];
    let mut tally = Tally::default();
    for [a, b, c, d] in (0..8_usize.pow(4)).map(|i| [i % 8, i / 8 % 8, i / 64 % 8, i / 512]) {
        for threshold in THRESHOLDS {
            tally.compare(&[ends[a], ends[b], ends[c], ends[d]], threshold, a);
        }
    }
    // With n of the 8 numbers over a threshold a channel's 64 pairs in a row make 8n clicks in the first
    // frame and n(8 - n) in the second, each beside 64 pairs of the other channel.
    let clicks = [7, 5, 1, 0, 0].map(|n| 64 * (8 * n + n * (8 - n))).iter().sum();
    assert_eq!(tally, Tally { pages: 5 * 4_096, lines: 5 * 4_096, clicks: [clicks; 2], loud_edges: 0 });
}

#[test]
fn loud_and_quiet_around_an_edge() {
    let mut tally = Tally::default();
    let (mut by_line, mut one_click) = ([[0; 2]; 2], 0);
    for threshold in &THRESHOLDS[..3] {
        // Quiet is what the threshold just allows, loud is one more.
        let quiet = *threshold as i32;
        let loud = -quiet - 1;
        for pattern in 0..256 {
            let mut samples = vec![quiet; 2 * 1_026];
            for bit in (0..8).filter(|bit| pattern >> bit & 1 == 1) {
                samples[2 * 1_022 + bit] = loud;
            }
            let columns = tally.compare(&samples, *threshold, 0);
            for (line, channel) in [(0, 0), (0, 1), (1, 0), (1, 1)] {
                by_line[line][channel] += columns[line][channel];
            }
            // Loud in the frames 1,023 and 1,024, quiet before and after, on the left.
            if pattern & 0b0101_0101 == 0b0001_0100 {
                assert_eq!((columns[0][0], columns[1][0]), (1, 0));
                one_click += 1;
            }
        }
    }
    // Of the 16 patterns of a channel, beside 16 of the other and over three thresholds, 8 and 4 make
    // a click in the last two frames of the block, and 4 and 4 in the first two of the next.
    assert_eq!(by_line, [[3 * 16 * 12; 2], [3 * 16 * 8; 2]]);
    assert_eq!((tally.pages, tally.lines, one_click), (3 * 256, 3 * 512, 3 * 16));
    // 4 of the 16 are loud on both sides of the edge.
    assert_eq!(tally.loud_edges, 3 * 16 * (4 + 4));
}

#[test]
fn lengths_around_whole_blocks() {
    let frames = [0, 1, 2, 1_023, 1_024, 1_025, 2_047, 2_048, 2_049, MAX_FRAMES - 1, MAX_FRAMES];
    let lines = [0, 1, 1, 1, 1, 2, 2, 2, 3, 128, 128];
    let mut random = Random(20_261_117);
    let mut tally = Tally::default();
    for (frames, lines) in frames.into_iter().zip(lines) {
        let samples = random.numbers(2 * frames);
        for (room, threshold) in THRESHOLDS.into_iter().enumerate() {
            let columns = tally.compare(&samples, threshold, 23 * room);
            assert_eq!((columns.len(), page_bytes(frames)), (lines, 45 * lines));
        }
    }
    assert_eq!((tally.pages, tally.lines), (5 * 11, 5 * 269));
    assert!(tally.clicks.iter().all(|&clicks| clicks > 2 * MAX_FRAMES / 10), "{tally:?}");
}

#[test]
fn random_recordings() {
    let mut random = Random(20_261_118);
    let mut tally = Tally::default();
    for round in 0..1_000 {
        let frames = random.below(4 * 1_024);
        let samples = random.numbers(2 * frames);
        tally.compare(&samples, random.number().unsigned_abs(), round % 50);
    }
    assert_eq!(tally.pages, 1_000);
    assert!(tally.lines > 2_000 && tally.loud_edges > 500, "{tally:?}");
    assert!(tally.clicks.iter().all(|&clicks| clicks > 100_000), "{tally:?}");
}

#[test]
fn refusals() {
    let refused = |samples: usize, room: usize| {
        let mut page = vec![77; room];
        let refusal = morning_page(&vec![9; samples], 3, &mut page).unwrap_err();
        assert!(page.iter().all(|&byte| byte == 77), "{samples} samples, {room} bytes");
        refusal
    };
    // Each has the faults of those below it too, so that the order of the tests shows.
    let whole = page_bytes(MAX_FRAMES);
    for room in [0, whole, 2 * whole] {
        assert_eq!(refused(MAX_ELEMENTS + 1, room), Refusal::TooLarge);
        assert_eq!(refused(MAX_ELEMENTS + 2, room), Refusal::TooLarge);
        for samples in [1, 3, 2_047, 2_049, MAX_ELEMENTS - 1] {
            assert_eq!(refused(samples, room), Refusal::ListLength);
        }
    }
    for (samples, bytes) in
        [(2, 45), (2_048, 45), (2_050, 90), (MAX_ELEMENTS - 2_048, 5_715), (MAX_ELEMENTS, whole)]
    {
        for room in [0, 1, bytes / 2, bytes - 1] {
            assert_eq!(refused(samples, room), Refusal::OutputTooShort);
        }
        assert_eq!(morning_page(&vec![9; samples], 3, &mut vec![77; bytes]), Ok(bytes));
    }
    assert_eq!(morning_page(&[], 3, &mut []), Ok(0));
}
