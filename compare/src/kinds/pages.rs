//! Morning pages: peaks and numbers of clicks of every width, every pattern of loud and quiet at the
//! edge of two blocks, every set of faults, and lengths around each limit.
use super::page_case::Page;
use crate::case::{Failed, Run};
use crate::numbers;
use crate::page_sounds::{FARTHEST, SOUNDS, Sound, THRESHOLDS, at, loud_or_quiet, near};
use crate::random::Random;
use crate::their_pages::{BLOCK, MAX_SAMPLES, page_bytes};

/// Numbers of frames around the ends of the first blocks.
const FRAMES: [usize; 10] = [0, 1, 2, 1023, 1024, 1025, 2047, 2048, 2049, 3000];

/// All of a list, with just the room that its page needs.
fn whole_page(samples: Vec<i32>, threshold: u32) -> Page {
    Page { room: page_bytes(samples.len()), samples, threshold, slots: 1 }
}

fn samples(random: &mut Random, sound: Sound, threshold: u32, frames: usize) -> Vec<i32> {
    (0..2 * frames).map(|_| sound(random, threshold)).collect()
}

/// Frames that are just beyond the threshold where `loud` says so of a frame and a channel, and else
/// just at it.
fn pattern(random: &mut Random, threshold: u32, frames: usize, loud: impl Fn(usize, usize) -> bool) -> Page {
    let sample = |place| loud_or_quiet(random, threshold, loud(place / 2, place % 2));
    whole_page((0..2 * frames).map(sample).collect(), threshold)
}

/// Every sound with every threshold and with one near its samples.
fn every_sound(run: &mut Run) -> Result<(), Failed> {
    for frames in FRAMES {
        for sound in SOUNDS {
            for threshold in THRESHOLDS {
                let list = samples(&mut run.random, sound, threshold, frames);
                let near = near(&mut run.random, &list);
                run.agree(whole_page(list.clone(), threshold))?;
                run.agree(whole_page(list, near))?;
            }
        }
    }
    Ok(())
}

/// Peaks around each power of ten and of two, of a click and of none, at each place of three frames;
/// and every number of clicks that a block can have, in both channels.
fn every_width(run: &mut Run) -> Result<(), Failed> {
    let powers = (0..10).map(|digits| 10_u32.pow(digits)).chain((0..32).map(|bits| 1 << bits));
    for distance in powers.flat_map(|power| [power - 1, power, power + 1]) {
        for place in 0..6 {
            for threshold in [distance.saturating_sub(1), distance] {
                let mut case = whole_page(vec![0; 6], threshold);
                case.samples[place] = at(&mut run.random, distance);
                run.agree(case)?;
            }
        }
    }
    for clicks in 0..=BLOCK / 2 {
        let clicks = [clicks, BLOCK / 2 - clicks];
        let loud = |frame, channel: usize| frame % 2 == 0 && frame / 2 < clicks[channel];
        let case = pattern(&mut run.random, 9, BLOCK, loud);
        run.agree(case)?;
    }
    Ok(())
}

/// The last two frames of a block and the first two of the next in every pattern; then stretches
/// from one frame beside an edge to another, in one channel or in both.
fn edges(run: &mut Run) -> Result<(), Failed> {
    for threshold in [0, 1000, FARTHEST - 1] {
        for edge in [BLOCK, 2 * BLOCK] {
            for set in 0..256 {
                let loud =
                    |frame, channel| frame + 2 >= edge && set >> (2 * (frame + 2 - edge) + channel) & 1 == 1;
                let case = pattern(&mut run.random, threshold, edge + 2, loud);
                run.agree(case)?;
            }
        }
        let stretches = FRAMES.into_iter().flat_map(|start| FRAMES.map(|end| start..end));
        for stretch in stretches.filter(|stretch| !stretch.is_empty()) {
            for channels in [0..1, 1..2, 0..2] {
                let loud = |frame, channel| stretch.contains(&frame) && channels.contains(&channel);
                let case = pattern(&mut run.random, threshold, 3000, loud);
                run.agree(case)?;
            }
        }
    }
    Ok(())
}

/// Every set of faults at once: no slot, too many samples, an odd number of them, a page that is a
/// byte or half too short, or not there.
fn fault_sets(run: &mut Run) -> Result<(), Failed> {
    for frames in [3, BLOCK, BLOCK + 1, MAX_SAMPLES / 2 + 1] {
        for (slots, odd) in [(0, 0), (0, 1), (1, 0), (1, 1)] {
            let case = whole_page(numbers::list(&mut run.random, 2 * frames - odd), 5);
            for room in [case.room, case.room - 1, case.room / 2, 0] {
                run.agree(Page { room, slots, ..case.clone() })?;
            }
        }
    }
    Ok(())
}

/// Every room for short lists and for those around an edge, with up to 3 slots; then lists around
/// the largest size.
fn lengths(run: &mut Run) -> Result<(), Failed> {
    for count in (0..8).chain(FRAMES.map(|frames| 2 * frames)) {
        let list = numbers::list(&mut run.random, count);
        let threshold = near(&mut run.random, &list);
        let case = whole_page(list, threshold);
        for room in 0..case.room + 10 {
            let slots = run.random.pick(&[0, 1, 1, 1, 2, 3]);
            run.agree(Page { room, slots, ..case.clone() })?;
        }
    }
    for count in MAX_SAMPLES - 3..=MAX_SAMPLES + 3 {
        let case = whole_page(numbers::list(&mut run.random, count), 1 << 20);
        for room in [case.room - 1, case.room, case.room + 1, case.room + 1000] {
            run.agree(Page { room, ..case.clone() })?;
        }
    }
    Ok(())
}

/// The most frames: every sound, and the most clicks.
fn largest(run: &mut Run) -> Result<(), Failed> {
    for sound in SOUNDS {
        let list = samples(&mut run.random, sound, 1 << 30, MAX_SAMPLES / 2);
        let near = near(&mut run.random, &list);
        run.agree(whole_page(list.clone(), near))?;
        run.agree(whole_page(list, FARTHEST - 1))?;
    }
    let case = pattern(&mut run.random, 3, MAX_SAMPLES / 2, |frame, channel| frame % 2 == channel);
    run.agree(case)
}

/// Mostly a short recording, at times with one thing that is refused.
fn random_page(random: &mut Random) -> Page {
    let most = if random.once_in(32) { 3000 } else { 30 };
    let (frames, sound) = (random.below(most), random.pick(&SOUNDS));
    let threshold =
        if random.once_in(4) { random.pick(&THRESHOLDS) } else { random.next() as u32 >> random.below(32) };
    let list = samples(random, sound, threshold, frames);
    let threshold = if random.once_in(2) { near(random, &list) } else { threshold };
    let mut case = whole_page(list, threshold);
    match random.below(8) {
        0 => case.samples.push(0),
        1 => case.room = random.below(case.room + 40),
        2 => case.slots = random.below(4),
        _ => case.room += random.below(40),
    }
    case
}

pub fn run(run: &mut Run) -> Result<(), Failed> {
    for _ in 0..20 * run.scale {
        every_sound(run)?;
    }
    every_width(run)?;
    edges(run)?;
    fault_sets(run)?;
    lengths(run)?;
    largest(run)?;
    for _ in 0..100_000 * run.scale {
        let case = random_page(&mut run.random);
        run.agree(case)?;
    }
    Ok(())
}
