//! Decorrelation and analysis of the largest number of frames: each term alone, five passes and
//! sixteen, these in one call and in two.
use super::{row, timed};
use crate::ours;
use crate::random::Random;
use crate::their_passes::{Pass, TERMS, made};
use crate::theirs::MAX_FRAMES;
use reference::decorrelation::{DecorrPass, decorrelate_stereo, recorrelate_stereo};
use std::ops::Range;
use wavpack_stereo::{analyse, decorrelate};

pub fn pass(random: &mut Random, term: i8) -> Pass {
    let mut pass: Pass = std::array::from_fn(|_| random.below(65_536) as i32 - 32_768);
    (pass[0], pass[1]) = (i32::from(term), 2);
    (pass[2], pass[3]) = (random.below(1024) as i32, random.below(1024) as i32);
    pass
}

/// The calls by a list of passes that is cut there: in analysis the last part is undone first.
fn calls(back: bool, ends: &[usize]) -> Vec<Range<usize>> {
    let mut start = 0;
    let mut calls: Vec<_> = ends.iter().map(|&end| std::mem::replace(&mut start, end)..end).collect();
    if back {
        calls.reverse();
    }
    calls
}

/// Both sides by a list of passes, in calls by the parts that end there. What they leave is compared with
/// what the Rust leaves in one call.
fn turn(name: &str, back: bool, passes: &[Pass], ends: &[usize], buffer: &[i32]) {
    let calls = calls(back, ends);
    let theirs_made: Vec<DecorrPass> = passes.iter().map(made).collect();
    let ours_way = if back { analyse } else { decorrelate };
    let their_way = if back { recorrelate_stereo } else { decorrelate_stereo };
    let mut expected = buffer.to_vec();
    their_way(&mut theirs_made.clone(), &mut expected).unwrap();
    let mut ours_out = buffer.to_vec();
    let mut their_out = buffer.to_vec();
    let ours = || {
        let mut list = ours::passes(passes);
        ours_out.copy_from_slice(buffer);
        let (time, ()) =
            timed(|| calls.iter().for_each(|call| ours_way(&mut list[call.clone()], &mut ours_out).unwrap()));
        assert!(ours_out == expected, "{name}: the outputs differ");
        time
    };
    let theirs = || {
        let mut list = theirs_made.clone();
        their_out.copy_from_slice(buffer);
        timed(|| calls.iter().for_each(|call| their_way(&mut list[call.clone()], &mut their_out).unwrap())).0
    };
    row(name, ours, theirs);
}

/// Noise of 16 bits.
pub fn buffer(random: &mut Random) -> Vec<i32> {
    (0..2 * MAX_FRAMES).map(|_| (random.next() as i32) >> 16).collect()
}

/// The terms of 16 passes: each one, and three that files hold often.
pub fn sixteen() -> Vec<i8> {
    TERMS.iter().copied().chain([18, 17, 2]).collect()
}

pub fn run(random: &mut Random) {
    let buffer = buffer(random);
    for (what, back) in [("decorrelation", false), ("analysis", true)] {
        for term in TERMS {
            turn(&format!("{what}, term {term}"), back, &[pass(random, term)], &[1], &buffer);
        }
        let mut list = |terms: &[i8]| -> Vec<Pass> { terms.iter().map(|&term| pass(random, term)).collect() };
        let (five, sixteen) = (list(&[18, 18, 2, 17, 3]), list(&sixteen()));
        turn(&format!("{what}, 5 passes"), back, &five, &[5], &buffer);
        turn(&format!("{what}, 16 passes"), back, &sixteen, &[16], &buffer);
        turn(&format!("{what}, 16 passes in two calls"), back, &sixteen, &[5, 16], &buffer);
    }
}
