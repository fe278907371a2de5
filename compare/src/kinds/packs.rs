//! Packing: residuals of every loudness under every kind of entropy payload, at the ends of the
//! span, short and largest; each also with a zero right set. Log words at the limits of their reach,
//! at each place and beside other faults.
use crate::case::{Case, Failed, Run, Smaller, plainer, same, shorter};
use crate::lent::Lent;
use crate::ours;
use crate::payloads::{around_reach, entropy, entropy_of, residuals, silent_right};
use crate::random::Random;
use crate::reach;
use crate::their_packing::{self, SPAN};
use crate::theirs::{self, MAX_FRAMES};
use std::fmt;

#[derive(Clone)]
pub struct Pack {
    pub residuals: Vec<i32>,
    pub entropy: Vec<u8>,
    pub frames: usize,
    /// The length of the lent buffer, and that of the answer.
    pub room: usize,
    pub slots: usize,
}

impl fmt::Debug for Pack {
    fn fmt(&self, f: &mut fmt::Formatter<'_>) -> fmt::Result {
        let shown = &self.residuals[..self.residuals.len().min(1024)];
        write!(f, "Pack {{ {} residuals: {shown:?}, entropy: {:02x?}, ", self.residuals.len(), self.entropy)?;
        write!(f, "frames: {}, room: {}, slots: {} }}", self.frames, self.room, self.slots)
    }
}

impl Case for Pack {
    fn compare(&self) -> Result<u32, String> {
        let (mut out, mut answer) = (Lent::marked(self.room), Lent::marked(self.slots));
        let (mut residuals, mut entropy) = (Lent::holding(&self.residuals), Lent::holding(&self.entropy));
        let refusal = ours::pack(residuals.list(), entropy.list(), self.frames, out.list(), answer.list());
        residuals.kept("residuals")?;
        entropy.kept("entropy")?;
        if self.slots < 7 {
            same("refusal", &refusal, &6)?;
            out.kept("out")?;
            answer.kept("answer")?;
            return Ok(refusal);
        }
        match their_packing::pack(&self.residuals, &self.entropy, self.frames, self.room) {
            Ok((answered, bytes)) => {
                same("refusal", &refusal, &0)?;
                answer.written("answer", &answered)?;
                out.written("out", &bytes)?;
            }
            Err(number) => {
                same("refusal", &refusal, &number)?;
                answer.written("answer", &[0; 7])?;
                out.kept("out")?;
            }
        }
        Ok(refusal)
    }

    fn smaller(&self) -> Smaller<'_, Pack> {
        let of_frames = |each: usize, length: usize| self.frames.checked_mul(each) == Some(length);
        let whole = of_frames(2, self.residuals.len()) && of_frames(28, self.room);
        let lists = shorter(&self.residuals).filter(move |list| whole && list.len() % 2 == 0);
        let lists = lists.map(|list| whole_pack(list, self.entropy.clone()));
        let plain = plainer(&self.residuals).map(|residuals| Pack { residuals, ..self.clone() });
        let entropies = plainer(&self.entropy).map(|entropy| Pack { entropy, ..self.clone() });
        Box::new(lists.chain(plain).chain(entropies))
    }

    fn silent_right(&self) -> bool {
        theirs::silent_right(&self.entropy)
    }

    fn out_of_reach(&self) -> bool {
        reach::holds_one(&self.entropy)
    }
}

/// All of a list, with just the room that it needs.
pub fn whole_pack(residuals: Vec<i32>, entropy: Vec<u8>) -> Pack {
    let frames = residuals.len() / 2;
    Pack { residuals, entropy, frames, room: 28 * frames, slots: 7 }
}

/// Residuals of one or of changing loudness, at times at the ends of the span.
pub fn list(random: &mut Random, count: usize) -> Vec<i32> {
    let (bits, silence) = (random.below(31) as u32, random.pick(&[0, 5, 50]));
    let mut out = residuals(random, count, bits, silence);
    for value in &mut out {
        match random.below(48) {
            0 => *value = random.pick(&[SPAN - 1, -SPAN, SPAN - 2, 1 - SPAN]),
            1 => *value = (random.next() as i32) >> random.pick(&[2, 5, 10, 20, 30]),
            2 => *value = 0,
            _ => {}
        }
    }
    out
}

/// A packing, at times with one thing that is refused.
fn random_pack(random: &mut Random, entropy: fn(&mut Random) -> Vec<u8>) -> Pack {
    let frames = random.below(30);
    let mut case = whole_pack(list(random, 2 * frames), entropy(random));
    match random.below(40) {
        0 => case.entropy.truncate(random.below(13)),
        1 => case.residuals.truncate(random.below(60)),
        2 => case.room = random.below(28 * frames + 40),
        3 => case.slots = random.below(10),
        4 if frames > 0 => {
            case.residuals[random.below(2 * frames)] = random.pick(&[SPAN, -SPAN - 1, i32::MAX, i32::MIN])
        }
        5 => case.frames = random.pick(&[frames + 1, MAX_FRAMES + 1, usize::MAX]),
        6 => case.room += random.below(40),
        _ => {}
    }
    case
}

pub fn run(run: &mut Run) -> Result<(), Failed> {
    for (entropy, rounds) in [(entropy as fn(&mut Random) -> Vec<u8>, 100_000), (silent_right, 52_000)] {
        for _ in 0..rounds * run.scale {
            let case = random_pack(&mut run.random, entropy);
            run.agree(case)?;
        }
    }
    at_limits(run)?;
    largest(run, [1500, 1400, 1300, 1600, 1500, 1400])?;
    largest(run, [1500, 1400, 1300, 0, 0, 0])?;
    // The widest words.
    for words in [[0, 0, 0, 256, 0, 0], [0; 6]] {
        run.agree(whole_pack([SPAN - 1, -SPAN].repeat(MAX_FRAMES), entropy_of(words)))?;
    }
    Ok(())
}

/// Limits of a log word's reach beside other faults: too many frames, a list that does not suit them,
/// an answer of fewer slots, a short buffer, a residual outside the span.
fn at_limits(run: &mut Run) -> Result<(), Failed> {
    for entropy in around_reach() {
        for (frames, count, slots) in [(2, 4, 6), (2, 4, 7), (2, 4, 8), (2, 3, 8), (MAX_FRAMES + 1, 4, 8)] {
            for (residual, room) in [(5, 56), (5, 55), (SPAN, 56), (-SPAN - 1, 55)] {
                let residuals = [residual, -7, 0, 1][..count].to_vec();
                run.agree(Pack { residuals, entropy: entropy.clone(), frames, room, slots })?;
            }
        }
    }
    for frames in [MAX_FRAMES, MAX_FRAMES + 1] {
        let residuals = vec![1; 2 * frames];
        run.agree(whole_pack(residuals, entropy_of([1500, 1400, 1300, 8192, 1500, 1400])))?;
    }
    Ok(())
}

/// 131,072 frames, and one more.
fn largest(run: &mut Run, words: [i16; 6]) -> Result<(), Failed> {
    let entropy = entropy_of(words);
    for bits in [0, 1, 4, 12, 24, 30] {
        let values = residuals(&mut run.random, 2 * MAX_FRAMES, bits, 500);
        run.agree(whole_pack(values.clone(), entropy.clone()))?;
        run.agree(whole_pack([values, vec![1, 2]].concat(), entropy.clone()))?;
    }
    Ok(())
}
