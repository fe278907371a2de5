//! Buffers cut into parts: one call of the library against parts in the published Rust, parts in the
//! library against one call of the Rust, and parts against parts at any cut, also where a cut shows.
use super::pass_calls::{Call, Left, number, ours, theirs};
use super::passes::{buffer, list, plainer_passes};
use crate::case::{Case, Failed, Run, Smaller, plainer, same, shorter};
use crate::random::Random;
use crate::their_passes::{MAX_ELEMENTS, MAX_PASSES, Pass};

/// The elements of a frame, and of eight.
const FRAME: usize = 2;
const EIGHT: usize = 16;

#[derive(Clone, Debug)]
pub struct Cuts {
    pub analyse: bool,
    pub passes: Vec<Pass>,
    pub buffer: Vec<i32>,
    /// How many elements stand before each cut, in order; where there are not so many it is the end.
    pub cuts: Vec<usize>,
}

fn has_lag(pass: &Pass) -> bool {
    (1..=8).contains(&pass[0])
}

impl Cuts {
    /// The same input, cut only where a part would be larger than a call accepts.
    fn coarse(&self) -> Cuts {
        let cuts = (MAX_ELEMENTS..self.buffer.len()).step_by(MAX_ELEMENTS).collect();
        Cuts { cuts, ..self.clone() }
    }

    /// What the call of each part leaves; the next one goes on from the passes of the last accepted one.
    fn in_parts(&self, call: Call) -> Result<Vec<Left>, String> {
        let length = self.buffer.len();
        let (mut passes, mut start, mut out) = (self.passes.clone(), 0, Vec::new());
        for &end in self.cuts.iter().chain([&length]) {
            let end = end.min(length);
            let left = call(self.analyse, &passes, &self.buffer[start..end])?;
            if let Ok((after, _)) = &left {
                passes.clone_from(after);
            }
            out.push(left);
            start = end;
        }
        Ok(out)
    }

    /// Whether the parts come to what one call comes to: every cut falls after a multiple of eight
    /// frames, without a fixed lag after any whole frame, or at the end.
    fn on_eights(&self) -> bool {
        let step = if self.passes.iter().any(has_lag) { EIGHT } else { FRAME };
        self.cuts.iter().all(|cut| cut % step == 0 || *cut >= self.buffer.len())
    }
}

/// What the parts leave together, or the first refusal among them.
fn together(parts: &[Left]) -> Left {
    let (mut passes, mut buffer) = (Vec::new(), Vec::new());
    for part in parts {
        let (after, turned) = part.as_ref().map_err(|refusal| *refusal)?;
        passes.clone_from(after);
        buffer.extend(turned);
    }
    Ok((passes, buffer))
}

impl Case for Cuts {
    fn compare(&self) -> Result<u32, String> {
        let one = ours(self.analyse, &self.passes, &self.buffer)?;
        let their_one = theirs(self.analyse, &self.passes, &self.buffer)?;
        same("one call", &one, &their_one)?;
        let (parts, their_parts) = (self.in_parts(ours)?, self.in_parts(theirs)?);
        for (part, (ours, theirs)) in parts.iter().zip(&their_parts).enumerate() {
            same(&format!("part {part}"), ours, theirs)?;
        }
        let (parts, their_parts) = (together(&parts), together(&their_parts));
        if self.on_eights() && self.buffer.len() <= MAX_ELEMENTS {
            same("one call of ours beside parts of theirs", &one, &their_parts)?;
            same("parts of ours beside one call of theirs", &parts, &their_one)?;
        } else if self.on_eights() && parts.is_ok() {
            let coarse = together(&self.coarse().in_parts(theirs)?);
            same("parts of ours beside the largest of theirs", &parts, &coarse)?;
        }
        Ok(number(&one))
    }

    fn smaller(&self) -> Smaller<'_, Cuts> {
        let lists = shorter(&self.passes).chain(plainer_passes(&self.passes));
        let lists = lists.map(|passes| Cuts { passes, ..self.clone() });
        let buffers = shorter(&self.buffer).chain(plainer(&self.buffer));
        let buffers = buffers.map(|buffer| Cuts { buffer, ..self.clone() });
        let cuts = shorter(&self.cuts).chain(earlier(&self.cuts));
        Box::new(lists.chain(buffers).chain(cuts.map(|cuts| Cuts { cuts, ..self.clone() })))
    }
}

/// Cuts of which one falls earlier: by half, by eight frames, by one, by an element.
fn earlier(cuts: &[usize]) -> impl Iterator<Item = Vec<usize>> {
    (0..cuts.len()).flat_map(move |i| {
        let cut = cuts[i];
        let places = [EIGHT, FRAME, 1].map(|by| cut.saturating_sub(by));
        let places = [cut / 2 / EIGHT * EIGHT].into_iter().chain(places);
        places.filter(move |&place| place < cut).filter_map(move |place| {
            let mut out = cuts.to_vec();
            out[i] = place;
            out.is_sorted().then_some(out)
        })
    })
}

/// Passes and cuts for a buffer of this length: 2 to 4 parts on eights, of whole frames, or of any sizes;
/// one list in three without a fixed lag.
fn passes_and_cuts(random: &mut Random, count: usize, length: usize) -> (Vec<Pass>, Vec<usize>) {
    let mut passes = list(random, count);
    if random.once_in(3) {
        for pass in passes.iter_mut().filter(|pass| has_lag(pass)) {
            pass[0] = random.pick(&[17, 18, -1, -2, -3]);
        }
    }
    let step = random.pick(&[EIGHT, EIGHT, FRAME, 1]);
    let place = |random: &mut Random| (step * random.below(length / step + 2)).min(length);
    let mut cuts: Vec<usize> = (0..1 + random.below(3)).map(|_| place(random)).collect();
    cuts.sort_unstable();
    (passes, cuts)
}

pub fn run(run: &mut Run) -> Result<(), Failed> {
    for round in 0..500 * run.scale {
        for count in 0..=MAX_PASSES + 1 {
            let random = &mut run.random;
            let length = random.below(72);
            let (passes, cuts) = passes_and_cuts(random, count, length);
            let buffer = buffer(random, length);
            run.agree(Cuts { analyse: round % 2 == 0, passes, buffer, cuts })?;
        }
    }
    largest(run)
}

/// Buffers of the largest size, one below, and one and 17 frames above; parts of them are of any size too.
fn largest(run: &mut Run) -> Result<(), Failed> {
    for count in [0, 1, 2, 5, 16, 17] {
        for length in [MAX_ELEMENTS - 1, MAX_ELEMENTS, MAX_ELEMENTS + 1, MAX_ELEMENTS + 17 * FRAME] {
            let random = &mut run.random;
            let (passes, cuts) = passes_and_cuts(random, count, length);
            let buffer = buffer(random, length);
            for analyse in [false, true] {
                let (passes, buffer, cuts) = (passes.clone(), buffer.clone(), cuts.clone());
                run.agree(Cuts { analyse, passes, buffer, cuts })?;
            }
        }
    }
    Ok(())
}
