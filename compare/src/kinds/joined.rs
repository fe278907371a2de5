//! Pass lists joined: one call of the library against two of the published Rust, and two calls of
//! the library against one of the Rust; lists of 0 to 16 passes each, so of up to 32 together.
use super::pass_calls::{Call, Left, number, ours, theirs};
use super::passes::{buffer, list, plainer_passes};
use crate::case::{Case, Failed, Run, Smaller, plainer, same, shorter};
use crate::their_passes::{MAX_ELEMENTS, MAX_PASSES, Pass};

#[derive(Clone, Debug)]
pub struct Joined {
    pub analyse: bool,
    pub first: Vec<Pass>,
    pub second: Vec<Pass>,
    pub buffer: Vec<i32>,
}

impl Joined {
    /// Two calls, one for each list: in analysis the second list's comes first.
    fn in_two(&self, call: Call) -> Result<Left, String> {
        if self.analyse {
            let (second, between) = match call(self.analyse, &self.second, &self.buffer)? {
                Ok(left) => left,
                refused => return Ok(refused),
            };
            return Ok(call(self.analyse, &self.first, &between)?
                .map(|(first, buffer)| ([first, second].concat(), buffer)));
        }
        let (first, between) = match call(self.analyse, &self.first, &self.buffer)? {
            Ok(left) => left,
            refused => return Ok(refused),
        };
        Ok(call(self.analyse, &self.second, &between)?
            .map(|(second, buffer)| ([first, second].concat(), buffer)))
    }

    /// Both lists in one call.
    fn in_one(&self, call: Call) -> Result<Left, String> {
        call(self.analyse, &[&self.first[..], &self.second].concat(), &self.buffer)
    }
}

impl Case for Joined {
    fn compare(&self) -> Result<u32, String> {
        let (one, two) = (self.in_one(ours)?, self.in_two(ours)?);
        let (their_one, their_two) = (self.in_one(theirs)?, self.in_two(theirs)?);
        same("the joined call", &one, &their_one)?;
        same("the two calls", &two, &their_two)?;
        // Over 16 passes together the joined call says 9, unless the buffer is too large; else it
        // says what the two calls say, and an accepted one leaves what they leave.
        if self.first.len() + self.second.len() > MAX_PASSES && self.buffer.len() <= MAX_ELEMENTS {
            same("the refusal of over 16 passes", &number(&one), &9)?;
        } else {
            same("one call of ours beside two of theirs", &one, &their_two)?;
            same("two calls of ours beside one of theirs", &two, &their_one)?;
        }
        Ok(number(&one))
    }

    fn smaller(&self) -> Smaller<'_, Joined> {
        let firsts = shorter(&self.first).chain(plainer_passes(&self.first));
        let firsts = firsts.map(|first| Joined { first, ..self.clone() });
        let seconds = shorter(&self.second).chain(plainer_passes(&self.second));
        let seconds = seconds.map(|second| Joined { second, ..self.clone() });
        let buffers = shorter(&self.buffer).chain(plainer(&self.buffer));
        Box::new(firsts.chain(seconds).chain(buffers.map(|buffer| Joined { buffer, ..self.clone() })))
    }
}

pub fn run(run: &mut Run) -> Result<(), Failed> {
    // Every pair of lengths up to 16, of which nearly half are over 16 together.
    for round in 0..40 * run.scale {
        for (first, second) in
            (0..=MAX_PASSES).flat_map(|first| (0..=MAX_PASSES).map(move |second| (first, second)))
        {
            let random = &mut run.random;
            let length = random.below(36);
            let (first, second) = (list(random, first), list(random, second));
            let buffer = buffer(random, length);
            run.agree(Joined { analyse: round % 2 == 0, first, second, buffer })?;
        }
    }
    largest(run)
}

/// Buffers of the largest size, one below and one above.
fn largest(run: &mut Run) -> Result<(), Failed> {
    for (first, second) in [(0, 1), (1, 1), (3, 2), (5, 11), (15, 1), (16, 1)] {
        for length in MAX_ELEMENTS - 1..=MAX_ELEMENTS + 1 {
            let random = &mut run.random;
            let (first, second) = (list(random, first), list(random, second));
            let buffer = buffer(random, length);
            for analyse in [false, true] {
                run.agree(Joined {
                    analyse,
                    first: first.clone(),
                    second: second.clone(),
                    buffer: buffer.clone(),
                })?;
            }
        }
    }
    Ok(())
}
