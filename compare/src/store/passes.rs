//! Pass making, decorrelation and analysis.
use super::{Records, SEED};
use crate::kinds::passes;
use crate::numbers;
use crate::random::Random;
use crate::their_passes::{self, Pass, TERMS};

/// Pass making: term, delta, two weights, two seed lengths, room for nine seeds each, refusal,
/// pass.
pub fn making() -> Records {
    let (random, mut out) = (&mut Random::new(SEED), Records::default());
    for round in 0..600 {
        let term = if round % 8 == 0 { random.next() as i8 } else { random.pick(&TERMS) };
        let given = std::array::from_fn(|_| numbers::any(random));
        let lengths = [random.below(10), random.below(10)];
        let [mut seed_a, mut seed_b] = lengths.map(|length| numbers::list(random, length));
        let (refusal, pass) = match their_passes::pass(term, given, &seed_a, &seed_b) {
            Ok(pass) => (0, pass),
            Err(refusal) => (refusal, [0; 20]),
        };
        out.signed(&[i32::from(term)]);
        out.signed(&given);
        out.numbers(&lengths.map(|length| length as u32));
        seed_a.resize(9, 0);
        seed_b.resize(9, 0);
        out.signed(&[seed_a, seed_b].concat());
        out.numbers(&[refusal]);
        out.signed(&pass);
    }
    out
}

/// Runs of passes: 1 for analysis, passes, buffer length, room for four passes and 24 numbers,
/// refusal, both after.
pub fn runs() -> Records {
    let (random, mut out) = (&mut Random::new(SEED), Records::default());
    for round in 0..250 {
        let (analyse, count, length) = (round % 2 == 1, random.below(5), random.below(25));
        let (list, buffer) = (passes::list(random, count), passes::buffer(random, length));
        let (refusal, after) = match their_passes::run(analyse, &list, &buffer) {
            Ok(after) => (0, after),
            Err(refusal) => (refusal, (list.clone(), buffer.clone())),
        };
        out.numbers(&[u32::from(analyse), count as u32, length as u32]);
        lay(&mut out, list, buffer);
        out.numbers(&[refusal]);
        lay(&mut out, after.0, after.1);
    }
    out
}

/// Passes and a buffer, in room for four passes and 24 numbers.
fn lay(out: &mut Records, mut passes: Vec<Pass>, mut buffer: Vec<i32>) {
    passes.resize(4, [0; 20]);
    buffer.resize(24, 0);
    out.signed(&passes.concat());
    out.signed(&buffer);
}
