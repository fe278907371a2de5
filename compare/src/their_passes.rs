//! What the published Rust answers about passes, in the terms of the rules (docs/PROVED.md).
//!
//! A pass is its slots. The Rust keeps the histories to itself: they are read from its Debug
//! output, and set by way of term 8, whose seeds fill all eight places.
use reference::decorrelation::{DecorrPass, decorrelate_stereo, is_valid_term, recorrelate_stereo};
use reference::error::Error;
use wavpack_stereo::{Delta, Weight};

pub const MAX_ELEMENTS: usize = 262_144;
pub const MAX_PASSES: usize = 16;

/// The thirteen valid terms.
pub const TERMS: [i8; 13] = [1, 2, 3, 4, 5, 6, 7, 8, 17, 18, -1, -2, -3];

/// The slots of a pass.
pub type Pass = [i32; wavpack_stereo::Pass::SLOTS];

fn history(shown: &str, name: &str) -> [i32; 8] {
    let (_, rest) = shown.split_once(&format!("{name}: [")).expect("the Rust shows its histories");
    let (numbers, _) = rest.split_once(']').expect("a history ends");
    let numbers = numbers.split(", ").map(|number| number.parse().expect("a history holds numbers"));
    numbers.collect::<Vec<i32>>().try_into().expect("a history holds eight")
}

fn slots_of(pass: &DecorrPass) -> Pass {
    let shown = format!("{pass:?}");
    let weights = [Weight(pass.weight_a), Weight(pass.weight_b)];
    let histories = ["history_a", "history_b"].map(|name| history(&shown, name));
    *wavpack_stereo::Pass::from_parts(pass.term.into(), Delta(pass.delta), weights, histories).slots()
}

/// A pass of the Rust with these slots; of the term it has the low 8 bits.
pub fn made(slots: &Pass) -> DecorrPass {
    let pass = wavpack_stereo::Pass::from_slots(*slots);
    let [weight_a, weight_b] = pass.weights();
    let [mut seed_a, mut seed_b] = pass.histories();
    seed_a.reverse();
    seed_b.reverse();
    let made = DecorrPass::new(8, pass.delta().0, weight_a.0, weight_b.0, &seed_a, &seed_b);
    let mut out = made.expect("term 8 has eight seeds");
    out.term = pass.term() as i8;
    debug_assert_eq!(slots_of(&out)[1..], slots[1..]);
    out
}

/// Pass making: the pass, or its refusal number.
pub fn pass(term: i8, numbers: [i32; 3], seed_a: &[i32], seed_b: &[i32]) -> Result<Pass, u32> {
    match DecorrPass::new(term, numbers[0], numbers[1], numbers[2], seed_a, seed_b) {
        Ok(pass) => Ok(slots_of(&pass)),
        Err(Error::InvalidDecorrelationTerm(_)) => Err(7),
        Err(Error::DecorrelationSeedUnderflow { .. }) => Err(8),
        Err(other) => unreachable!("{other:?} is no refusal of pass making"),
    }
}

/// Decorrelation, or analysis: passes and buffer after, or the refusal number.
pub fn run(analyse: bool, passes: &[Pass], buffer: &[i32]) -> Result<(Vec<Pass>, Vec<i32>), u32> {
    if buffer.len() > MAX_ELEMENTS {
        return Err(5);
    }
    let valid = |pass: &Pass| i8::try_from(pass[0]).is_ok_and(is_valid_term);
    if passes.len() <= MAX_PASSES && !passes.iter().all(valid) {
        return Err(7);
    }
    let mut theirs: Vec<DecorrPass> = passes.iter().map(made).collect();
    let mut buffer = buffer.to_vec();
    let way = if analyse { recorrelate_stereo } else { decorrelate_stereo };
    match way(&mut theirs, &mut buffer) {
        Ok(()) => Ok((theirs.iter().map(slots_of).collect(), buffer)),
        Err(Error::TooManyDecorrelationPasses(_)) => Err(9),
        Err(other) => unreachable!("{other:?} is no refusal of a list of passes"),
    }
}
