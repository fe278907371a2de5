//! Decorrelation and analysis: all terms, lists of 0 to 17 passes, numbers at the ends of 32 bits,
//! the largest buffers.
use crate::case::{Case, Failed, Run, Smaller, plainer, same, shorter};
use crate::lent::Lent;
use crate::numbers;
use crate::ours;
use crate::random::Random;
use crate::their_passes::{self, MAX_ELEMENTS, Pass, TERMS};
use wavpack_stereo::{analyse, decorrelate, ffi};

#[derive(Clone, Debug)]
pub struct Passes {
    pub analyse: bool,
    pub passes: Vec<Pass>,
    /// How many numbers of one more pass stand after the list.
    pub rest: usize,
    pub buffer: Vec<i32>,
}

impl Passes {
    /// A list that holds a part of a pass, which only the C interface can be given.
    fn refuses_the_rest(&self) -> Result<u32, String> {
        let mut passes = Lent::holding(&[self.passes.concat(), vec![1; self.rest]].concat());
        let mut buffer = Lent::holding(&self.buffer);
        let ours = if self.analyse { ffi::analyse } else { ffi::decorrelate };
        let refusal = ours(passes.list(), buffer.list());
        same("refusal", &refusal, &6)?;
        buffer.kept("buffer")?;
        passes.kept("passes")?;
        Ok(refusal)
    }
}

impl Case for Passes {
    fn compare(&self) -> Result<u32, String> {
        if self.rest > 0 {
            return self.refuses_the_rest();
        }
        let mut passes = Lent::holding(&ours::passes(&self.passes));
        let mut buffer = Lent::holding(&self.buffer);
        let ours = if self.analyse { analyse } else { decorrelate };
        let refusal = ours::number(ours(passes.list(), buffer.list()));
        match their_passes::run(self.analyse, &self.passes, &self.buffer) {
            Ok((after, turned)) => {
                same("refusal", &refusal, &0)?;
                buffer.written("buffer", &turned)?;
                passes.written("passes", &ours::passes(&after))?;
            }
            Err(number) => {
                same("refusal", &refusal, &number)?;
                buffer.kept("buffer")?;
                passes.kept("passes")?;
            }
        }
        Ok(refusal)
    }

    fn smaller(&self) -> Smaller<'_, Passes> {
        let lists = shorter(&self.passes).map(|passes| Passes { passes, ..self.clone() });
        let buffers = shorter(&self.buffer).chain(plainer(&self.buffer));
        let buffers = buffers.map(|buffer| Passes { buffer, ..self.clone() });
        let plain = plainer_passes(&self.passes).map(|passes| Passes { passes, ..self.clone() });
        Box::new(lists.chain(buffers).chain(plain))
    }
}

/// Lists with a part of one pass made 0. Its term stays as it is: without it there would be no pass.
pub fn plainer_passes(list: &[Pass]) -> impl Iterator<Item = Vec<Pass>> {
    (0..list.len()).flat_map(move |i| {
        let simpler = plainer(&list[i]).filter(move |pass| pass[0] == list[i][0]);
        simpler.map(move |pass| {
            let mut out = list.to_vec();
            out[i].copy_from_slice(&pass);
            out
        })
    })
}

/// A pass as files hold them: a small delta, weights within 1024, modest histories.
fn usual_pass(random: &mut Random, term: i8) -> Pass {
    let mut pass: Pass = std::array::from_fn(|_| random.below(65_536) as i32 - 32_768);
    pass[0] = i32::from(term);
    pass[1] = random.below(8) as i32;
    pass[2] = random.below(2049) as i32 - 1024;
    pass[3] = random.below(2049) as i32 - 1024;
    pass
}

/// A pass of any numbers; the term is valid.
fn any_pass(random: &mut Random, term: i8) -> Pass {
    let mut pass: Pass = std::array::from_fn(|_| numbers::any(random));
    pass[0] = i32::from(term);
    pass
}

fn pass(random: &mut Random, term: i8) -> Pass {
    if random.once_in(2) { usual_pass(random, term) } else { any_pass(random, term) }
}

/// A buffer of sound, or of any numbers.
pub fn buffer(random: &mut Random, length: usize) -> Vec<i32> {
    match random.below(3) {
        0 => (0..length).map(|_| random.below(65_536) as i32 - 32_768).collect(),
        1 => (0..length).map(|_| random.pick(&[0, 0, 1, -1, 5, i32::MIN, i32::MAX])).collect(),
        _ => numbers::list(random, length),
    }
}

/// A list of passes, at times with a term that is not valid.
pub fn list(random: &mut Random, count: usize) -> Vec<Pass> {
    let mut out = Vec::new();
    for _ in 0..count {
        let term = random.pick(&TERMS);
        out.push(pass(random, term));
    }
    if count > 0 && random.once_in(12) {
        let bad =
            random.pick(&[0, 9, 16, 19, -4, -128, 127, 128, 255, 257, 273, -255, -259, i32::MAX, i32::MIN]);
        out[random.below(count)][0] = bad;
    }
    out
}

pub fn run(run: &mut Run) -> Result<(), Failed> {
    for round in 0..4_000 * run.scale {
        for term in TERMS {
            let random = &mut run.random;
            let length = random.below(44);
            let case = Passes {
                analyse: round % 2 == 0,
                passes: vec![pass(random, term)],
                rest: 0,
                buffer: buffer(random, length),
            };
            run.agree(case)?;
        }
        for count in 0..=17 {
            let random = &mut run.random;
            let length = random.below(36);
            let (passes, buffer) = (list(random, count), buffer(random, length));
            let rest = if random.once_in(24) { 1 + random.below(19) } else { 0 };
            run.agree(Passes { analyse: round % 2 == 0, passes, rest, buffer })?;
        }
    }
    largest(run)
}

/// Buffers of the largest size, one below and one above, through each term and through 16 and 17
/// passes.
fn largest(run: &mut Run) -> Result<(), Failed> {
    let lists: Vec<Vec<i8>> = TERMS
        .iter()
        .map(|&term| vec![term])
        .chain([vec![], TERMS.to_vec(), vec![18; 16], vec![1; 17]])
        .collect();
    for (i, terms) in lists.iter().enumerate() {
        let random = &mut run.random;
        let passes: Vec<Pass> = terms.iter().map(|&term| pass(random, term)).collect();
        let buffer = buffer(random, MAX_ELEMENTS - 1 + i % 3);
        for analyse in [false, true] {
            run.agree(Passes { analyse, passes: passes.clone(), rest: 0, buffer: buffer.clone() })?;
        }
    }
    Ok(())
}
