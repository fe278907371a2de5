//! Pass making: every term of 8 bits with seeds of every length from 0 to 9 for both channels.
use crate::case::{Case, Failed, Run, Smaller, plainer, same, shorter};
use crate::lent::Lent;
use crate::numbers;
use crate::ours;
use crate::their_passes::{self, TERMS};

#[derive(Clone, Debug)]
pub struct Making {
    pub term: i8,
    /// Delta, weight A, weight B.
    pub numbers: [i32; 3],
    pub seed_a: Vec<i32>,
    pub seed_b: Vec<i32>,
    pub slots: usize,
}

impl Case for Making {
    fn compare(&self) -> Result<u32, String> {
        let (mut seed_a, mut seed_b) = (Lent::holding(&self.seed_a), Lent::holding(&self.seed_b));
        let mut pass = Lent::marked(self.slots);
        let refusal = ours::pass(self.term, self.numbers, [seed_a.list(), seed_b.list()], pass.list());
        seed_a.kept("seed A")?;
        seed_b.kept("seed B")?;
        let theirs = their_passes::pass(self.term, self.numbers, &self.seed_a, &self.seed_b);
        match if self.slots < 20 { Err(6) } else { theirs } {
            Ok(numbers) => {
                same("refusal", &refusal, &0)?;
                pass.written("pass", &numbers)?;
            }
            Err(number) => {
                same("refusal", &refusal, &number)?;
                pass.kept("pass")?;
            }
        }
        Ok(refusal)
    }

    fn smaller(&self) -> Smaller<'_, Making> {
        let a = shorter(&self.seed_a).chain(plainer(&self.seed_a));
        let b = shorter(&self.seed_b).chain(plainer(&self.seed_b));
        let numbers = plainer(&self.numbers).map(|numbers| numbers.try_into().unwrap());
        let a = a.map(|seed_a| Making { seed_a, ..self.clone() });
        let b = b.map(|seed_b| Making { seed_b, ..self.clone() });
        Box::new(a.chain(b).chain(numbers.map(|numbers| Making { numbers, ..self.clone() })))
    }
}

pub fn run(run: &mut Run) -> Result<(), Failed> {
    // Every term once, and the valid ones twenty times more.
    let often = std::iter::repeat_n(TERMS, 20 * run.scale).flatten();
    for term in (i8::MIN..=i8::MAX).chain(often) {
        for lengths in 0..100 {
            let random = &mut run.random;
            let numbers = std::array::from_fn(|_| numbers::any(random));
            let seed_a = numbers::list(random, lengths / 10);
            let seed_b = numbers::list(random, lengths % 10);
            let slots = if random.once_in(16) { random.below(24) } else { 20 };
            run.agree(Making { term, numbers, seed_a, seed_b, slots })?;
        }
    }
    Ok(())
}
