//! One word at a time, from any state: every payload of up to 2 bytes, words cut at every bit,
//! counts around each cap, totals around the place.
use super::word_totals;
use crate::case::{Case, Failed, Run, Smaller, plainer, same, shorter};
use crate::fields::{self, Bits};
use crate::lent::Lent;
use crate::ours;
use crate::random::Random;
use crate::theirs::{MAX_BYTES, State};
use crate::totals;

#[derive(Clone, Debug)]
pub struct Word {
    pub payload: Vec<u8>,
    pub state: State,
    /// The lengths of the three lists that are lent and written.
    pub slots: [usize; 3],
}

/// As many slots as the interface asks for.
pub const SLOTS: [usize; 3] = [15, 1, 2];

impl Case for Word {
    fn compare(&self) -> Result<u32, String> {
        let held = [&self.state[..], &[77; 2]].concat();
        let mut state = Lent::holding(&held[..self.slots[0]]);
        let (mut sample, mut report) = (Lent::marked(self.slots[1]), Lent::marked(self.slots[2]));
        let mut payload = Lent::holding(&self.payload);
        let refusal = ours::word(payload.list(), state.list(), sample.list(), report.list());
        payload.kept("payload")?;
        if (0..3).any(|i| self.slots[i] < SLOTS[i]) {
            same("refusal", &refusal, &6)?;
            state.kept("state")?;
            sample.kept("sample")?;
            report.kept("report")?;
            return Ok(refusal);
        }
        match totals::word(&self.payload, &self.state) {
            Ok(word) => {
                same("refusal", &refusal, &0)?;
                sample.written("sample", &[word.sample])?;
                state.written("state", &word.state)?;
                report.written("report", &word.report)?;
            }
            Err(number) => {
                same("refusal", &refusal, &number)?;
                sample.written("sample", &[0])?;
                state.kept("state")?;
                report.written("report", &[0, 0])?;
            }
        }
        Ok(refusal)
    }

    fn smaller(&self) -> Smaller<'_, Word> {
        let payloads = shorter(&self.payload).chain(plainer(&self.payload));
        let payloads = payloads.map(|payload| Word { payload, ..*self });
        let states = plainer(&self.state).map(|state| state.try_into().unwrap());
        Box::new(payloads.chain(states.map(|state| Word { state, ..self.clone() })))
    }

    fn totals_exceed(&self) -> bool {
        totals::exceed(&self.state)
    }
}

pub fn agree_on(run: &mut Run, payload: Vec<u8>, state: State) -> Result<(), Failed> {
    run.agree(Word { payload, state, slots: SLOTS })
}

/// States at place 0 that lead to each part of a word: run due, prefix, count 0 by last_zero, one more
/// by last_one, debt.
pub fn states(medians: [u32; 6]) -> Vec<State> {
    let mut out = Vec::new();
    for flags in [
        [0; 6],
        [0, 1, 0, 0, 0, 0],
        [1, 0, 1, 0, 0, 1],
        [1, 0, 0, 0, 1, 1],
        [0, 1, 1, 0, 0, 0],
        [1, 0, 0, 3, 1, 1],
    ] {
        out.push([&[0], &flags[..], &medians[..], &[0; 2]].concat().try_into().unwrap());
    }
    out
}

/// Every payload of up to two bytes.
fn short_payloads(run: &mut Run) -> Result<(), Failed> {
    for medians in [[0; 6], [1, 40, 90, 1, 16, 15], [2, 700, 16, 100, 5000, 2], [u32::MAX; 6]] {
        for state in states(medians) {
            agree_on(run, Vec::new(), state)?;
            for both in 0..=u16::MAX {
                agree_on(run, both.to_le_bytes().to_vec(), state)?;
                if both < 256 {
                    agree_on(run, vec![both as u8], state)?;
                }
            }
        }
    }
    Ok(())
}

/// Words of two counts, each up to above its cap, cut at every bit.
fn cut_words(run: &mut Run) -> Result<(), Failed> {
    for first in (0..5).chain(13..20).chain(29..37) {
        for second in (0..4).chain(14..18).chain(29..37) {
            for fill in 0..3 {
                let (random, mut bits) = (&mut run.random, Bits::default());
                bits.ones(first);
                bits.ones(second);
                bits.filled(70, fill, random);
                let medians = std::array::from_fn(|_| fields::median(random));
                let mut state = random.pick(&states(medians));
                for count in 0..=bits.0.len() {
                    let (payload, place) = bits.cut(count);
                    word_totals::stand(&mut run.random, &mut state, place);
                    agree_on(run, payload, state)?;
                }
            }
        }
    }
    Ok(())
}

/// A state with any medians and flags; rarely with a debt, a place past the end, a channel that does
/// not exist or totals that exceed the place.
pub fn any_state(random: &mut Random, bits: usize) -> State {
    let flag = |random: &mut Random| random.pick(&[0, 0, 0, 1, 2, u32::MAX]);
    let mut state: State = std::array::from_fn(|_| fields::median(random));
    let place = if random.once_in(8) { fields::median(random) } else { random.below(bits + 2) as u32 };
    word_totals::stand(random, &mut state, place);
    state[1] = if random.once_in(16) { random.pick(&[2, 3, 256, u32::MAX]) } else { random.below(2) as u32 };
    state[4] = if random.once_in(8) { fields::median(random) } else { 0 };
    for place in [2, 3, 5, 6] {
        state[place] = flag(random);
    }
    state
}

pub fn run(run: &mut Run) -> Result<(), Failed> {
    short_payloads(run)?;
    cut_words(run)?;
    for round in 0..500_000 * run.scale {
        let random = &mut run.random;
        let length = random.below(24);
        let payload = fields::payload(random, length);
        let state = any_state(random, 8 * payload.len());
        let slots = if round % 16 == 0 { SLOTS.map(|slots| random.below(slots + 3)) } else { SLOTS };
        run.agree(Word { payload, state, slots })?;
    }
    for length in [MAX_BYTES - 1, MAX_BYTES, MAX_BYTES + 1] {
        let payload = run.random.bytes(length);
        for _ in 0..20 {
            let mut state = any_state(&mut run.random, 0);
            let place = (8 * length - run.random.below(100)) as u32;
            word_totals::stand(&mut run.random, &mut state, place);
            agree_on(run, payload.clone(), state)?;
        }
    }
    word_totals::run(run)
}
