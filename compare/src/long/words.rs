//! Single words of damaged payloads, from states within a reading, damaged ones and any.
use super::damage;
use super::reads::{damaged, slots_near};
use super::recordings::Recordings;
use crate::fields;
use crate::kinds::word_totals;
use crate::kinds::words::{SLOTS, Word, any_state};
use crate::random::Random;
use crate::totals;

pub fn word(random: &mut Random, from: &Recordings) -> Word {
    let base = from.pick(random);
    let mut state = base.states[random.below(base.states.len())];
    let payload = damaged(random, &base.payload, state[0]);
    if random.once_in(3) {
        state = any_state(random, 8 * payload.len());
    }
    damage::numbers(random, &mut state, 3, fields::median);
    // A channel that does not exist ends the word at once: it stays rare.
    if state[1] > 1 && !random.once_in(4) {
        state[1] %= 2;
    }
    // So do totals that exceed the place.
    if totals::exceed(&state) && !random.once_in(4) {
        let place = state[0];
        word_totals::stand(random, &mut state, place);
    }
    Word { payload, state, slots: SLOTS.map(|slots| slots_near(random, slots)) }
}
