//! What damage starts from: recordings as the library packs them, loud, quiet, with clicks, silent
//! and mixed; one in four with a zero right set.
use crate::kinds::packs;
use crate::payloads::{entropy, residuals, silent_right};
use crate::random::Random;
use crate::their_packing::SPAN;
use crate::theirs::{MAX_FRAMES, State};
use wavpack_stereo::{BYTES_PER_FRAME, Slots, WordState, pack, word};

pub struct Recording {
    pub entropy: Vec<u8>,
    pub residuals: Vec<i32>,
    pub payload: Vec<u8>,
    /// The states before its first words.
    pub states: Vec<State>,
}

/// Small recordings, a few large ones, and one of the largest size.
pub struct Recordings {
    small: Vec<Recording>,
    large: Vec<Recording>,
    largest: Recording,
}

/// How many states of a recording are kept.
const STATES: usize = 128;

fn sound(random: &mut Random, count: usize) -> Vec<i32> {
    let clicks = |random: &mut Random| if random.once_in(20) { (random.next() as i32) >> 16 } else { 0 };
    match random.below(8) {
        0 | 1 => residuals(random, count, 20, 0),
        2 => residuals(random, count, 3, 0),
        3 => (0..count).map(|_| clicks(random)).collect(),
        4 => vec![0; count],
        5 => residuals(random, count, 12, 10),
        6 => residuals(random, count, 30, 0),
        _ => packs::list(random, count),
    }
}

/// The states before the words of a payload that is read from `state` on.
fn walk(payload: &[u8], mut state: WordState, words: usize) -> Vec<State> {
    let mut out = vec![state.slots()];
    while out.len() < words && word(payload, &mut state).is_ok() {
        out.push(state.slots());
    }
    out
}

fn recording(random: &mut Random, frames: usize) -> Recording {
    loop {
        let entropy = if random.once_in(4) { silent_right(random) } else { entropy(random) };
        let residuals = sound(random, 2 * frames);
        debug_assert!(residuals.iter().all(|residual| (-SPAN..SPAN).contains(residual)));
        let mut payload = vec![0; BYTES_PER_FRAME * frames];
        // An entropy payload that is refused makes no recording; there is always another.
        let Ok(packed) = pack(&residuals, &entropy, frames, &mut payload) else {
            continue;
        };
        payload.truncate(packed.bytes());
        let start = WordState::from_entropy(&entropy).expect("packing took it");
        let states = walk(&payload, start, STATES.min(2 * frames));
        return Recording { entropy, residuals, payload, states };
    }
}

impl Recordings {
    pub fn new(random: &mut Random) -> Recordings {
        let small = |random: &mut Random| {
            let frames = if random.once_in(3) { 1 + random.below(64) } else { 1 + random.below(12) };
            recording(random, frames)
        };
        let large = |random: &mut Random| {
            let frames = 500 + random.below(8_000);
            recording(random, frames)
        };
        Recordings {
            small: (0..200).map(|_| small(random)).collect(),
            large: (0..2).map(|_| large(random)).collect(),
            largest: recording(random, MAX_FRAMES),
        }
    }

    /// One of them: mostly a small one, rarely the largest.
    pub fn pick(&self, random: &mut Random) -> &Recording {
        match random.below(20_000) {
            0 => &self.largest,
            1..8 => &self.large[random.below(self.large.len())],
            _ => &self.small[random.below(self.small.len())],
        }
    }
}
