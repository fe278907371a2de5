//! Reading of the largest number of frames. The Rust allocates the list that it answers, ours fills
//! a lent one.
use super::{BEFORE, TURNS, Turn, row_of, timed};
use crate::payloads::{entropy_of, residuals};
use crate::random::Random;
use crate::theirs::{MAX_BYTES, MAX_FRAMES, number};
use reference::PackedSamples;
use reference::entropy::expand_entropy;
use reference::samples::{
    decode_packed_samples_stereo_from_entropy, encode_packed_samples_stereo_from_entropy,
};
use std::time::Duration;
use wavpack_stereo::Refusal;

/// The Rust is slow at ones.
const TURNS_OF_ONES: usize = 10;

/// Residuals with a name and the entropy payload that suits them.
pub struct Sound {
    pub name: &'static str,
    pub entropy: Vec<u8>,
    pub residuals: Vec<i32>,
}

/// Silence with a residual of `bits` bits once in `often`.
fn seldom(random: &mut Random, often: usize, bits: u32) -> Vec<i32> {
    let value =
        |random: &mut Random| if random.once_in(often) { (random.next() as i32) >> (32 - bits) } else { 0 };
    (0..2 * MAX_FRAMES).map(|_| value(random)).collect()
}

pub fn sounds(random: &mut Random) -> Vec<Sound> {
    let inputs = [
        ("loud (20 bits)", 20, residuals(random, 2 * MAX_FRAMES, 20, 0)),
        ("middling (12 bits)", 12, residuals(random, 2 * MAX_FRAMES, 12, 0)),
        ("quiet (3 bits)", 3, residuals(random, 2 * MAX_FRAMES, 3, 0)),
        ("clicks (16 bits, one in 100)", 1, seldom(random, 100, 16)),
        ("many ones (8 bits, one in 4)", 1, seldom(random, 4, 8)),
        ("silence", 1, vec![0; 2 * MAX_FRAMES]),
    ];
    let sound = |(name, bits, residuals): (_, i16, _)| Sound {
        name,
        entropy: entropy_of([256 * bits + 1; 6]),
        residuals,
    };
    inputs.into_iter().map(sound).collect()
}

/// Reading into a lent list, of `frames` frames: its refusal number, 0 for accepted.
pub type Read = fn(entropy: &[u8], payload: &[u8], frames: usize, samples: &mut [i32]) -> u32;

fn read_now(entropy: &[u8], payload: &[u8], frames: usize, samples: &mut [i32]) -> u32 {
    wavpack_stereo::read(entropy, payload, frames, samples).map_or_else(|error| error.refusal.number(), |_| 0)
}

/// What is read, and the samples or the refusal number that come of it.
struct Input<'a> {
    name: &'a str,
    entropy: &'a [u8],
    payload: &'a [u8],
    frames: usize,
    expected: Result<&'a [i32], u32>,
}

impl Input<'_> {
    fn lent_turn(&self, read: Read, samples: &mut [i32]) -> Duration {
        samples.fill(0x5a);
        let (time, refusal) = timed(|| read(self.entropy, self.payload, self.frames, samples));
        let answer = if refusal == 0 { Ok(&*samples) } else { Err(refusal) };
        assert!(answer == self.expected, "{}: ours reads something else", self.name);
        time
    }

    fn row(&self, turns: usize) {
        let Input { name, entropy, payload, frames, expected } = self;
        let (info, packed) = (expand_entropy(entropy).unwrap(), PackedSamples::new(payload));
        let [mut samples_before, mut samples_now] = [vec![0; 2 * frames], vec![0; 2 * frames]];
        let mut before = BEFORE.map(|read| move || self.lent_turn(read, &mut samples_before));
        let mut theirs = || {
            let (time, samples) =
                timed(|| decode_packed_samples_stereo_from_entropy(&packed, &info, *frames));
            let answer = samples.map_err(number);
            assert!(answer.as_deref() == expected.as_ref().copied(), "{name}: the Rust reads something else");
            time
        };
        let before = before.as_mut().map(|turn| turn as Turn<'_>);
        row_of(name, turns, before, &mut || self.lent_turn(read_now, &mut samples_now), &mut theirs);
    }
}

pub fn run(sounds: &[Sound]) {
    for Sound { name, entropy, residuals } in sounds {
        let payload =
            encode_packed_samples_stereo_from_entropy(residuals, &expand_entropy(entropy).unwrap()).unwrap();
        let (name, expected) = (&format!("reading, {name}"), Ok(&residuals[..]));
        Input { name, entropy, payload: &payload, frames: MAX_FRAMES, expected }.row(TURNS);
    }
    // One count through the whole payload, which no zero ends.
    let payload = vec![0xff; MAX_BYTES];
    let name = &format!("reading, {MAX_BYTES} bytes of ones (one frame, refused, {TURNS_OF_ONES} turns)");
    let expected = Err(Refusal::Truncated.number());
    Input { name, entropy: &sounds[0].entropy, payload: &payload, frames: 1, expected }.row(TURNS_OF_ONES);
}
