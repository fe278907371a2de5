//! One word a call, by a caller that holds the state, through the whole payload of a sound.
use super::reading::Sound;
use super::{BEFORE_WORD, TURNS, Turn, row_of, timed};
use crate::theirs;
use reference::entropy::expand_entropy;
use reference::samples::{
    BitReader, StereoDecodeState, decode_sample_stateful_stereo, encode_packed_samples_stereo_from_entropy,
};
use std::time::Duration;
use wavpack_stereo::ffi;

/// The slots of today's state.
const SLOTS: usize = 15;

/// A word with the state in slots: its refusal number, 0 for accepted.
pub type Word = fn(payload: &[u8], state: &mut [u32], sample: &mut [i32], report: &mut [u32]) -> u32;

/// A turn by an archive whose state has so many slots.
fn lent_turn(word: Word, slots: usize, sound: &Sound, payload: &[u8]) -> Duration {
    let (mut state, mut sample, mut report) = (vec![0; slots], [0], [0; 2]);
    let seeds = theirs::seeds(&sound.entropy).unwrap().map(|set| set.values);
    state[7..13].copy_from_slice(seeds.as_flattened());
    let mut next = || (word(payload, &mut state, &mut sample, &mut report) == 0).then_some(sample[0]);
    let (time, equal) = timed(|| sound.residuals.iter().all(|&value| next() == Some(value)));
    assert!(equal, "{}: ours reads another word", sound.name);
    time
}

fn their_turn(sound: &Sound, payload: &[u8]) -> Duration {
    let mut reader = BitReader::new(payload);
    let (mut medians, mut flags) = (theirs::seeds(&sound.entropy).unwrap(), StereoDecodeState::default());
    let mut next = || decode_sample_stateful_stereo(&mut reader, &mut medians, &mut flags).ok();
    let (time, equal) = timed(|| sound.residuals.iter().all(|&value| next() == Some(value)));
    assert!(equal, "{}: the Rust reads another word", sound.name);
    time
}

/// The sounds of which every word is read, not a zero out of a run.
pub fn run(sounds: &[Sound]) {
    for sound in &sounds[..3] {
        let info = expand_entropy(&sound.entropy).unwrap();
        let payload = &encode_packed_samples_stereo_from_entropy(&sound.residuals, &info).unwrap();
        let mut before = BEFORE_WORD.map(|(word, slots)| move || lent_turn(word, slots, sound, payload));
        let before = before.as_mut().map(|turn| turn as Turn<'_>);
        let name = &format!("one word a call, {}", sound.name);
        row_of(name, TURNS, before, &mut || lent_turn(ffi::word, SLOTS, sound, payload), &mut || {
            their_turn(sound, payload)
        });
    }
}
