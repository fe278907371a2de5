//! Packing of the largest number of frames. The Rust allocates the bytes that it answers, ours
//! fills a lent buffer.
use super::reading::Sound;
use super::{row, timed};
use crate::theirs::MAX_FRAMES;
use reference::entropy::expand_entropy;
use reference::samples::encode_packed_samples_stereo_from_entropy;
use wavpack_stereo::BYTES_PER_FRAME;

fn pack(name: &str, sound: &Sound) {
    let Sound { entropy, residuals, .. } = sound;
    let info = expand_entropy(entropy).unwrap();
    let expected = encode_packed_samples_stereo_from_entropy(residuals, &info).unwrap();
    let mut out = vec![0; BYTES_PER_FRAME * MAX_FRAMES];
    let ours = || {
        out.fill(0x5a);
        let (time, packed) =
            timed(|| wavpack_stereo::pack(residuals, entropy, MAX_FRAMES, &mut out).unwrap());
        let length = packed.bytes();
        assert!(out[..length] == expected[..length], "{name}: ours packs something else");
        time
    };
    let theirs = || timed(|| encode_packed_samples_stereo_from_entropy(residuals, &info).unwrap()).0;
    row(name, ours, theirs);
}

pub fn run(sounds: &[Sound]) {
    for sound in sounds {
        pack(&format!("packing, {}", sound.name), sound);
    }
}
