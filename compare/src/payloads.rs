//! Entropy payloads, most of which readers take, and payloads that the Rust's own encoder made.
use crate::random::Random;
use crate::reach::is_out_of_reach;
use crate::theirs::seeds;
use reference::logpack::expand_log_word;
use reference::samples::encode_packed_samples_stereo;
use std::sync::LazyLock;

/// Every log word that the Rust expands to 0: those out of reach, whose bits are all shifted out, and
/// those in reach, which are below 256.
static ZERO_WORDS: LazyLock<[Vec<i16>; 2]> = LazyLock::new(|| {
    let expands_to_0 = |word: &i16| {
        let [low, high] = word.to_le_bytes();
        expand_log_word(low, high) == 0
    };
    (i16::MIN..=i16::MAX).filter(expands_to_0).partition::<Vec<i16>, _>(|&word| is_out_of_reach(word)).into()
});

/// Both limits of a log word's reach with the words beside them, and the ends of 16 bits.
pub const LIMITS: [i16; 10] = [8190, 8191, 8192, 8193, 32767, -8190, -8191, -8192, -8193, -32768];

/// The payload of six log words.
pub fn entropy_of(words: [i16; 6]) -> Vec<u8> {
    words.into_iter().flat_map(i16::to_le_bytes).collect()
}

/// Six words, most of them accepted: small, middling, at the top of what a word can say.
pub fn entropy(random: &mut Random) -> Vec<u8> {
    let word = |random: &mut Random| match random.below(40) {
        0..10 => random.pick(&[0, 256, 300, 512]),
        10..30 => random.below(4000) as i16,
        30..37 => random.below(8192) as i16,
        37 => random.pick(&[8191, 8191, 8192, -8192, -1, -256]),
        38 => 8000 + random.below(192) as i16,
        _ if random.once_in(4) => (random.next() as i16) >> random.pick(&[0, 2]),
        _ => random.below(8192) as i16,
    };
    entropy_of(std::array::from_fn(|_| word(random)))
}

/// Puts a word at a limit of the reach into an entropy payload, at any of its places.
pub fn plant_limit(random: &mut Random, entropy: &mut [u8]) {
    if let Some(pair) = entropy.chunks_exact_mut(2).nth(random.below(6)) {
        pair.copy_from_slice(&random.pick(&LIMITS).to_le_bytes());
    }
}

/// Payloads with each limit of the reach at each place, alone and with a negative median after it or
/// before it, each 5 to 7 and 11 to 13 bytes long.
pub fn around_reach() -> Vec<Vec<u8>> {
    let mut out = Vec::new();
    for (place, word) in (0..6).flat_map(|place| LIMITS.map(|word| (place, word))) {
        for negative in [None, Some((place + 1) % 6), Some((place + 5) % 6)] {
            let mut words = [1000, 900, 800, 1100, 1000, 900];
            words[place] = word;
            if let Some(other) = negative {
                words[other] = -300;
            }
            let bytes = [entropy_of(words), vec![0xff]].concat();
            out.extend([5, 6, 7, 11, 12, 13].map(|length| bytes[..length].to_vec()));
        }
    }
    out
}

/// Six words, most of them accepted, of which the right three expand to 0, at times all six; rarely
/// one that does so is out of reach.
pub fn silent_right(random: &mut Random) -> Vec<u8> {
    let mut entropy = entropy(random);
    let from = if random.once_in(4) { 0 } else { 6 };
    for pair in entropy[from..].chunks_exact_mut(2) {
        let [out_of_reach, in_reach] = &*ZERO_WORDS;
        let word = match random.below(100) {
            0..50 => 0,
            50..99 => random.pick(in_reach),
            _ => random.pick(out_of_reach),
        };
        pair.copy_from_slice(&word.to_le_bytes());
    }
    entropy
}

/// Residuals of one loudness, with stretches of silence.
pub fn residuals(random: &mut Random, count: usize, bits: u32, silence: usize) -> Vec<i32> {
    let mut quiet = 0;
    let mut next = || {
        quiet = if quiet == 0 && silence > 0 && random.once_in(silence) {
            random.below(200)
        } else {
            quiet.max(1) - 1
        };
        if quiet > 0 || bits == 0 { 0 } else { (random.next() as i32) >> (32 - bits) }
    };
    (0..count).map(|_| next()).collect()
}

/// A payload that the Rust's own encoder made, whole or damaged: bits flipped, bytes cut or added.
pub fn encoded(random: &mut Random, entropy: &[u8], frames: usize) -> Option<Vec<u8>> {
    let (bits, silence) = (random.below(25) as u32, random.pick(&[0, 5, 50]));
    let values = residuals(random, 2 * frames, bits, silence);
    let mut payload = encode_packed_samples_stereo(&values, &mut seeds(entropy).ok()?).ok()?;
    for _ in 0..random.below(4) {
        let at = random.below(payload.len().max(1));
        match random.below(3) {
            0 => payload.truncate(at),
            1 => payload.extend(random.bytes(3)),
            _ => payload.get_mut(at).map_or((), |byte| *byte ^= 1 << random.below(8)),
        }
    }
    Some(payload)
}
