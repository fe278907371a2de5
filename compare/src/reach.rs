//! Log words past the format's reach, by the rule alone (Q7.6). The published Rust has a value for
//! each of them: where the rule refuses one, that value is not looked at.

/// The refusal of a log word out of reach.
pub const OUT_OF_REACH: u32 = 17;

/// Whether a log word is refused: 8192 or more, or -8192 or less.
pub fn is_out_of_reach(word: i16) -> bool {
    word >= 8192 || word <= -8192
}

/// Whether an entropy payload holds such a word, one of three in 6 bytes or of six in 12. A payload
/// of another length is refused for that before, whatever its words.
pub fn holds_one(entropy: &[u8]) -> bool {
    entropy.chunks_exact(2).any(|pair| is_out_of_reach(i16::from_le_bytes([pair[0], pair[1]])))
}
