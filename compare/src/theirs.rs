//! What the published Rust answers, in the terms of the rules (docs/PROVED.md).
//!
//! A refusal is a number. Of a refused word only the number counts: the Rust has then already
//! changed medians and flags, the rules hand back the old ones (D1.4). A reading's bits and medians
//! are those after its last accepted word.
use crate::reach::{self, OUT_OF_REACH};
use reference::PackedSamples;
use reference::entropy::{EntropyInfo, expand_entropy};
use reference::error::Error;
use reference::logpack::expand_log_word;
use reference::samples::{
    AdaptiveMedians, BitReader, RunState, StereoDecodeState, Zone, decode_packed_samples_stereo,
    decode_packed_samples_stereo_from_entropy, decode_sample_stateful_stereo, read_folded_ones_count,
};
use wavpack_stereo::{Reading, Slots, WordState};

/// The limits of the rules, which the Rust does not have.
pub const MAX_FRAMES: usize = 131_072;
pub const MAX_BYTES: usize = 4_194_304;

/// The slots of a state. The Rust has the first 13; the totals after them are left to `totals`.
pub type State = <WordState as Slots>::List;

/// An accepted word, with the first slots of the state after it.
pub struct Word<const SLOTS: usize> {
    pub sample: i32,
    pub state: [u32; SLOTS],
    pub report: [u32; 2],
}

/// The refusal number of a word's error.
pub fn number(error: Error) -> u32 {
    match error {
        Error::Truncated => 3,
        Error::EndOfStream => 4,
        other => unreachable!("{other:?} is no refusal of a word"),
    }
}

/// A state without its place, as the Rust holds it: each field has the same name there.
fn unpacked(state: &WordState) -> (StereoDecodeState, [AdaptiveMedians; 2]) {
    let flags = StereoDecodeState {
        run: RunState { last_zero: state.last_zero, last_one: state.last_one },
        zero_run_pending: state.zero_run_pending,
        run_break: state.run_break,
        ever_took_zero_run: state.ever_took_zero_run,
        next_channel: state.next_channel as u8,
    };
    (flags, state.medians.map(AdaptiveMedians::new))
}

/// The state at a place, with no totals.
fn packed(place: usize, flags: &StereoDecodeState, medians: &[AdaptiveMedians; 2]) -> WordState {
    WordState {
        place: place as u32,
        next_channel: u32::from(flags.next_channel),
        last_zero: flags.run.last_zero,
        last_one: flags.run.last_one,
        zero_run_pending: flags.zero_run_pending,
        run_break: flags.run_break,
        ever_took_zero_run: flags.ever_took_zero_run,
        medians: medians.map(|set| set.values),
        bits_read: [0, 0],
    }
}

/// The zone of the next word and its count, by the Rust's own steps; none for a zero out of a run.
fn report(
    reader: &BitReader<'_>,
    flags: &StereoDecodeState,
    medians: &[AdaptiveMedians; 2],
) -> Result<[u32; 2], Error> {
    let (mut reader, mut flags, mut medians) = (reader.clone(), *flags, *medians);
    if flags.zero_run_pending > 0 || flags.take_zero_run(&mut medians, &mut reader)?.is_some() {
        return Ok([0, 0]);
    }
    let zone = Zone::from_ones_count(read_folded_ones_count(&mut reader, &mut flags.run)?);
    Ok([1 + u32::from(zone.index()), zone.ones_count()])
}

/// One word, read from the place that the state names, whatever its totals are.
pub fn word(payload: &[u8], state: &State) -> Result<Word<13>, u32> {
    if payload.len() > MAX_BYTES {
        return Err(5);
    }
    let state = WordState::from_slots(*state);
    if state.next_channel > 1 {
        return Err(12);
    }
    let place = state.place as usize;
    let (mut flags, mut medians) = unpacked(&state);
    let mut reader = BitReader::new(payload.get(place / 8..).unwrap_or(&[]));
    // A place past the end leaves nothing to skip: a word that needs a bit is then truncated.
    let _ = reader.get_bits((place % 8) as u32);
    let start = reader.bits_consumed();
    let report = report(&reader, &flags, &medians);
    let sample = decode_sample_stateful_stereo(&mut reader, &mut medians, &mut flags).map_err(number)?;
    let [state @ .., _, _] = packed(place + reader.bits_consumed() - start, &flags, &medians).slots();
    Ok(Word { sample, state, report: report.expect("an accepted word has a zone") })
}

/// The value of a log word, which lies within these ends, or its refusal (Q7.1).
pub fn log_word(word: i16) -> Result<i32, u32> {
    if reach::is_out_of_reach(word) {
        return Err(OUT_OF_REACH);
    }
    let [low, high] = word.to_le_bytes();
    let value = expand_log_word(low, high);
    assert!((-2_143_289_344..=2_143_289_344).contains(&value));
    Ok(value)
}

/// What an entropy payload expands to, or why it is refused: the Rust reports a wrong length, then the
/// rule a log word out of reach (Q7.2).
pub fn info(entropy: &[u8]) -> Result<EntropyInfo, u32> {
    let info = expand_entropy(entropy).map_err(|_| 1u32)?;
    if reach::holds_one(entropy) { Err(OUT_OF_REACH) } else { Ok(info) }
}

/// What an entropy payload expands to and the medians that it seeds, or why it is refused.
///
/// Its length alone separates mono from stereo (Q2.1). The Rust treats a zero right set as mono: its
/// own seeds are none there, and must be these everywhere else.
pub fn expanded(entropy: &[u8]) -> Result<(EntropyInfo, [AdaptiveMedians; 2]), u32> {
    let info = info(entropy)?;
    let sets = [info.medians_left, info.medians_right].map(AdaptiveMedians::from_seed_values);
    let seeds = if let [Some(left), Some(right)] = sets { Some([left, right]) } else { None };
    assert_eq!(AdaptiveMedians::stereo_pair_from_entropy(&info), seeds.filter(|_| !info.is_mono()));
    seeds.filter(|_| entropy.len() != 6).map(|seeds| (info, seeds)).ok_or(2)
}

/// The medians that an entropy payload seeds, or why it is refused.
pub fn seeds(entropy: &[u8]) -> Result<[AdaptiveMedians; 2], u32> {
    expanded(entropy).map(|(_, seeds)| seeds)
}

/// Whether an entropy payload that is accepted has a zero right set.
pub fn silent_right(entropy: &[u8]) -> bool {
    seeds(entropy).is_ok_and(|[_, right]| right.values == [0; 3])
}

/// The samples of the Rust's own reading. Its entry for an entropy payload refuses a zero right set
/// as mono: there the medians are handed in.
fn whole(
    payload: &[u8],
    info: &EntropyInfo,
    mut seeds: [AdaptiveMedians; 2],
    frames: usize,
) -> Result<Vec<i32>, Error> {
    let payload = PackedSamples::new(payload);
    let samples = decode_packed_samples_stereo_from_entropy(&payload, info, frames);
    if !info.is_mono() {
        return samples;
    }
    assert_eq!(samples, Err(Error::InvalidEntropyInfoForStereo));
    decode_packed_samples_stereo(&payload, &mut seeds, frames)
}

/// A reading.
pub struct Read {
    pub refusal: u32,
    /// The numbers of its answer, without the totals.
    pub answer: [u32; 8],
    /// The samples that were read, and the place after each of their words.
    pub samples: Vec<i32>,
    pub places: Vec<u32>,
}

/// A reading of `frames` frames into a list of this length, word by word.
pub fn read(entropy: &[u8], payload: &[u8], frames: usize, length: usize) -> Read {
    let before = |refusal| Read { refusal, answer: [0; 8], samples: Vec::new(), places: Vec::new() };
    if frames > MAX_FRAMES || payload.len() > MAX_BYTES {
        return before(5);
    }
    if length != 2 * frames {
        return before(6);
    }
    let (info, seeds) = match expanded(entropy) {
        Ok(answered) => answered,
        Err(refusal) => return before(refusal),
    };
    let (mut reader, mut flags, mut medians) = (BitReader::new(payload), StereoDecodeState::new(), seeds);
    let (mut refusal, mut state) = (Ok(()), packed(0, &flags, &medians));
    let (mut samples, mut places) = (Vec::with_capacity(length), Vec::with_capacity(length));
    while samples.len() < length && refusal.is_ok() {
        match decode_sample_stateful_stereo(&mut reader, &mut medians, &mut flags) {
            Ok(sample) => {
                samples.push(sample);
                state = packed(reader.bits_consumed(), &flags, &medians);
                places.push(state.place);
            }
            Err(error) => refusal = Err(error),
        }
    }
    // The Rust's own reading answers the same samples, or refuses for the same reason.
    assert_eq!(whole(payload, &info, seeds, frames), refusal.clone().map(|()| samples.clone()));
    let WordState { place: bits_used, medians, bits_read, .. } = state;
    let [answer @ .., _, _] = Reading { bits_used, medians, written: samples.len(), bits_read }.slots();
    Read { refusal: refusal.map_or_else(number, |()| 0), answer, samples, places }
}
