//! What the proved library answers, in the slots of its C interface.
//!
//! A list with just the slots asked for is answered by the bindings, which are what controllers
//! call. What only the C interface can be given goes to the bindings' `ffi`, its functions as they
//! are: lists with fewer or more slots, flags that are neither 0 nor 1. So does a call that the
//! bindings refuse, once more, since only there its slots show: a refused call left everything as
//! it was. Where every element outside a list is watched all calls go to `ffi`, since the bindings
//! answer in lists of their own.
use crate::lent::watched;
use wavpack_stereo::{Delta, Int32Info, Pass, Recording, Recordings, Refusal, Slots, Weight, WordState, ffi};

/// No refusal number: the bindings and the C interface refuse for different reasons.
const PARTED: u32 = u32::MAX;

fn both(bindings: Refusal, ffi: u32) -> u32 {
    if bindings.number() == ffi { ffi } else { PARTED }
}

/// The number of an answer, 0 for accepted.
pub fn number(answer: Result<(), Refusal>) -> u32 {
    answer.map_or_else(Refusal::number, |()| 0)
}

/// A call that gives `N` numbers into `slots` or refuses: by the bindings where they can be given it, and
/// otherwise, and where they refuse, by `ffi`. `lists` are the lists that it writes besides.
fn answered<L, T: Copy, const N: usize>(
    slots: &mut [T],
    mut lists: L,
    bindings: impl Fn(&mut L) -> Result<[T; N], Refusal>,
    ffi: impl Fn(&mut L, &mut [T]) -> u32,
) -> u32 {
    if watched() || slots.len() != N {
        return ffi(&mut lists, slots);
    }
    match bindings(&mut lists) {
        Ok(numbers) => {
            slots.copy_from_slice(&numbers);
            0
        }
        Err(refusal) => both(refusal, ffi(&mut lists, slots)),
    }
}

pub fn log_word(word: i16, value: &mut [i32]) -> u32 {
    answered(
        value,
        (),
        |()| wavpack_stereo::log_word(word).map(|value| [value]),
        |(), value| ffi::log_word(word, value),
    )
}

pub fn term_byte(byte: u8, out: &mut [i32]) -> u32 {
    answered(out, (), |()| Ok(wavpack_stereo::term_byte(byte).slots()), |(), out| ffi::term_byte(byte, out))
}

pub fn weight_byte(byte: u8, out: &mut [i32]) -> u32 {
    answered(out, (), |()| Ok([wavpack_stereo::weight_byte(byte).0]), |(), out| ffi::weight_byte(byte, out))
}

pub fn entropy(entropy: &[u8], medians: &mut [i32]) -> u32 {
    answered(
        medians,
        (),
        |()| wavpack_stereo::entropy(entropy).map(|medians| medians.slots()),
        |(), medians| ffi::entropy(entropy, medians),
    )
}

pub fn read(entropy: &[u8], payload: &[u8], frames: usize, samples: &mut [i32], answer: &mut [u32]) -> u32 {
    if watched() || answer.len() != 10 {
        return ffi::read(entropy, payload, frames, samples, answer);
    }
    let (refusal, reading) = match wavpack_stereo::read(entropy, payload, frames, samples) {
        Ok(reading) => (0, reading),
        Err(error) => (error.refusal.number(), error.reading),
    };
    answer.copy_from_slice(&reading.slots());
    refusal
}

/// The state that has these slots; none where there are not 15, or a flag is neither 0 nor 1.
fn state_of(slots: &[u32]) -> Option<WordState> {
    let slots = slots.try_into().ok()?;
    let state = WordState::from_slots(slots);
    (state.slots() == slots).then_some(state)
}

pub fn word(payload: &[u8], state: &mut [u32], sample: &mut [i32], report: &mut [u32]) -> u32 {
    let (false, Some(mut held), [1, 2]) = (watched(), state_of(state), [sample.len(), report.len()]) else {
        return ffi::word(payload, state, sample, report);
    };
    let answer = wavpack_stereo::word(payload, &mut held);
    state.copy_from_slice(&held.slots());
    match answer {
        Ok(word) => {
            sample[0] = word.sample;
            report.copy_from_slice(&word.zone.slots());
            0
        }
        Err(refusal) => both(refusal, ffi::word(payload, state, sample, report)),
    }
}

/// `numbers` are delta, weight A and weight B.
pub fn pass(term: i8, numbers: [i32; 3], seeds: [&[i32]; 2], pass: &mut [i32]) -> u32 {
    let [delta, weight_a, weight_b] = numbers;
    let (delta, weights) = (Delta(delta), [Weight(weight_a), Weight(weight_b)]);
    answered(
        pass,
        (),
        |()| Pass::new(term.into(), delta, weights, seeds).map(|pass| *pass.slots()),
        |(), pass| ffi::pass(term, delta, weights, seeds, pass),
    )
}

/// The passes that hold these numbers.
pub fn passes(lists: &[[i32; Pass::SLOTS]]) -> Vec<Pass> {
    lists.iter().copied().map(Pass::from_slots).collect()
}

pub fn pack(residuals: &[i32], entropy: &[u8], frames: usize, out: &mut [u8], answer: &mut [u32]) -> u32 {
    answered(
        answer,
        out,
        |out| wavpack_stereo::pack(residuals, entropy, frames, out).map(|packed| packed.slots()),
        |out, answer| ffi::pack(residuals, entropy, frames, out, answer),
    )
}

pub fn wave_export(rate: u32, samples: &[i32], out: &mut [u8], answer: &mut [u32]) -> u32 {
    answered(
        answer,
        out,
        |out| wavpack_stereo::wave_export(rate, samples, out).map(|bytes| [bytes as u32]),
        |out, answer| ffi::wave_export(rate, samples, out, answer),
    )
}

pub fn wave_import(file: &[u8], samples: &mut [i32], answer: &mut [u32]) -> u32 {
    answered(
        answer,
        samples,
        |samples| wavpack_stereo::wave_import(file, samples).map(|wave| wave.slots()),
        |samples, answer| ffi::wave_import(file, samples, answer),
    )
}

pub fn morning_page(samples: &[i32], threshold: u32, page: &mut [u8], answer: &mut [u32]) -> u32 {
    answered(
        answer,
        page,
        |page| wavpack_stereo::morning_page(samples, threshold, page).map(|bytes| [bytes as u32]),
        |page, answer| ffi::morning_page(samples, threshold, page, answer),
    )
}

pub fn reassemble_int32(info: Int32Info, samples: &mut [i32], literal: &[u8], answer: &mut [u32]) -> u32 {
    answered(
        answer,
        samples,
        |samples| wavpack_stereo::reassemble_int32(info, samples, literal).map(|bits| [bits]),
        |samples, answer| ffi::reassemble_int32(info, samples, literal, answer),
    )
}

pub fn deconstruct_int32(
    info: Int32Info,
    samples: &mut [i32],
    literal: &mut [u8],
    answer: &mut [u32],
) -> u32 {
    answered(
        answer,
        (samples, literal),
        |(samples, literal)| wavpack_stereo::deconstruct_int32(info, samples, literal).map(|bits| [bits]),
        |(samples, literal), answer| ffi::deconstruct_int32(info, samples, literal, answer),
    )
}

/// `key` is house, start second and issue.
pub fn archive_write(key: (u16, u32, u16), payload: &[u8], out: &mut [u8], answer: &mut [u32]) -> u32 {
    let (house, start, issue) = key;
    answered(
        answer,
        out,
        |out| wavpack_stereo::archive_write(house, start, issue, payload, out).map(|bytes| [bytes as u32]),
        |out, answer| ffi::archive_write(house, start, issue, payload, out, answer),
    )
}

/// The list and the payloads that recordings were read from.
fn lists_of(recordings: Recordings) -> (Vec<u32>, Vec<u8>) {
    let numbers = recordings.clone().flat_map(|Recording { house, start, issue, payload }| {
        [house.into(), start, issue.into(), payload.len() as u32]
    });
    (numbers.collect(), recordings.flat_map(|recording| recording.payload).copied().collect())
}

pub fn archive_read(file: &[u8], list: &mut [u32], payloads: &mut [u8], answer: &mut [u32]) -> u32 {
    let (false, (fours, []), 2) = (watched(), list.as_chunks_mut(), answer.len()) else {
        return ffi::archive_read(file, list, payloads, answer);
    };
    let told = match wavpack_stereo::archive_read(file, fours, payloads).map(lists_of) {
        Ok((numbers, bytes)) => {
            answer.copy_from_slice(&[numbers.len() as u32 / 4, bytes.len() as u32]);
            let same = list.starts_with(&numbers) && payloads.starts_with(&bytes);
            return if same { 0 } else { PARTED };
        }
        Err(told) => told,
    };
    let refusal = both(told.refusal, ffi::archive_read(file, list, payloads, answer));
    let bad_block = (refusal == 18).then_some(answer[0] as usize);
    if told.bad_block == bad_block { refusal } else { PARTED }
}
