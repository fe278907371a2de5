//! Each refusal, reached through the safe functions, and that the lent lists are then as they were. More
//! of the log words out of reach is in reach.rs; the refusals of archives are in archives.rs.
mod marks;

use marks::{unpacked, unread};
use std::error::Error;
use wavpack_stereo::{
    Delta, Int32Info, MAX_ELEMENTS, MAX_FRAMES, MAX_PASSES, MAX_PAYLOAD_BYTES, MAX_RATE, MAX_WAVE_BYTES,
    Pass, Reading, Refusal, WAVE_HEADER_BYTES, Weight, WordState, analyse, deconstruct_int32, decorrelate,
    entropy, pack, read, reassemble_int32, wave_export, wave_import, word,
};

const ONES: [u8; 12] = [0, 1, 0, 1, 0, 1, 0, 1, 0, 1, 0, 1];
const PAYLOAD: [u8; 2] = [0x7e, 0x02];
/// The last log word is 8192.
const WORN: [u8; 12] = [0, 1, 0, 1, 0, 1, 0, 1, 0, 1, 0, 32];

#[test]
fn readings() {
    assert_eq!(unread(&ONES, &PAYLOAD, MAX_FRAMES + 1, 0), Refusal::TooLarge);
    assert_eq!(unread(&ONES, &PAYLOAD, usize::MAX, 0), Refusal::TooLarge);
    assert_eq!(unread(&ONES, &vec![0; MAX_PAYLOAD_BYTES + 1], 1, 2), Refusal::TooLarge);
    assert_eq!(unread(&ONES, &PAYLOAD, 1, 1), Refusal::ListLength);
    assert_eq!(unread(&ONES, &PAYLOAD, 1, 3), Refusal::ListLength);
    assert_eq!(unread(&[], &PAYLOAD, 1, 2), Refusal::EntropyLength);
    assert_eq!(unread(&WORN, &PAYLOAD, 1, 2), Refusal::LogWordOutOfReach);
    assert_eq!(unread(&ONES[..6], &PAYLOAD, 1, 2), Refusal::NotStereo);
    let reading = read(&ONES, &[], 0, &mut []).unwrap();
    assert_eq!(reading, Reading { medians: [[1; 3]; 2], ..Reading::default() });
}

#[test]
fn a_silent_right_stem_is_read_and_packed() -> Result<(), Refusal> {
    let left_only = [0, 1, 0, 1, 0, 1, 0, 0, 0, 0, 0, 0];
    let (mut samples, mut out) = ([77; 2], [77; 28]);
    let reading = read(&left_only, &PAYLOAD, 1, &mut samples)?;
    assert_eq!((samples, reading.bits_used, reading.medians), ([3, -1], 10, [[6; 3], [0; 3]]));
    assert_eq!(pack(&samples, &left_only, 1, &mut out)?.medians, reading.medians);
    assert_eq!(out[..3], [0x7e, 0x02, 77]);
    assert_eq!(WordState::from_entropy(&[0; 12])?, WordState::default());
    // A negative median is refused in either set.
    for word in [4, 10] {
        let mut negative = left_only;
        negative[word + 1] = 0xff;
        assert_eq!(unread(&negative, &PAYLOAD, 1, 2), Refusal::NotStereo);
    }
    Ok(())
}

#[test]
fn a_word_ends_a_reading() {
    let mut samples = [77; 2];
    let error = read(&ONES, &[0x7e], 1, &mut samples).unwrap_err();
    assert_eq!(error.refusal, Refusal::Truncated);
    assert_eq!(error.reading, Reading { medians: [[1; 3]; 2], ..Reading::default() });
    assert_eq!(samples, [77; 2]);
    assert_eq!(Refusal::from(error), Refusal::Truncated);
    let why = error.source().expect("the refusal").to_string();
    assert_eq!(error.to_string(), "the reading ended after 0 samples");
    assert_eq!(why, "a bit past the end is needed, or a count or a prefix value is over its cap");
}

#[test]
fn a_number_without_a_name() {
    let refusal = Refusal::from_number(4_000_000_000).unwrap();
    assert!(matches!(refusal, Refusal::Unknown { number: 4_000_000_000, .. }));
    let said = "refusal 4000000000, which these bindings have no name for";
    assert_eq!(refusal.to_string(), said);
}

#[test]
fn words() {
    let refused = |payload: &[u8], mut state: WordState| {
        let before = state;
        let refusal = word(payload, &mut state).unwrap_err();
        assert_eq!(state, before);
        refusal
    };
    let state = WordState::from_entropy(&ONES).unwrap();
    assert_eq!(state, WordState::new([[1; 3]; 2]));
    assert_eq!(refused(&[], state), Refusal::Truncated);
    assert_eq!(refused(&PAYLOAD, WordState { place: u32::MAX, ..state }), Refusal::Truncated);
    assert_eq!(refused(&PAYLOAD, WordState { next_channel: 2, ..state }), Refusal::InvalidChannel);
    let over = WordState { bits_read: [u32::MAX, 1], ..state };
    assert_eq!(refused(&[], over), Refusal::InvalidChannel);
    assert_eq!(refused(&vec![0; MAX_PAYLOAD_BYTES + 1], over), Refusal::TooLarge);
    // A run length of 0, 16 ones, and 33 ones for the second count.
    let end = [0xfe, 0xff, 0xfd, 0xff, 0xff, 0xff, 0x07];
    assert_eq!(refused(&end, state), Refusal::EndOfStream);
}

#[test]
fn entropy_payloads() {
    for length in (0..12).filter(|&length| length != 6) {
        assert_eq!(entropy(&ONES[..length]), Err(Refusal::EntropyLength));
        assert_eq!(WordState::from_entropy(&ONES[..length]), Err(Refusal::EntropyLength));
    }
    assert_eq!(entropy(&ONES[..6]), Ok([[1; 3], [0; 3]]));
    assert_eq!(WordState::from_entropy(&ONES[..6]), Err(Refusal::NotStereo));
    assert_eq!(entropy(&WORN), Err(Refusal::LogWordOutOfReach));
    assert_eq!(WordState::from_entropy(&WORN), Err(Refusal::LogWordOutOfReach));
}

#[test]
fn lists_of_passes() {
    let refused = |mut passes: Vec<Pass>, length: usize| {
        let (before, mut buffer) = (passes.clone(), vec![77; length]);
        let refusal = decorrelate(&mut passes, &mut buffer).unwrap_err();
        assert_eq!(analyse(&mut passes, &mut buffer), Err(refusal));
        assert!(passes == before && buffer.iter().all(|&element| element == 77));
        refusal
    };
    let pass = Pass::new(-1, Delta(2), [Weight(1024), Weight(-1024)], [&[5], &[6]]).unwrap();
    let mut invalid = *pass.slots();
    invalid[0] = 256 - 1;
    assert_eq!(refused(vec![pass.clone(); MAX_PASSES + 1], 4), Refusal::TooManyPasses);
    assert_eq!(refused(vec![pass.clone()], MAX_ELEMENTS + 1), Refusal::TooLarge);
    assert_eq!(refused(vec![pass.clone(), Pass::from_slots(invalid)], 4), Refusal::InvalidTerm);
    assert_eq!(decorrelate(&mut [], &mut []), Ok(()));
    assert_eq!(analyse(&mut vec![pass; MAX_PASSES], &mut []), Ok(()));
}

#[test]
fn passes() {
    let made = |term: i32, seeds: [&[i32]; 2]| Pass::new(term, Delta(2), [Weight(0); 2], seeds);
    assert_eq!(made(-1, [&[5], &[]]), Err(Refusal::SeedTooShort));
    assert_eq!(made(18, [&[5, 6], &[7]]), Err(Refusal::SeedTooShort));
    // What the low 8 bits of a term say does not count.
    for term in [0, 9, -4, 127, 128, 256 + 18, -256 + 18, i32::MAX, i32::MIN] {
        assert_eq!(made(term, [&[], &[]]), Err(Refusal::InvalidTerm));
        assert_eq!(made(term, [&[5], &[]]), Err(Refusal::InvalidTerm));
    }
}

#[test]
fn packings() {
    assert_eq!(unpacked(&[], &ONES, MAX_FRAMES + 1, 0), Refusal::TooLarge);
    assert_eq!(unpacked(&[3], &ONES, 1, 28), Refusal::ListLength);
    assert_eq!(unpacked(&[3, -1], &ONES[..11], 1, 28), Refusal::EntropyLength);
    assert_eq!(unpacked(&[3, -1], &WORN, 1, 28), Refusal::LogWordOutOfReach);
    assert_eq!(unpacked(&[3, -1], &ONES[..6], 1, 28), Refusal::NotStereo);
    assert_eq!(unpacked(&[3, -1], &ONES, 1, 27), Refusal::OutputTooShort);
    assert_eq!(unpacked(&[3, 1_879_048_192], &ONES, 1, 28), Refusal::ResidualOutOfSpan);
    assert_eq!(pack(&[], &ONES, 0, &mut []).unwrap().bytes(), 0);
}

#[test]
fn exports() {
    let refused = |rate: u32, samples: &[i32], room: usize| {
        let mut out = vec![77; room];
        let refusal = wave_export(rate, samples, &mut out).unwrap_err();
        assert!(out.iter().all(|&byte| byte == 77));
        refusal
    };
    // Each has the faults of those below it too, so that the order of the tests shows.
    let room = WAVE_HEADER_BYTES + 4;
    assert_eq!(refused(0, &vec![32_768; MAX_ELEMENTS + 1], 0), Refusal::TooLarge);
    assert_eq!(refused(0, &[32_768; 3], 0), Refusal::ListLength);
    assert_eq!(refused(0, &[32_768; 2], room - 1), Refusal::OutputTooShort);
    assert_eq!(refused(0, &[32_768; 2], room), Refusal::NotWave);
    assert_eq!(refused(MAX_RATE + 1, &[32_768; 2], room), Refusal::NotWave);
    assert_eq!(refused(MAX_RATE, &[32_767, 32_768], room), Refusal::SampleOutOfSpan);
    assert_eq!(refused(1, &[-32_769, -32_768], room), Refusal::SampleOutOfSpan);
}

#[test]
fn imports() {
    let refused = |file: &[u8], room: usize| {
        let mut samples = vec![77; room];
        let refusal = wave_import(file, &mut samples).unwrap_err();
        assert!(samples.iter().all(|&sample| sample == 77));
        refusal
    };
    let mut file = [0; WAVE_HEADER_BYTES + 4];
    wave_export(MAX_RATE, &[32_767, -32_768], &mut file).unwrap();
    assert_eq!(refused(&vec![0; MAX_WAVE_BYTES + 1], 1), Refusal::TooLarge);
    assert_eq!(refused(&file[1..], 1), Refusal::NotWave);
    assert_eq!(refused(&file, 1), Refusal::OutputTooShort);
}

#[test]
fn wide_recordings() {
    let refused = |info: Int32Info| {
        let (mut samples, mut literal) = ([4, 6], [77; 7]);
        let there = reassemble_int32(info, &mut samples, &literal);
        let back = deconstruct_int32(info, &mut samples, &mut literal);
        assert_eq!((samples, literal), ([4, 6], [77; 7]));
        [there, back].map(Result::unwrap_err)
    };
    let info = Int32Info { sent_bits: 31, zeros: 2, ..Int32Info::default() };
    assert_eq!(refused(Int32Info { dups: 32, ..info }), [Refusal::FieldAbove31; 2]);
    assert_eq!(refused(info), [Refusal::Truncated, Refusal::OutputTooShort]);
    // 6 does not end in two 0s.
    let (mut samples, mut literal) = ([4, 6], [77; 8]);
    assert_eq!(deconstruct_int32(info, &mut samples, &mut literal), Err(Refusal::NotReinsertable));
    assert_eq!((samples, literal), ([4, 6], [77; 8]));
}
