//! Log words past the format's reach, of 8192 or more or of -8192 or less: refused exactly there, after
//! 1 and before 2, with the lent lists as they were.
mod marks;

use marks::{unpacked, unread};
use wavpack_stereo::{BYTES_PER_FRAME, MAX_FRAMES, MAX_PAYLOAD_BYTES, Refusal};
use wavpack_stereo::{WordState, entropy, log_word, pack, read};

const PAST: [i16; 4] = [8192, -8192, i16::MAX, i16::MIN];
/// The value of 8191.
const LARGEST: i32 = 2_143_289_344;
/// The second is outside the span of residuals.
const LOUD: [i32; 2] = [3, 1_879_048_192];
const PAYLOAD: [u8; 2] = [0x7e, 0x02];

/// The entropy payload of six log words: one at its place, and another in all others.
fn payload(place: usize, word: i16, others: i16) -> [u8; 12] {
    let mut bytes = [0; 12];
    for (i, pair) in bytes.chunks_exact_mut(2).enumerate() {
        pair.copy_from_slice(&(if i == place { word } else { others }).to_le_bytes());
    }
    bytes
}

/// The value of a log word within reach: its low byte is a fraction of the exponent of 2, rounded to
/// 256ths of the power, and what is below 1 is cut off.
fn value(word: i16) -> i32 {
    let (whole, fraction) = (word.unsigned_abs() / 256, word.unsigned_abs() % 256);
    let mantissa = ((f64::from(fraction) / 256.0).exp2() * 256.0).round() as i64;
    let size = i32::try_from((mantissa << whole) >> 9).expect("a value of 32 bits");
    if word < 0 { -size } else { size }
}

#[test]
fn log_words() {
    let mut refused = 0;
    for word in i16::MIN..=i16::MAX {
        if word >= 8192 || word <= -8192 {
            assert_eq!(log_word(word), Err(Refusal::LogWordOutOfReach), "{word}");
            refused += 1;
        } else {
            assert_eq!(log_word(word), Ok(value(word)), "{word}");
        }
    }
    assert_eq!(refused, 49_153);
    assert_eq!([8191, -8191].map(log_word), [Ok(LARGEST), Ok(-LARGEST)]);
}

#[test]
fn entropy_payloads() {
    for length in 0..20 {
        // Words of 8224, and for an odd length half a word more.
        let whole = length == 6 || length == 12;
        let refusal = if whole { Refusal::LogWordOutOfReach } else { Refusal::EntropyLength };
        assert_eq!(entropy(&[32; 20][..length]), Err(refusal));
        assert_eq!(WordState::from_entropy(&[32; 20][..length]), Err(refusal));
    }
    for place in 0..6 {
        for payload in PAST.map(|word| payload(place, word, -256)) {
            assert_eq!(entropy(&payload), Err(Refusal::LogWordOutOfReach));
            // 6 bytes are refused for their own three words.
            let mono = if place < 3 { Err(Refusal::LogWordOutOfReach) } else { Ok([[-1; 3], [0; 3]]) };
            assert_eq!(entropy(&payload[..6]), mono);
        }
        for (word, median) in [(8191, LARGEST), (-8191, -LARGEST)] {
            let mut medians = [[1; 3]; 2];
            medians[place / 3][place % 3] = median;
            assert_eq!(entropy(&payload(place, word, 256)), Ok(medians));
        }
    }
}

/// An entropy payload as reading, packing and a fresh word state take it, with no other fault before.
fn unseeded(entropy: &[u8]) -> Refusal {
    let refusal = unread(entropy, &PAYLOAD, 1, 2);
    assert_eq!(unread(entropy, &[], 0, 0), refusal);
    assert_eq!(unpacked(&[3, -1], entropy, 1, BYTES_PER_FRAME), refusal);
    assert_eq!(unpacked(&[], entropy, 0, 0), refusal);
    assert_eq!(WordState::from_entropy(entropy), Err(refusal));
    refusal
}

#[test]
fn each_word_of_a_recording() {
    for place in 0..6 {
        for word in PAST {
            // With a negative median, or mono, it is still out of reach.
            assert_eq!(unseeded(&payload(place, word, 256)), Refusal::LogWordOutOfReach);
            assert_eq!(unseeded(&payload(place, word, -256)), Refusal::LogWordOutOfReach);
            let mono = if place < 3 { Refusal::LogWordOutOfReach } else { Refusal::NotStereo };
            assert_eq!(unseeded(&payload(place, word, 256)[..6]), mono);
        }
        assert_eq!(unseeded(&payload(place, -8191, 256)), Refusal::NotStereo);
        let mut medians = [[1; 3]; 2];
        medians[place / 3][place % 3] = LARGEST as u32;
        assert_eq!(WordState::from_entropy(&payload(place, 8191, 256)), Ok(WordState::new(medians)));
    }
}

#[test]
fn the_largest_medians_come_back() -> Result<(), Refusal> {
    let entropy = payload(0, 8191, 8191);
    let residuals = [1_879_048_191, -1_879_048_192, 0, -1];
    let (mut out, mut samples) = ([77; 2 * BYTES_PER_FRAME], [77; 4]);
    let packed = pack(&residuals, &entropy, 2, &mut out)?;
    let reading = read(&entropy, &out[..packed.bytes()], 2, &mut samples)?;
    assert_eq!(
        (samples, reading.bits_used, reading.medians),
        (residuals, packed.bits_written, packed.medians)
    );
    Ok(())
}

// In the two below each line has the faults of those under it too, so that the order of the tests shows.
#[test]
fn readings_in_order() {
    let (worn, negative) = (payload(0, 8192, -256), payload(0, 8191, -256));
    assert_eq!(unread(&worn[..11], &[], MAX_FRAMES + 1, 0), Refusal::TooLarge);
    assert_eq!(unread(&worn[..11], &vec![0; MAX_PAYLOAD_BYTES + 1], 1, 3), Refusal::TooLarge);
    assert_eq!(unread(&worn[..11], &[], 1, 3), Refusal::ListLength);
    assert_eq!(unread(&worn[..11], &[], 1, 2), Refusal::EntropyLength);
    assert_eq!(unread(&worn, &[], 1, 2), Refusal::LogWordOutOfReach);
    assert_eq!(unread(&worn[..6], &[], 1, 2), Refusal::LogWordOutOfReach);
    assert_eq!(unread(&negative, &[], 1, 2), Refusal::NotStereo);
    assert_eq!(unread(&negative[..6], &[], 1, 2), Refusal::NotStereo);
    // Only after these is a word read, and then the medians are reported.
    let error = read(&payload(0, 8191, 8191), &[], 1, &mut [77; 2]).unwrap_err();
    assert_eq!((error.refusal, error.reading.medians), (Refusal::Truncated, [[LARGEST as u32; 3]; 2]));
}

#[test]
fn packings_in_order() {
    let (worn, negative, largest) = (payload(0, 8192, -256), payload(0, 8191, -256), payload(0, 8191, 8191));
    assert_eq!(unpacked(&LOUD[1..], &worn[..11], MAX_FRAMES + 1, 0), Refusal::TooLarge);
    assert_eq!(unpacked(&LOUD[1..], &worn[..11], 1, 27), Refusal::ListLength);
    assert_eq!(unpacked(&LOUD, &worn[..11], 1, 27), Refusal::EntropyLength);
    assert_eq!(unpacked(&LOUD, &worn, 1, 27), Refusal::LogWordOutOfReach);
    assert_eq!(unpacked(&LOUD, &worn[..6], 1, 27), Refusal::LogWordOutOfReach);
    assert_eq!(unpacked(&LOUD, &negative, 1, 27), Refusal::NotStereo);
    assert_eq!(unpacked(&LOUD, &negative[..6], 1, 27), Refusal::NotStereo);
    assert_eq!(unpacked(&LOUD, &largest, 1, 27), Refusal::OutputTooShort);
    assert_eq!(unpacked(&LOUD, &largest, 1, 28), Refusal::ResidualOutOfSpan);
}
