//! Archives against a plain statement of their rules (`archive_rules`): payloads of the lengths around
//! whole blocks up to the longest, every byte altered, blocks altered with a right check, left out,
//! doubled and exchanged, files cut anywhere, issues in every order, equal keys, and storage one short.
#[path = "../examples/archive_fault/mod.rs"]
mod archive_fault;
mod archive_rules;
mod random;

use archive_fault::fault;
use archive_rules::{MARK, Stored, archive_of, blocks_of, compare, compare_written, put_right, read_into};
use archive_rules::{stated, stored};
use random::Random;
use wavpack_stereo::{ArchiveError, MAX_PAYLOAD_BYTES, Refusal, archive_bytes, archive_read, archive_write};

impl Random {
    fn bytes(&mut self, length: usize) -> Vec<u8> {
        self.numbers(length).iter().map(|&number| number as u8).collect()
    }
}

fn refused(refusal: Refusal) -> ArchiveError {
    ArchiveError { refusal, bad_block: None }
}

fn bad(block: usize) -> ArchiveError {
    ArchiveError { refusal: Refusal::BadBlock, bad_block: Some(block) }
}

/// Three recordings of 1, 3 and 1 blocks; the last supersedes the first.
fn several() -> Vec<Stored> {
    let mut random = Random(20_261_123);
    let (short, long) = (random.bytes(7), random.bytes(1_100));
    vec![stored(3, 86_400, 0, &short), stored(65_535, u32::MAX, 9, &long), stored(3, 86_400, 1, b"again")]
}

#[test]
fn a_block_by_hand() {
    let recording = stored(0x0102, 0x0304_0506, 0x0708, &[5, 6]);
    let mut block = vec![0; 512];
    block[..18].copy_from_slice(&[0, 0, 14, 0, 2, 1, 6, 5, 4, 3, 8, 7, 2, 0, 0, 0, 5, 6]);
    // 3 * 14, 5 * 2 + 6 * 1, 7 * 6 + 8 * 5 + 9 * 4 + 10 * 3, 11 * 8 + 12 * 7, 13 * 2, 17 * 5 + 18 * 6.
    block[508..510].copy_from_slice(&u16::to_le_bytes(42 + 16 + 148 + 172 + 26 + 193));
    assert_eq!(blocks_of(&recording), block);
    assert_eq!(compare_written(&recording, 3), block);
    assert_eq!(compare(&block), Ok(vec![recording]));
    assert_eq!(compare(&[]), Ok(vec![]));
}

#[test]
fn lengths_around_whole_blocks() {
    let most = MAX_PAYLOAD_BYTES;
    let lengths = [0, 1, 2, 491, 492, 493, 995, 996, 997, 1_500, 65_535, 65_536, most - 1, most];
    let blocks = [1, 1, 1, 1, 1, 2, 2, 2, 3, 3, 131, 131, 8_323, 8_323];
    let mut random = Random(20_261_124);
    for (room, (length, blocks)) in lengths.into_iter().zip(blocks).enumerate() {
        let recording = stored(room as u16, 9, 65_535, &random.bytes(length));
        let file = compare_written(&recording, 100 * room);
        assert_eq!(file.len(), 512 * blocks, "{length} bytes");
        assert_eq!(stated(&file), Ok(vec![recording.clone()]), "{length} bytes");
        assert!(read_into(&file, 1, length) == Ok(vec![recording]), "{length} bytes");
        if length > 0 {
            assert_eq!(read_into(&file, 1, length - 1), Err(refused(Refusal::OutputTooShort)));
        }
    }
    // Blocks that are right but for a payload of one byte more.
    let over = blocks_of(&stored(1, 2, 3, &vec![0; most + 1]));
    assert_eq!(compare(&over), Err(bad(0)));
    // The payload is refused before the storage.
    for room in [0, archive_bytes(most), archive_bytes(most + 1)] {
        let mut out = vec![MARK; room];
        assert_eq!(archive_write(1, 2, 3, &vec![0; most + 1], &mut out), Err(Refusal::TooLarge));
        assert!(out.iter().all(|&byte| byte == MARK), "{room} bytes");
    }
}

#[test]
fn every_byte_altered_is_refused_with_its_block() {
    let mut file = archive_of(&several());
    assert_eq!(compare(&file), Ok(several()[1..].to_vec()));
    let (mut list, mut payloads) = ([[MARK.into(); 4]; 5], vec![MARK; file.len()]);
    for at in 0..file.len() {
        for change in 1..=255 {
            file[at] ^= change;
            let error = archive_read(&file, &mut list, &mut payloads).unwrap_err();
            assert_eq!(error, bad(at / 512), "byte {at} by {change}");
            file[at] ^= change;
        }
    }
    assert!(list == [[MARK.into(); 4]; 5] && payloads == vec![MARK; file.len()]);
}

#[test]
fn bytes_altered_under_a_right_check() {
    let file = archive_of(&several());
    let (mut accepted, mut bad_blocks) = (0, 0);
    for (at, value) in (0..file.len()).flat_map(|at| [0, 1, 65, 255].map(|value| (at, value))) {
        let mut altered = file.clone();
        if at % 512 < 508 {
            altered[at] = value;
            put_right(&mut altered[at / 512 * 512..][..512]);
            match compare(&altered) {
                Err(error) => bad_blocks += usize::from(error.bad_block.is_some()),
                Ok(_) => accepted += 1,
            }
        }
    }
    assert!(accepted > 3_000 && bad_blocks > 3_000, "{accepted} accepted, {bad_blocks} with a bad block");
}

#[test]
fn files_cut_anywhere() {
    let file = archive_of(&several());
    for length in 0..=file.len() {
        let answer = compare(&file[..length]);
        match length {
            0 | 512 | 2_048 | 2_560 => assert!(answer.is_ok(), "{length} bytes"),
            _ => assert_eq!(answer, Err(bad((length - 1) / 512)), "{length} bytes"),
        }
    }
    // A block of zeros has a right check and uses no byte.
    for more in 1..514 {
        let longer = [&file[..], &vec![0; more]].concat();
        assert_eq!(compare(&longer), Err(bad(5)), "{more} bytes more");
    }
}

#[test]
fn blocks_left_out_doubled_and_exchanged() {
    let file = archive_of(&several());
    let blocks: Vec<&[u8]> = file.chunks(512).collect();
    let (mut accepted, mut twice) = (0, 0);
    for count in 0..=6 {
        for order in 0..5_usize.pow(count) {
            let other: Vec<u8> =
                (0..count).flat_map(|place| blocks[order / 5_usize.pow(place) % 5]).copied().collect();
            match compare(&other) {
                Err(error) => twice += usize::from(error.refusal == Refusal::RecordingTwice),
                Ok(_) => accepted += 1,
            }
        }
    }
    // None, one, two or all three recordings, in any order.
    assert_eq!(accepted, 1 + 3 + 6 + 6);
    // 2 to 6 of the two short recordings, but for two different ones; the long one anywhere among 2 or 3
    // such; and the long one twice.
    assert_eq!(twice, (4 - 2) + 8 + 16 + 32 + 64 + 3 * (4 - 2) + 4 * 8 + 1);
}

#[test]
fn issues_in_every_order() {
    let issues = [0, 1, 2, 65_535];
    for order in (0..256).map(|i| [i % 4, i / 4 % 4, i / 16 % 4, i / 64]) {
        // Between them the same issues of other houses and start seconds.
        let of = |house, start| order.map(|at| stored(house, start, issues[at], &[at as u8; 3])).to_vec();
        let (ours, house, start) = (of(3, 50), of(4, 50), of(3, 51));
        let all: Vec<Stored> = (0..4).flat_map(|i| [&ours[i], &house[3 - i], &start[i]]).cloned().collect();
        let permuted = (0..4).all(|at| order.contains(&at));
        match compare(&archive_of(&all)) {
            Ok(in_force) => {
                assert!(permuted && in_force.len() == 3, "{order:?}");
                assert!(in_force.iter().all(|recording| recording.issue == 65_535), "{order:?}");
            }
            error => assert!(!permuted && error == Err(refused(Refusal::RecordingTwice)), "{order:?}"),
        }
    }
}

#[test]
fn equal_keys_come_after_bad_blocks_and_before_storage() {
    let [first, second] = [stored(1, 2, 3, b"one"), stored(1, 2, 3, b"other")];
    for (other, is_twice) in [
        (second.clone(), true),
        (Stored { key: (2, 2), ..second.clone() }, false),
        (Stored { key: (1, 3), ..second.clone() }, false),
        (Stored { issue: 4, ..second.clone() }, false),
    ] {
        // A higher issue between them changes nothing.
        let mut file = archive_of(&[first.clone(), stored(1, 2, 9, b""), other]);
        let short = if is_twice { Refusal::RecordingTwice } else { Refusal::OutputTooShort };
        assert_eq!(compare(&file).is_err(), is_twice);
        assert_eq!(read_into(&file, 0, 0), Err(refused(short)));
        file[1_300] ^= 1;
        assert_eq!(compare(&file), Err(bad(2)));
        assert_eq!(read_into(&file, 0, 0), Err(bad(2)));
    }
}

#[test]
fn storage_one_short() {
    let recordings = several();
    let file = archive_of(&recordings);
    let (room, bytes) = (2, recordings[1].payload.len() + recordings[2].payload.len());
    assert_eq!(read_into(&file, room, bytes), Ok(recordings[1..].to_vec()));
    for (room, bytes) in [(room - 1, bytes), (room, bytes - 1), (room - 1, bytes - 1), (0, bytes), (room, 0)]
    {
        assert_eq!(read_into(&file, room, bytes), Err(refused(Refusal::OutputTooShort)));
    }
}

#[test]
fn random_archives() {
    let mut random = Random(20_261_125);
    let (mut accepted, mut twice) = (0, 0);
    for round in 0..600 {
        let recordings: Vec<Stored> = (0..random.below(9))
            .map(|_| {
                let key = [random.below(2), random.below(3), random.below(4)];
                let length = random.below([20, 600, 3_000][round % 3]);
                stored(key[0] as u16, key[1] as u32, key[2] as u16, &random.bytes(length))
            })
            .collect();
        let written = recordings.iter().flat_map(|recording| compare_written(recording, round % 5));
        match compare(&written.collect::<Vec<u8>>()) {
            Err(error) => twice += usize::from(error.refusal == Refusal::RecordingTwice),
            Ok(_) => accepted += 1,
        }
    }
    assert!(accepted > 100 && twice > 100 && accepted + twice == 600, "{accepted} accepted, {twice} twice");
}

#[test]
fn the_example_says_why_a_block_is_bad() {
    let file = archive_of(&several());
    let said = |block: usize, altered: &[(usize, u8)], length: usize| {
        let mut file = file.clone();
        altered.iter().for_each(|&(at, value)| file[512 * block + at] = value);
        put_right(&mut file[512 * block..][..512]);
        file.truncate(length);
        assert_eq!(compare(&file), Err(bad(block)));
        fault(&file, block).map(|fault| fault.to_string()).unwrap_or_default()
    };
    assert_eq!(said(2, &[], 1_100), "it has 76 bytes, where a block has 512");
    assert_eq!(said(2, &[], 1_536), "the file ends after it, and 104 bytes of its recording are missing");
    assert_eq!(said(2, &[(0, 3)], 2_560), "it is numbered 3, where 1 is due");
    assert_eq!(said(2, &[(2, 9)], 2_560), "it uses 265 data bytes, where 504 are due");
    assert_eq!(said(3, &[(400, 5)], 2_560), "its byte 400 is 5, where 0 has to follow the used bytes");
    let long = "it announces 4194560 payload bytes, over the limit of 4194304";
    assert_eq!(said(4, &[(12, 0), (13, 1), (14, 64)], 2_560), long);
    let mut wrong = file.clone();
    wrong[508] ^= 1;
    assert_eq!(compare(&wrong), Err(bad(0)));
    let [stored, due] = [&wrong, &file].map(|file| u32::from_le_bytes(file[508..512].try_into().unwrap()));
    let check = format!("its check is {stored}, where its bytes ask for {due}");
    assert_eq!(fault(&wrong, 0).map(|fault| fault.to_string()), Some(check));
}
