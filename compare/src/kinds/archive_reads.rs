//! Archive files read: cut at every length, one thing wrong in each block under a right check, blocks
//! left out, doubled and exchanged, every set of faults, and payloads and storage around each limit.
use super::archive_case::ArchiveRead;
use crate::archive_files::{
    LENGTHS, eight_blocks, faulty, key, rearranged, recording, recordings, with_block,
};
use crate::case::{Failed, Run};
use crate::random::Random;
use crate::their_archives::{BLOCK, MAX_PAYLOAD, file};

/// A file cut at every length, and made longer by up to a block, of zeros and of random bytes.
fn every_length(run: &mut Run) -> Result<(), Failed> {
    let whole = eight_blocks(&mut run.random);
    for length in 0..=whole.len() {
        run.agree(ArchiveRead::whole(whole[..length].to_vec()))?;
    }
    for length in [1, 2, 3, 510, 511, 512, 513] {
        for more in [vec![0; length], run.random.bytes(length)] {
            run.agree(ArchiveRead::whole([&whole[..], &more].concat()))?;
        }
    }
    Ok(())
}

/// One thing wrong in each block.
fn every_fault(run: &mut Run) -> Result<(), Failed> {
    let whole = eight_blocks(&mut run.random);
    for (place, block) in whole.chunks(BLOCK).enumerate() {
        for other in faulty(block) {
            run.agree(ArchiveRead::whole(with_block(&whole, place, &other)))?;
            // The same block as the last of its file.
            run.agree(ArchiveRead::whole([&whole[..BLOCK * place], &other].concat()))?;
        }
    }
    Ok(())
}

/// Each block left out; each put before each other one once more; each two exchanged; and the same
/// from a second file.
fn every_order(run: &mut Run) -> Result<(), Failed> {
    let (whole, other) = (eight_blocks(&mut run.random), eight_blocks(&mut run.random));
    let (blocks, others): (Vec<&[u8]>, Vec<&[u8]>) =
        (whole.chunks(BLOCK).collect(), other.chunks(BLOCK).collect());
    for from in 0..blocks.len() {
        let mut without = blocks.clone();
        without.remove(from);
        run.agree(ArchiveRead::whole(without.concat()))?;
        for to in 0..blocks.len() {
            let (mut twice, mut exchanged, mut foreign) = (blocks.clone(), blocks.clone(), blocks.clone());
            twice.insert(to, blocks[from]);
            exchanged.swap(from, to);
            foreign[to] = others[from];
            for blocks in [twice, exchanged, foreign] {
                run.agree(ArchiveRead::whole(blocks.concat()))?;
            }
        }
    }
    Ok(())
}

/// Storage around what a file asks for: list and payloads, one short, just long enough and longer, with
/// up to 3 slots.
fn rooms(run: &mut Run, file: Vec<u8>) -> Result<(), Failed> {
    let case = ArchiveRead::whole(file);
    let around = |room: usize| [room.saturating_sub(1), room, room + 1];
    for list in around(case.rooms[0]) {
        for payloads in around(case.rooms[1]) {
            for slots in 0..=3 {
                run.agree(ArchiveRead { rooms: [list, payloads], slots, ..case.clone() })?;
            }
        }
    }
    Ok(())
}

/// Payloads at the ends of each rule: alone, and between others; the one that is too long is whole, under
/// right checks. The longest have fewer kinds of storage.
fn lengths(run: &mut Run) -> Result<(), Failed> {
    rooms(run, Vec::new())?;
    for length in LENGTHS {
        let keys = [(40, 1), (length, 2), (600, 3)];
        let all = keys.map(|(length, start)| recording(&mut run.random, (2, start, 1), length));
        let between = ArchiveRead::whole(file(&all));
        if length < MAX_PAYLOAD - 1 {
            rooms(run, file(&all[1..2]))?;
        } else {
            let [list, payloads] = between.rooms;
            run.agree(ArchiveRead { rooms: [list - 1, payloads], ..between.clone() })?;
            run.agree(ArchiveRead { rooms: [list, payloads - 1], ..between.clone() })?;
            run.agree(ArchiveRead::whole(file(&all[1..2])))?;
        }
        run.agree(between)?;
    }
    let all = eight_blocks(&mut run.random);
    rooms(run, all)
}

/// Every set of faults at once: too few slots, a bad block in front or at the end, a recording twice, a
/// short list, short storage for payloads.
fn fault_sets(run: &mut Run) -> Result<(), Failed> {
    for set in 0..64 {
        let [slot, first, last, twice, list, payloads] = std::array::from_fn(|fault| set >> fault & 1 == 1);
        let keys = [(1, 2, 3), (1, 2, 4), (5, 2, 3), (1, 2, if twice { 3 } else { 5 })];
        let all = keys.map(|key| recording(&mut run.random, key, 300));
        let asked = if twice { 2 } else { 3 };
        let mut case = ArchiveRead { file: file(&all), rooms: [4 * asked, 300 * asked], slots: 2 };
        let end = case.file.len() - 1;
        case.slots -= usize::from(slot);
        case.file[9] ^= u8::from(first);
        case.file[end] ^= u8::from(last);
        case.rooms[0] -= usize::from(list);
        case.rooms[1] -= usize::from(payloads);
        run.agree(case)?;
    }
    Ok(())
}

/// A file of many blocks with a bad one far behind, and the longest recording with one.
fn far_behind(run: &mut Run) -> Result<(), Failed> {
    let longest = recording(&mut run.random, (1, 1, 1), MAX_PAYLOAD).blocks();
    let places = [0, 1, 254, 255, 256, 257, 4_095, 4_096, 8_321, 8_322];
    for place in places {
        let block = &longest[BLOCK * place..][..BLOCK];
        let others = faulty(block);
        let other = &others[run.random.below(others.len())];
        run.agree(ArchiveRead::whole(with_block(&longest, place, other)))?;
        run.agree(ArchiveRead::whole(longest[..BLOCK * place].to_vec()))?;
    }
    Ok(())
}

/// A file of few recordings, at times with one thing that is refused.
fn random_read(random: &mut Random) -> ArchiveRead {
    let count = if random.once_in(32) { random.below(60) } else { random.below(8) };
    let mut whole = file(&recordings(random, count));
    match random.below(10) {
        0 if count > 0 => whole = rearranged(random, &whole),
        1 if count > 0 => whole[random.below(count * BLOCK)] ^= 1 << random.below(8),
        2 => whole.truncate(random.below(count * BLOCK + 1)),
        3 => {
            let key = key(random, 2);
            whole.extend(recording(random, key, 3).blocks());
        }
        _ => {}
    }
    let mut case = ArchiveRead::whole(whole);
    match random.below(12) {
        0 => case.rooms[0] = random.below(case.rooms[0] + 3),
        1 => case.rooms[1] = random.below(case.rooms[1] + 40),
        2 => case.slots = random.below(4),
        _ => case.rooms = case.rooms.map(|room| room + random.below(20)),
    }
    case
}

pub fn run(run: &mut Run) -> Result<(), Failed> {
    every_length(run)?;
    for _ in 0..4 * run.scale {
        every_fault(run)?;
        every_order(run)?;
    }
    lengths(run)?;
    fault_sets(run)?;
    far_behind(run)?;
    for _ in 0..40_000 * run.scale {
        let case = random_read(&mut run.random);
        run.agree(case)?;
    }
    Ok(())
}
