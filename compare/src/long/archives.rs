//! Damaged archive files of packed recordings, and packed recordings written as such files.
use super::damage;
use super::packs::room_near;
use super::reads::slots_near;
use super::recordings::Recordings;
use crate::archive_files::{ISSUES, key, length, mend, rearranged};
use crate::kinds::archive_case::ArchiveRead;
use crate::kinds::archive_writes::ArchiveWrite;
use crate::random::Random;
use crate::their_archives::{BLOCK, MAX_PAYLOAD, Recording, file, file_bytes};

/// A packed recording, at times repeated up to about where a block ends, since most are shorter than a
/// block; with one of the first so many houses, seconds and issues.
fn recording(random: &mut Random, from: &Recordings, most: usize) -> Recording {
    let packed = &from.pick(random).payload;
    let length = if random.once_in(3) { length(random) } else { packed.len().min(MAX_PAYLOAD) };
    let (house, start, issue) = key(random, most);
    Recording { house, start, issue, payload: packed.iter().copied().cycle().take(length).collect() }
}

pub fn write(random: &mut Random, from: &Recordings) -> ArchiveWrite {
    let mut recording = recording(random, from, ISSUES.len());
    damage::bytes(random, &mut recording.payload);
    if random.once_in(20_000) {
        recording.payload.resize(MAX_PAYLOAD + random.below(2), 0xff);
    }
    let room = room_near(random, file_bytes(recording.payload.len()));
    ArchiveWrite { recording, room, slots: slots_near(random, 1) }
}

/// A file of recordings: damaged anywhere, damaged under right checks, with blocks in other places, cut
/// near the end of a block, or whole.
fn damaged(random: &mut Random, from: &Recordings) -> Vec<u8> {
    let (count, most) = (random.below(7), 2 + random.below(ISSUES.len()));
    let all: Vec<Recording> = (0..count).map(|_| recording(random, from, most)).collect();
    let mut whole = file(&all);
    match random.below(12) {
        0 => damage::bytes(random, &mut whole),
        1 | 2 => {
            damage::bytes(random, &mut whole);
            whole.chunks_mut(BLOCK).for_each(mend);
        }
        3..6 if count > 0 => whole = rearranged(random, &whole),
        6 => {
            let edge = BLOCK * random.below(whole.len() / BLOCK + 1);
            whole.truncate((edge + random.below(5)).saturating_sub(2));
        }
        _ => {}
    }
    whole
}

pub fn read(random: &mut Random, from: &Recordings) -> ArchiveRead {
    let length = random.below(3 * BLOCK);
    let file = if random.once_in(32) { random.bytes(length) } else { damaged(random, from) };
    let ArchiveRead { file, rooms, .. } = ArchiveRead::whole(file);
    ArchiveRead { file, rooms: rooms.map(|room| room_near(random, room)), slots: slots_near(random, 2) }
}
