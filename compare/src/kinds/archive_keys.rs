//! Recordings that supersede others: every order of four, the same recording twice, near and far apart,
//! with other faults beside it; and files of thousands of recordings.
use super::archive_case::ArchiveRead;
use crate::archive_files::{ISSUES, Key, LENGTHS, faulty, key, recording, with_block};
use crate::case::{Failed, Run};
use crate::their_archives::{BLOCK, file};

/// Four recordings of which some have house and start second in common; in the last ones some are there
/// twice.
#[rustfmt::skip]
const FOURS: [[Key; 4]; 12] = [
    [(1, 1, 0), (1, 1, 1), (1, 1, 2), (1, 1, 3)],
    [(1, 1, 0), (1, 1, 255), (1, 1, 256), (1, 1, 65_535)],
    [(1, 1, 32_767), (1, 1, 32_768), (1, 1, 65_535), (1, 2, 0)],
    [(1, 1, 0), (1, 1, 1), (2, 1, 0), (2, 1, 1)],
    [(1, 1, 9), (1, 1, 10), (1, 2, 3), (1, 2, 4)],
    [(1, 1, 5), (1, 1, 4), (256, 1, 6), (1, 256, 7)],
    [(1, 1, 0), (1, 1 << 16, 1), (1, 1 << 24, 2), (1, (1 << 31) + 1, 3)],
    [(1, 2, 3), (1, 3, 2), (2, 1, 3), (3, 2, 1)],
    [(0, 0, 0), (0, 0, 1), (0, 1, 0), (1, 0, 0)],
    [(1, 1, 0), (1, 1, 0), (1, 1, 1), (2, 1, 0)],
    [(1, 1, 7), (1, 1, 7), (1, 2, 7), (1, 2, 7)],
    [(1, 1, 7), (1, 1, 7), (1, 1, 7), (1, 1, 8)],
];

/// The orders of four.
fn orders() -> impl Iterator<Item = [usize; 4]> {
    let all = (0..256).map(|set| [set & 3, set >> 2 & 3, set >> 4 & 3, set >> 6]);
    all.filter(|order| (0..4).all(|place| order.contains(&place)))
}

/// Every order of four, with payloads of other lengths each time.
fn every_order(run: &mut Run) -> Result<(), Failed> {
    for four in FOURS {
        for order in orders() {
            let random = &mut run.random;
            let all = order.map(|place| {
                let length = random.pick(&LENGTHS[..10]);
                recording(random, four[place], length)
            });
            let case = ArchiveRead::whole(file(&all));
            run.agree(ArchiveRead { rooms: case.rooms.map(|room| room.saturating_sub(1)), ..case.clone() })?;
            run.agree(case)?;
        }
    }
    Ok(())
}

/// The file of short recordings with these keys.
fn of_keys(run: &mut Run, keys: &[Key]) -> Vec<u8> {
    let random = &mut run.random;
    let short = |&key: &Key| {
        let length = random.below(30);
        recording(random, key, length)
    };
    file(&keys.iter().map(short).collect::<Vec<_>>())
}

/// With a last block that is cut, altered, or wrong under a right check.
fn bad_at_the_end(run: &mut Run, whole: &[u8]) -> Vec<Vec<u8>> {
    let (mut altered, last) = (whole.to_vec(), whole.len() / BLOCK - 1);
    altered[BLOCK * last + run.random.below(BLOCK)] ^= 1 << run.random.below(8);
    let others = faulty(&whole[BLOCK * last..]);
    let other = &others[run.random.below(others.len())];
    vec![altered, with_block(whole, last, other), whole[..whole.len() - 1].to_vec()]
}

/// The same house, start second and issue twice, next to each other and far apart: with plenty of
/// storage, with none, and with a bad block at the end.
fn twice(run: &mut Run) -> Result<(), Failed> {
    for count in [2, 3, 8, 63, 64, 65, 257] {
        let (half, last) = (count / 2, count - 1);
        for (first, second) in [(0, 1), (0, half), (0, last), (half, last), (last - 1, last)] {
            let mut keys: Vec<Key> = (0..count).map(|place| (1, place as u32, 2)).collect();
            keys[second] = keys[first];
            let whole = of_keys(run, &keys);
            let case = ArchiveRead::whole(whole.clone());
            run.agree(ArchiveRead { rooms: [0; 2], ..case.clone() })?;
            run.agree(case)?;
            for bad in bad_at_the_end(run, &whole) {
                run.agree(ArchiveRead::whole(bad))?;
            }
        }
    }
    Ok(())
}

/// The key of a recording by its place among so many.
type Shape = fn(usize, usize) -> Key;

/// A number below `most` that has little to do with the place, another for each.
fn scattered(place: usize, most: usize) -> u32 {
    // 7919 is prime and divides no number of recordings here.
    (place * 7_919 % most) as u32
}

/// All apart: in order, backwards and scattered. All of one house and second, likewise. Rivals half the
/// file apart, the later ones in force and the earlier ones. A last tenth that supersedes. The same one at
/// both ends, and twice at the end.
const SHAPES: [Shape; 11] = [
    |place, _| (3, place as u32, 0),
    |place, most| (3, (most - place) as u32, 0),
    |place, most| (place as u16 % 5, scattered(place, most), place as u16 % 3),
    |place, _| (9, 9, place as u16),
    |place, most| (9, 9, (most - place) as u16),
    |place, most| (9, 9, scattered(place, most) as u16),
    |place, most| (9, (place % (most / 2)) as u32, (2 * place / most) as u16),
    |place, most| (9, (place % (most / 2)) as u32, 5 - (2 * place / most) as u16),
    |place, most| (9, scattered(place % (most / 10 * 9), most), (10 * place / most) as u16 / 9),
    |place, most| (3, (place % (most - 1)) as u32, 0),
    |place, most| (9, 9, place.min(most - 2) as u16),
];

/// With storage that is one short, in the list and in the payloads, and with longer storage.
fn rooms(run: &mut Run, case: &ArchiveRead) -> Result<(), Failed> {
    let [list, payloads] = case.rooms;
    let [fewer, less] = case.rooms.map(|room| room.saturating_sub(1));
    for rooms in [[fewer, payloads], [list, less], [list + 100, payloads + 100]] {
        run.agree(ArchiveRead { rooms, ..case.clone() })?;
    }
    Ok(())
}

/// A thousand recordings in every shape, with other storage too, and three thousand.
fn thousands(run: &mut Run) -> Result<(), Failed> {
    for shape in SHAPES {
        for count in [1_000, 3_000] {
            let keys: Vec<Key> = (0..count).map(|place| shape(place, count)).collect();
            let case = ArchiveRead::whole(of_keys(run, &keys));
            if count == 1_000 {
                rooms(run, &case)?;
            }
            run.agree(case)?;
        }
    }
    Ok(())
}

/// The most recordings, in three of the shapes.
fn most(run: &mut Run) -> Result<(), Failed> {
    let count = 20_000;
    for place in [5, 8, 9] {
        let keys: Vec<Key> = (0..count).map(|recording| SHAPES[place](recording, count)).collect();
        let file = of_keys(run, &keys);
        run.agree(ArchiveRead { file, rooms: [4 * count, 30 * count], slots: 2 })?;
    }
    Ok(())
}

/// Many recordings of few houses, seconds and issues, of which none is there twice.
fn few_keys(run: &mut Run) -> Result<(), Failed> {
    for _ in 0..300 * run.scale {
        let random = &mut run.random;
        let count = 1 + random.below(80);
        let mut keys: Vec<Key> = (0..count).map(|_| key(random, ISSUES.len())).collect();
        keys.sort_unstable();
        keys.dedup();
        for place in 1..keys.len() {
            keys.swap(place, random.below(place + 1));
        }
        let whole = of_keys(run, &keys);
        run.agree(ArchiveRead::whole(whole))?;
    }
    Ok(())
}

pub fn run(run: &mut Run) -> Result<(), Failed> {
    every_order(run)?;
    twice(run)?;
    few_keys(run)?;
    thousands(run)?;
    most(run)
}
