//! Archive files to read: recordings of few houses and seconds, and blocks that have one thing wrong
//! under a right check.
use crate::random::Random;
use crate::their_archives::{BLOCK, CHECK, DATA, HEADER, MAX_PAYLOAD, Recording, check, file, number};

/// Payload lengths around the ends of a recording's first and second block, up to the longest.
pub const LENGTHS: [usize; 13] =
    [0, 1, 2, 491, 492, 493, 494, 995, 996, 997, MAX_PAYLOAD - 1, MAX_PAYLOAD, MAX_PAYLOAD + 1];

/// Houses, start seconds and issues: at their ends, and such that are told apart by one byte only.
pub const HOUSES: [u16; 5] = [0, 1, 256, 257, u16::MAX];
pub const STARTS: [u32; 7] = [0, 1, 256, 1 << 16, (1 << 16) + 1, 1 << 24, u32::MAX];
pub const ISSUES: [u16; 7] = [0, 1, 2, 255, 256, u16::MAX - 1, u16::MAX];

/// House, start second and issue.
pub type Key = (u16, u32, u16);

/// A recording with a random payload.
pub fn recording(random: &mut Random, (house, start, issue): Key, length: usize) -> Recording {
    Recording { house, start, issue, payload: random.bytes(length) }
}

/// A house, a start second and an issue of the first so many of each.
pub fn key(random: &mut Random, most: usize) -> Key {
    let (houses, starts, issues) = (most.min(HOUSES.len()), most.min(STARTS.len()), most.min(ISSUES.len()));
    (random.pick(&HOUSES[..houses]), random.pick(&STARTS[..starts]), random.pick(&ISSUES[..issues]))
}

/// A payload length: mostly short, at times about one or two blocks.
pub fn length(random: &mut Random) -> usize {
    match random.below(8) {
        0 => random.pick(&LENGTHS[3..10]),
        1 => random.below(3 * DATA),
        _ => random.below(40),
    }
}

/// Recordings of two, three or more houses and seconds.
pub fn recordings(random: &mut Random, count: usize) -> Vec<Recording> {
    let most = 2 + random.below(ISSUES.len());
    let made = |random: &mut Random| {
        let (key, length) = (key(random, most), length(random));
        recording(random, key, length)
    };
    (0..count).map(|_| made(random)).collect()
}

/// A file of eight blocks: recordings of one, two and three blocks, of which the second and the third
/// are superseded, one from behind and one from before.
pub fn eight_blocks(random: &mut Random) -> Vec<u8> {
    let kinds = [
        ((7, 70_000, 1), 600),
        ((7, 80_000, 5), 492),
        ((7, 70_000, 0), 30),
        ((8, 70_000, 0), 1_200),
        ((7, 80_000, 6), 0),
    ];
    file(&kinds.map(|(key, length)| recording(random, key, length)))
}

/// Makes the check of a block right.
pub fn mend(block: &mut [u8]) {
    if block.len() == BLOCK {
        let right = check(&block[..CHECK]);
        block[CHECK..].copy_from_slice(&right.to_le_bytes());
    }
}

/// A field of the block, its place and its bytes, with these numbers instead of its own.
fn with_field(block: &[u8], at: usize, bytes: usize, instead: &[usize]) -> Vec<Vec<u8>> {
    let others = instead.iter().filter(|&&instead| instead != number(&block[at..at + bytes]));
    let with = |&instead: &usize| {
        let mut other = block.to_vec();
        other[at..at + bytes].copy_from_slice(&instead.to_le_bytes()[..bytes]);
        other
    };
    others.map(with).collect()
}

/// Bytes of the filling that are not zero, the first and the last among them.
fn with_filling(block: &[u8]) -> Vec<Vec<u8>> {
    let first = 4 + number(&block[2..4]).min(DATA);
    let places = [first, first + 1, first.midpoint(CHECK), CHECK - 2, CHECK - 1];
    let places = places.into_iter().filter(|place| (first..CHECK).contains(place));
    let with = |(place, byte): (usize, u8)| {
        let mut other = block.to_vec();
        other[place] = byte;
        other
    };
    places.flat_map(|place| [1, 128, 255].map(|byte| with((place, byte)))).collect()
}

/// One byte less used, and that byte zero as a filling is.
fn one_less(block: &[u8]) -> Option<Vec<u8>> {
    let used = number(&block[2..4]).checked_sub(1)?;
    let mut other = block.to_vec();
    other[2..4].copy_from_slice(&(used as u16).to_le_bytes());
    *other.get_mut(4 + used)? = 0;
    Some(other)
}

/// The block with another number, count, filling or announced length, each under a right check: only
/// that rule can find it.
pub fn faulty(block: &[u8]) -> Vec<Vec<u8>> {
    let near = |number: usize| [number.wrapping_sub(1), number + 1, number ^ 256];
    let (place, used) = (number(&block[..2]), number(&block[2..4]));
    let announced = number(&block[12..16]);
    let numbers = [&near(place)[..], &[0, 1, 2, 0xffff]].concat();
    let counts = [&near(used)[..], &[0, 1, 11, 12, 13, 503, 504, 505, 506, 512, 1016, 0xffff]].concat();
    let limits =
        [MAX_PAYLOAD - 1, MAX_PAYLOAD, MAX_PAYLOAD + 1, MAX_PAYLOAD + DATA, 1 << 31, u32::MAX as usize];
    let blocks =
        [announced + DATA, announced.wrapping_sub(DATA), announced ^ (1 << 16), announced ^ (1 << 24)];
    let lengths = [&near(announced)[..], &limits, &blocks, &[0, DATA - HEADER]].concat();
    let mut all = [
        with_field(block, 0, 2, &numbers),
        with_field(block, 2, 2, &counts),
        with_field(block, 12, 4, &lengths),
        with_filling(block),
    ]
    .concat();
    all.extend(one_less(block));
    all.iter_mut().for_each(|block| mend(block));
    all
}

/// The file with another block in a place.
pub fn with_block(file: &[u8], place: usize, block: &[u8]) -> Vec<u8> {
    [&file[..BLOCK * place], block, &file[BLOCK * (place + 1)..]].concat()
}

/// A file that has one block faulty, or left out, twice, or in the place of another.
pub fn rearranged(random: &mut Random, file: &[u8]) -> Vec<u8> {
    let mut blocks: Vec<&[u8]> = file.chunks(BLOCK).collect();
    let (from, to) = (random.below(blocks.len()), random.below(blocks.len()));
    match random.below(8) {
        0 => drop(blocks.remove(from)),
        1 => blocks.insert(to, blocks[from]),
        2 => blocks.swap(from, to),
        _ => {
            let others = faulty(blocks[from]);
            return with_block(file, from, &others[random.below(others.len())]);
        }
    }
    blocks.concat()
}
