//! Archive files as plain loops over lent storage. For house, start second and issue reading has a
//! `HashMap` and a `HashSet` of the standard library, which are all that it allocates.
use crate::their_archives::{BLOCK, CHECK, DATA, HEADER, MAX_PAYLOAD, file_bytes};
use std::collections::{HashMap, HashSet};

fn check(block: &[u8]) -> [u8; 4] {
    let sum: u32 = block[..CHECK].iter().zip(1..).map(|(&byte, factor)| factor * u32::from(byte)).sum();
    sum.to_le_bytes()
}

/// Writing as a loop over the blocks.
pub fn write(key: (u16, u32, u16), payload: &[u8], out: &mut [u8]) -> Option<usize> {
    let out = out.get_mut(..file_bytes(payload.len()))?;
    if payload.len() > MAX_PAYLOAD {
        return None;
    }
    let mut rest = payload;
    for (number, block) in out.chunks_exact_mut(BLOCK).enumerate() {
        let head = if number == 0 { HEADER } else { 0 };
        if number == 0 {
            block[4..6].copy_from_slice(&key.0.to_le_bytes());
            block[6..10].copy_from_slice(&key.1.to_le_bytes());
            block[10..12].copy_from_slice(&key.2.to_le_bytes());
            block[12..16].copy_from_slice(&(payload.len() as u32).to_le_bytes());
        }
        let (now, later) = rest.split_at(rest.len().min(DATA - head));
        let used = head + now.len();
        block[..2].copy_from_slice(&(number as u16).to_le_bytes());
        block[2..4].copy_from_slice(&(used as u16).to_le_bytes());
        block[4 + head..4 + used].copy_from_slice(now);
        block[4 + used..CHECK].fill(0);
        let check = check(block);
        block[CHECK..].copy_from_slice(&check);
        rest = later;
    }
    Some(out.len())
}

/// House, start second, issue and payload length of a recording, by its first block.
fn header(block: &[u8]) -> (u16, u32, u16, usize) {
    let two = |at: usize| u16::from_le_bytes([block[at], block[at + 1]]);
    let four = |at: usize| u32::from(two(at)) | u32::from(two(at + 2)) << 16;
    (two(4), four(6), two(10), four(12) as usize)
}

/// The highest issue of each house and start second; none where the rules refuse.
fn highest_issues(file: &[u8]) -> Option<HashMap<(u16, u32), u16>> {
    let (mut highest, mut seen) = (HashMap::new(), HashSet::new());
    let (mut left, mut number, mut once) = (0, 0_u16, true);
    for block in file.chunks(BLOCK) {
        if block.len() < BLOCK || block[CHECK..] != check(block) {
            return None;
        }
        if left == 0 {
            let (house, start, issue, length) = header(block);
            (left, number) = (HEADER + length, 0);
            once &= length <= MAX_PAYLOAD && seen.insert((house, start, issue));
            let highest = highest.entry((house, start)).or_insert(issue);
            *highest = issue.max(*highest);
        }
        let used = left.min(DATA);
        let right = block[..2] == number.to_le_bytes() && block[2..4] == (used as u16).to_le_bytes();
        if !right || block[4 + used..CHECK].iter().any(|&byte| byte != 0) {
            return None;
        }
        (left, number) = (left - used, number + 1);
    }
    (left == 0 && once).then_some(highest)
}

/// Reading as two loops: over the blocks, and over the recordings.
pub fn read(file: &[u8], list: &mut [u32], payloads: &mut [u8]) -> Option<usize> {
    let highest = highest_issues(file)?;
    let (mut rest, mut count, mut bytes) = (file, 0, 0);
    while !rest.is_empty() {
        let (house, start, issue, length) = header(rest);
        let (recording, later) = rest.split_at(file_bytes(length));
        rest = later;
        if highest[&(house, start)] != issue {
            continue;
        }
        let numbers = [house.into(), start, issue.into(), length as u32];
        list.get_mut(4 * count..4 * count + 4)?.copy_from_slice(&numbers);
        let mut out = payloads.get_mut(bytes..bytes + length)?;
        let mut head = HEADER;
        for block in recording.chunks_exact(BLOCK) {
            let (now, later) = out.split_at_mut(out.len().min(DATA - head));
            now.copy_from_slice(&block[4 + head..][..now.len()]);
            (out, head) = (later, 0);
        }
        (count, bytes) = (count + 1, bytes + length);
    }
    Some(count)
}
