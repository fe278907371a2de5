//! Reassembly and deconstruction of the most wide samples, beside a plain loop and beside the
//! published Rust. The Rust makes a checksum of the samples too, and cannot do without; it chooses
//! the fields of deconstruction itself, so that only those rows are there whose fields it chooses,
//! and allocates what it answers.
use super::{int32_loops, row, timed};
use crate::int32_fields::{images, with_field};
use crate::plain_int32::{self, Apart, BYTES_PER_SAMPLE, MAX_SAMPLES};
use crate::random::Random;
use crate::their_int32::{self, published};
use reference::int32::{deconstruct_int32, reassemble_int32};
use reference::samples::BitReader;
use std::time::Duration;
use wavpack_stereo::Int32Info;

/// Wide samples, with a name and the fields that suit them, and what comes of taking them apart.
pub struct Input {
    pub name: String,
    pub info: Int32Info,
    pub wide: Vec<i32>,
    pub apart: Apart,
}

const WAYS: [&str; 4] = ["none", "zeros", "ones", "dups"];

/// How many bits are put in.
const WIDTH: u32 = 4;

/// Random samples with so many sent bits, which leave 24 for the words where they can, and with one
/// of the ways to put bits in; none where there is no such way.
pub fn input(random: &mut Random, sent_bits: u32, way: &str) -> Option<Input> {
    let place = WAYS.iter().position(|&name| name == way)?;
    let none = Int32Info { sent_bits, ..Int32Info::default() };
    let (info, name) = match place {
        0 => (none, format!("{sent_bits} sent bits")),
        _ => (with_field(none, place, WIDTH), format!("{sent_bits} sent bits, {WIDTH} {way}")),
    };
    let samples: Vec<i32> =
        (0..MAX_SAMPLES).map(|_| random.next() as i32 >> 8_u32.saturating_sub(sent_bits)).collect();
    let wide = images(info, &samples);
    let apart = plain_int32::deconstruct(info, &wide, usize::MAX).ok()?;
    Some(Input { name, info, wide, apart })
}

/// Reassembly by one side, and deconstruction: how many bits were read or written.
pub type Reassemble = fn(Int32Info, &mut [i32], &[u8]) -> Option<u32>;
pub type Deconstruct = fn(Int32Info, &mut [i32], &mut [u8]) -> Option<u32>;

pub fn our_reassemble(info: Int32Info, samples: &mut [i32], literal: &[u8]) -> Option<u32> {
    wavpack_stereo::reassemble_int32(info, samples, literal).ok()
}

pub fn our_deconstruct(info: Int32Info, samples: &mut [i32], literal: &mut [u8]) -> Option<u32> {
    wavpack_stereo::deconstruct_int32(info, samples, literal).ok()
}

fn their_reassemble(info: Int32Info, samples: &mut [i32], literal: &[u8]) -> Option<u32> {
    let mut reader = BitReader::new(literal);
    reassemble_int32(samples, &published(info)?, Some(&mut reader)).ok()?;
    u32::try_from(reader.bits_consumed()).ok()
}

fn reassemble_turn(input: &Input, reassemble: Reassemble, samples: &mut [i32]) -> Duration {
    let Apart { samples: narrow, bits, literal } = &input.apart;
    samples.copy_from_slice(narrow);
    let (time, read) = timed(|| reassemble(input.info, samples, literal));
    assert!(read == Some(*bits) && samples == input.wide, "{}: other samples", input.name);
    time
}

fn deconstruct_turn(
    input: &Input,
    deconstruct: Deconstruct,
    samples: &mut [i32],
    storage: &mut [u8],
) -> Duration {
    let Apart { samples: narrow, bits, literal } = &input.apart;
    samples.copy_from_slice(&input.wide);
    storage.fill(0x5a);
    let (time, written) = timed(|| deconstruct(input.info, samples, storage));
    assert!(written == Some(*bits) && samples == narrow, "{}: other samples are left", input.name);
    assert!(storage[..literal.len()] == *literal, "{}: other literal bits", input.name);
    time
}

fn reassemble_rows(input: &Input) {
    let [mut ours, mut theirs] = [vec![0; MAX_SAMPLES], vec![0; MAX_SAMPLES]];
    let sides = [
        ("a plain loop", int32_loops::reassemble as Reassemble),
        ("published, with checksum", their_reassemble),
    ];
    for (what, reassemble) in sides {
        row(
            &format!("reassembly, {} (the Rust: {what})", input.name),
            || reassemble_turn(input, our_reassemble, &mut ours),
            || reassemble_turn(input, reassemble, &mut theirs),
        );
    }
}

fn deconstruct_rows(input: &Input) {
    let [mut ours, mut theirs] =
        [(); 2].map(|()| (vec![0; MAX_SAMPLES], vec![0; BYTES_PER_SAMPLE * MAX_SAMPLES]));
    let mut our_turn = || deconstruct_turn(input, our_deconstruct, &mut ours.0, &mut ours.1);
    row(&format!("deconstruction, {} (the Rust: a plain loop)", input.name), &mut our_turn, || {
        deconstruct_turn(input, int32_loops::deconstruct, &mut theirs.0, &mut theirs.1)
    });
    let chosen = their_int32::deconstruct(&input.wide);
    if chosen.info == input.info {
        assert!(
            chosen.samples == input.apart.samples && chosen.literal == input.apart.literal,
            "{}",
            input.name
        );
        let name =
            format!("deconstruction, {} (the Rust: published, finds the fields, with checksum)", input.name);
        row(&name, our_turn, || timed(|| deconstruct_int32(&input.wide)).0);
    }
}

pub fn run(random: &mut Random) {
    let ways = [(0, &WAYS[1..]), (8, &WAYS[..]), (31, &WAYS[..])];
    let all = ways.into_iter().flat_map(|(sent_bits, ways)| ways.iter().map(move |way| (sent_bits, way)));
    let inputs: Vec<Input> = all.filter_map(|(sent_bits, way)| input(random, sent_bits, way)).collect();
    inputs.iter().for_each(reassemble_rows);
    inputs.iter().for_each(deconstruct_rows);
}
