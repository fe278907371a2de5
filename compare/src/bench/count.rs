//! One call of one side, for a tool that counts the instructions of `counted`: the inputs are made
//! before it, and the output is checked after it.
use super::passes::{self, sixteen};
use super::reading::sounds;
use super::{archives, int32, int32_loops, pages, waves};
use crate::ours;
use crate::plain_int32::BYTES_PER_SAMPLE;
use crate::random::Random;
use crate::their_pages;
use crate::their_passes::{Pass, made};
use crate::theirs::MAX_FRAMES;
use reference::PackedSamples;
use reference::decorrelation::{DecorrPass, decorrelate_stereo, recorrelate_stereo};
use reference::entropy::expand_entropy;
use reference::samples::{
    decode_packed_samples_stereo_from_entropy, encode_packed_samples_stereo_from_entropy,
};
use wavpack_stereo::{BYTES_PER_FRAME, analyse, decorrelate, pack, read};

/// The call, and nothing else.
#[inline(never)]
fn counted<T>(call: impl FnOnce() -> T) -> T {
    std::hint::black_box(call())
}

/// Reading, or packing, of the sound with this name; none where there is no such sound.
fn sound(random: &mut Random, name: &str, packing: bool, ours: bool) -> Option<()> {
    let sound = sounds(random).into_iter().find(|sound| sound.name.split(' ').next() == Some(name))?;
    let info = expand_entropy(&sound.entropy).unwrap();
    let payload = encode_packed_samples_stereo_from_entropy(&sound.residuals, &info).unwrap();
    let (mut samples, mut out) = (vec![0x5a; 2 * MAX_FRAMES], vec![0x5a; BYTES_PER_FRAME * MAX_FRAMES]);
    match (packing, ours) {
        (false, true) => {
            let reading = counted(|| read(&sound.entropy, &payload, MAX_FRAMES, &mut samples));
            assert!(reading.is_ok() && samples == sound.residuals);
        }
        (false, false) => {
            let packed = PackedSamples::new(&payload);
            let samples = counted(|| decode_packed_samples_stereo_from_entropy(&packed, &info, MAX_FRAMES));
            assert!(samples.unwrap() == sound.residuals);
        }
        (true, true) => {
            let packed = counted(|| pack(&sound.residuals, &sound.entropy, MAX_FRAMES, &mut out));
            let length = packed.unwrap().bytes();
            assert!(out[..length] == payload[..length]);
        }
        (true, false) => {
            let written = counted(|| encode_packed_samples_stereo_from_entropy(&sound.residuals, &info));
            assert!(written.unwrap() == payload);
        }
    }
    Some(())
}

/// Decorrelation, or analysis, of the largest buffer.
fn run_passes(random: &mut Random, terms: &[i8], back: bool, ours: bool) {
    let mut buffer = passes::buffer(random);
    let list: Vec<Pass> = terms.iter().map(|&term| passes::pass(random, term)).collect();
    if ours {
        let (mut list, way) = (ours::passes(&list), if back { analyse } else { decorrelate });
        counted(|| way(&mut list, &mut buffer)).unwrap();
    } else {
        let mut list: Vec<DecorrPass> = list.iter().map(made).collect();
        let way = if back { recorrelate_stereo } else { decorrelate_stereo };
        counted(|| way(&mut list, &mut buffer)).unwrap();
    }
}

/// Export, or import, of the largest sound file.
fn sound_file(random: &mut Random, import: bool, ours: bool) {
    let (samples, file) = waves::input(random);
    let (mut out, mut read) = (vec![0x5a; file.len()], vec![0x5a; samples.len()]);
    if import {
        counted(|| waves::import(ours, &file, &mut read)).unwrap();
        assert!(read == samples);
    } else {
        counted(|| waves::export(ours, &samples, &mut out)).unwrap();
        assert!(out == file);
    }
}

/// Writing, or reading, the longest payload as an archive file, where theirs is the plain loop.
fn archive_file(random: &mut Random, writing: bool, ours: bool) {
    let input = archives::longest(random);
    if writing {
        let mut out = vec![0x5a; input.file.len()];
        counted(|| archives::write(ours, &input, &mut out)).unwrap();
        assert!(out == input.file);
    } else {
        let (mut list, mut payloads) = (vec![0x5a; 4], vec![0x5a; input.payloads.len()]);
        counted(|| archives::read(ours, &input.file, &mut list, &mut payloads)).unwrap();
        assert!(list == input.list && payloads == input.payloads);
    }
}

/// The morning page of the sound with this name, where theirs is the plain loop; none where there is
/// no such sound.
fn page(random: &mut Random, name: &str, ours: bool) -> Option<()> {
    let sound = pages::sounds(random).into_iter().find(|sound| sound.name.split(' ').next() == Some(name))?;
    let expected = their_pages::page(&sound.samples, sound.threshold, usize::MAX).unwrap();
    let (mut out, write) =
        (vec![0x5a; expected.len()], if ours { pages::our_page } else { pages::loop_page });
    counted(|| write(&sound.samples, sound.threshold, &mut out)).unwrap();
    assert!(out == expected);
    Some(())
}

/// Reassembly, or deconstruction, of the most samples with these fields, where theirs is the plain
/// loop; none where there is no such way to put bits in.
fn wide_samples(random: &mut Random, sent_bits: u32, way: &str, back: bool, ours: bool) -> Option<()> {
    let int32::Input { info, wide, apart, .. } = int32::input(random, sent_bits, way)?;
    if back {
        let deconstruct = if ours { int32::our_deconstruct } else { int32_loops::deconstruct };
        let mut literal = vec![0x5a; BYTES_PER_SAMPLE * wide.len()];
        let mut samples = wide;
        counted(|| deconstruct(info, &mut samples, &mut literal)).unwrap();
        assert!(samples == apart.samples && literal[..apart.literal.len()] == apart.literal);
    } else {
        let reassemble = if ours { int32::our_reassemble } else { int32_loops::reassemble };
        let mut samples = apart.samples;
        counted(|| reassemble(info, &mut samples, &apart.literal)).unwrap();
        assert!(samples == wide);
    }
    Some(())
}

/// Makes the call that the words name: `ours` or `theirs`; `reading` or `packing`, of the loud sound
/// or of the one that they name; `export` or `import`; `archive` and then `write` or `read`; `page` of
/// noise or of the sound that they name; `reassembly` or `deconstruction` with so many sent bits and
/// `none`, `zeros`, `ones` or `dups`; `decorrelation` or `analysis`, of a term or, by `sixteen`, of 16
/// passes. None where they name none.
pub fn run(words: &[&str], seed: u64) -> Option<()> {
    let random = &mut Random::new(seed);
    let [side @ ("ours" | "theirs"), ref call @ ..] = *words else {
        return None;
    };
    let ours = side == "ours";
    match *call {
        [what @ ("reading" | "packing")] => sound(random, "loud", what == "packing", ours)?,
        [what @ ("reading" | "packing"), name] => sound(random, name, what == "packing", ours)?,
        [what @ ("export" | "import")] => sound_file(random, what == "import", ours),
        ["archive", what @ ("write" | "read")] => archive_file(random, what == "write", ours),
        ["page"] => page(random, "noise", ours)?,
        ["page", name] => page(random, name, ours)?,
        [what @ ("reassembly" | "deconstruction"), sent_bits, way] => {
            wide_samples(random, sent_bits.parse().ok()?, way, what == "deconstruction", ours)?;
        }
        [what @ ("decorrelation" | "analysis"), terms] => {
            let terms = if terms == "sixteen" { sixteen() } else { vec![terms.parse().ok()?] };
            run_passes(random, &terms, what == "analysis", ours);
        }
        _ => return None,
    }
    Some(())
}
