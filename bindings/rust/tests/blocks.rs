//! Decodes the blocks that `wavpack` wrote (`crates/blocks/data`, whose README describes the
//! records) to the samples they were made from, whole and word by word, and packs these again to
//! the same bits.
use wavpack_stereo::{
    BYTES_PER_FRAME, Pass, Refusal, WordState, Zone, analyse, decorrelate, log_word, pack, read, term_byte,
    weight_byte, word,
};

struct Block {
    entropy: Vec<u8>,
    frames: usize,
    passes: Vec<Pass>,
    samples: Vec<i32>,
    payload: Vec<u8>,
}

/// The next `count` bytes of a file.
fn take<'a>(file: &mut &'a [u8], count: usize) -> &'a [u8] {
    let (taken, rest) = file.split_at(count);
    *file = rest;
    taken
}

fn take_words(file: &mut &[u8], count: usize) -> Vec<i16> {
    take(file, 2 * count).chunks_exact(2).map(|pair| i16::from_le_bytes([pair[0], pair[1]])).collect()
}

fn take_pass(file: &mut &[u8]) -> Result<Pass, Refusal> {
    let (head, words) = (take(file, 4), take_words(file, 16));
    let (stored, seeds) = (term_byte(head[0]), usize::from(head[3]));
    let seed =
        |from: usize| words[from..from + seeds].iter().copied().map(log_word).collect::<Result<Vec<_>, _>>();
    Pass::new(stored.term, stored.delta, [head[1], head[2]].map(weight_byte), [&seed(0)?, &seed(8)?])
}

fn take_block(file: &mut &[u8]) -> Result<Block, Refusal> {
    take(file, 24);
    let sizes: Vec<usize> = take_words(file, 3).into_iter().map(|size| usize::from(size as u16)).collect();
    let entropy = take(file, 12).to_vec();
    let passes = (0..sizes[1]).map(|_| take_pass(file)).collect::<Result<_, _>>()?;
    let samples = take_words(file, 2 * sizes[0]).into_iter().map(i32::from).collect();
    Ok(Block { entropy, frames: sizes[0], passes, samples, payload: take(file, sizes[2]).to_vec() })
}

fn blocks() -> Vec<Block> {
    let name = concat!(env!("CARGO_MANIFEST_DIR"), "/../../crates/blocks/data/blocks.bin");
    let bytes = std::fs::read(name).expect("the stored blocks");
    let (mut file, mut blocks) = (&bytes[..], Vec::new());
    while !file.is_empty() {
        blocks.push(take_block(&mut file).expect("valid terms and seeds"));
    }
    assert_eq!(blocks.len(), 117);
    blocks
}

#[test]
fn zero_right_sets_start_a_reading() -> Result<(), Refusal> {
    let (mut zero, mut heard) = (0, 0);
    for block in blocks() {
        if WordState::from_entropy(&block.entropy)?.medians[1] == [0; 3] {
            zero += 1;
            heard += usize::from(block.samples.iter().skip(1).step_by(2).any(|&right| right != 0));
        }
    }
    // Of the 45 blocks with a zero right set 27 hold right samples that are not 0.
    assert_eq!((zero, heard), (45, 27));
    Ok(())
}

#[test]
fn blocks_decode_to_their_samples() -> Result<(), Refusal> {
    for mut block in blocks() {
        let mut samples = vec![0; 2 * block.frames];
        let reading = read(&block.entropy, &block.payload, block.frames, &mut samples)?;
        assert_eq!(reading.written, 2 * block.frames);
        decorrelate(&mut block.passes, &mut samples)?;
        assert_eq!(samples, block.samples);
    }
    Ok(())
}

#[test]
fn words_give_what_a_reading_gives() -> Result<(), Refusal> {
    for block in blocks() {
        let mut samples = vec![0; 2 * block.frames];
        let reading = read(&block.entropy, &block.payload, block.frames, &mut samples)?;
        let mut state = WordState::from_entropy(&block.entropy)?;
        for sample in samples {
            assert_eq!(word(&block.payload, &mut state)?.sample, sample);
        }
        assert_eq!((state.place, state.medians), (reading.bits_used, reading.medians));
        assert_eq!(state.bits_read, reading.bits_read);
    }
    Ok(())
}

/// Whether the interval of a zone contains the value of a word, with the medians before it.
fn holds(zone: Zone, medians: [u32; 3], sample: i32) -> bool {
    let value = if sample < 0 { -(sample + 1) } else { sample } as u32;
    let [g0, g1, g2] = medians.map(|median| median / 16 + 1);
    let (low, width) = match zone {
        Zone::Zone0 => (0, g0),
        Zone::Zone1 => (g0, g1),
        Zone::Zone2 => (g0 + g1, g2),
        Zone::Zone2Overflow { ones_count } => (g0 + g1 + (ones_count - 2) * g2, g2),
    };
    (low..low + width).contains(&value)
}

#[test]
fn zones_hold_their_words() -> Result<(), Refusal> {
    for block in blocks() {
        let mut state = WordState::from_entropy(&block.entropy)?;
        for _ in 0..2 * block.frames {
            let medians = state.medians[state.next_channel as usize];
            let read = word(&block.payload, &mut state)?;
            assert!(read.zone.map_or(read.sample == 0, |zone| holds(zone, medians, read.sample)));
        }
    }
    Ok(())
}

#[test]
fn samples_pack_to_the_same_bits() -> Result<(), Refusal> {
    for mut block in blocks() {
        analyse(&mut block.passes, &mut block.samples)?;
        let mut out = vec![0; BYTES_PER_FRAME * block.frames];
        let packed = pack(&block.samples, &block.entropy, block.frames, &mut out)?;
        let (whole, spare) = (packed.bits_written as usize / 8, packed.bits_written % 8);
        assert_eq!(out[..whole], block.payload[..whole]);
        // The file fills its last word with ones.
        let kept = |bytes: &[u8]| bytes.get(whole).map_or(0, |byte| byte & ((1 << spare) - 1));
        assert_eq!(kept(&out), kept(&block.payload));
        let reading = read(&block.entropy, &block.payload, block.frames, &mut block.samples)?;
        assert_eq!((packed.bits_written, packed.medians), (reading.bits_used, reading.medians));
    }
    Ok(())
}
