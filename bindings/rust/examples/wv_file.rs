//! Decodes `.wv` files block by block, by the steps of docs/WV_FILES.md: `wv_file FILE...`
//!
//! Prints for each block whether it was decoded with the right checksums, or why not, and for each file the
//! CRC-32 of its samples in as many bytes as the file gives them. The exit status is 1 where a file cannot be
//! read, where any of its frames are not decoded, and where it has none.
use std::process::ExitCode;

mod wv_block;
use wv_block::samples::decode;
use wv_block::{Block, take_block};

/// The number of frames in a file that was written without knowing it.
const UNKNOWN: u32 = u32::MAX;

/// Adds bytes to a CRC-32, as zlib has it.
fn crc32(crc: u32, bytes: &[u8]) -> u32 {
    let shifted = |crc: u32, _| crc >> 1 ^ if crc & 1 == 1 { 0xedb8_8320 } else { 0 };
    !bytes.iter().fold(!crc, |crc, &byte| (0..8).fold(crc ^ u32::from(byte), shifted))
}

/// What is known of a file after some of its blocks.
struct Progress {
    decoded: u64,
    crc: u32,
    whole: bool,
}

impl Progress {
    /// Decodes a block of the file.
    fn add(&mut self, block: &Block<'_>) {
        if block.frames == 0 {
            println!("  no frames");
            return;
        }
        print!("  {} frames from {} on: ", block.frames, block.first);
        match decode(block) {
            Ok(samples) => {
                println!("good");
                let bytes = 1 + (block.flags & 3) as usize;
                self.crc =
                    samples.iter().fold(self.crc, |crc, sample| crc32(crc, &sample.to_le_bytes()[..bytes]));
                self.decoded += u64::from(block.frames);
            }
            Err(why) => {
                println!("{why}");
                self.whole = false;
            }
        }
    }
}

/// Decodes a file, and gives whether it has frames and all of them were decoded.
fn decode_file(mut rest: &[u8]) -> bool {
    let (mut file, mut total) = (Progress { decoded: 0, crc: 0, whole: true }, None);
    while let Some(block) = take_block(&mut rest) {
        total.get_or_insert(block.total);
        file.add(&block);
    }
    let Some(total) = total else {
        println!("  no block at its start: this is no .wv file");
        return false;
    };
    let Progress { decoded, crc, whole } = file;
    print!("  {decoded} of {total} frames decoded, CRC-32 {crc:08x}, ");
    println!("{} bytes after the last block", rest.len());
    whole && decoded > 0 && (decoded == u64::from(total) || total == UNKNOWN)
}

fn main() -> ExitCode {
    let names: Vec<String> = std::env::args().skip(1).collect();
    let mut whole = !names.is_empty();
    if names.is_empty() {
        eprintln!("usage: wv_file FILE...");
    }
    for name in names {
        whole &= match std::fs::read(&name) {
            Ok(file) => {
                println!("{name}");
                decode_file(&file)
            }
            Err(error) => {
                eprintln!("{name}: {error}");
                false
            }
        };
    }
    if whole { ExitCode::SUCCESS } else { ExitCode::FAILURE }
}
