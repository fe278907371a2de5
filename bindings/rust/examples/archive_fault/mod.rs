//! Why a block of an archive is bad, worked out from its bytes: the library reports which block it is.
use std::fmt;
use wavpack_stereo::{ARCHIVE_BLOCK_BYTES, ARCHIVE_DATA_BYTES, ARCHIVE_HEAD_BYTES, MAX_PAYLOAD_BYTES};

/// Where the parts of a block stand.
const DATA: usize = 4;
const LENGTH: usize = DATA + 8;
const CHECK: usize = DATA + ARCHIVE_DATA_BYTES;

/// What is wrong with a block.
#[derive(Clone, Copy, Debug, PartialEq, Eq)]
pub enum Fault {
    Short { bytes: usize },
    Check { stored: usize, counted: usize },
    Number { stored: usize, due: usize },
    Length { length: usize },
    Used { stored: usize, due: usize },
    Filling { at: usize, byte: u8 },
    Unfinished { missing: usize },
}

impl fmt::Display for Fault {
    fn fmt(&self, f: &mut fmt::Formatter<'_>) -> fmt::Result {
        match self {
            Fault::Short { bytes } => {
                write!(f, "it has {bytes} bytes, where a block has {ARCHIVE_BLOCK_BYTES}")
            }
            Fault::Check { stored, counted } => {
                write!(f, "its check is {stored}, where its bytes ask for {counted}")
            }
            Fault::Number { stored, due } => write!(f, "it is numbered {stored}, where {due} is due"),
            Fault::Length { length } => {
                write!(f, "it announces {length} payload bytes, over the limit of {MAX_PAYLOAD_BYTES}")
            }
            Fault::Used { stored, due } => {
                write!(f, "it uses {stored} data bytes, where {due} are due")
            }
            Fault::Filling { at, byte } => {
                write!(f, "its byte {at} is {byte}, where 0 has to follow the used bytes")
            }
            Fault::Unfinished { missing } => {
                write!(f, "the file ends after it, and {missing} bytes of its recording are missing")
            }
        }
    }
}

/// What is due in a file: the number of the next block, and how many bytes of its recording are still to
/// come. With none a recording starts.
#[derive(Clone, Copy, Default)]
struct Due {
    number: usize,
    bytes: usize,
}

impl Due {
    /// What is due, once the block is there: where a recording starts it has the payload length.
    fn at(self, block: &[u8]) -> Due {
        match self.bytes {
            0 => Due { number: 0, bytes: ARCHIVE_HEAD_BYTES + number(&block[LENGTH..LENGTH + 4]) },
            _ => self,
        }
    }

    fn used(self) -> usize {
        self.bytes.min(ARCHIVE_DATA_BYTES)
    }

    fn next(self) -> Due {
        Due { number: self.number + 1, bytes: self.bytes - self.used() }
    }
}

/// The number in some bytes, the low one first.
fn number(bytes: &[u8]) -> usize {
    bytes.iter().rev().fold(0, |number, &byte| 256 * number + usize::from(byte))
}

/// The check that a block should have.
fn check(block: &[u8]) -> usize {
    block[..CHECK].iter().zip(1..).map(|(&byte, weight): (_, usize)| weight * usize::from(byte)).sum()
}

/// Why a block is bad, if it is; the blocks before it are good, and there are `more` after it or not.
fn fault_of(block: &[u8], due: Due, more: bool) -> Option<Fault> {
    if block.len() < ARCHIVE_BLOCK_BYTES {
        return Some(Fault::Short { bytes: block.len() });
    }
    let (due, length) = (due.at(block), number(&block[LENGTH..LENGTH + 4]));
    let (stored, counted) = (number(&block[CHECK..]), check(block));
    let (place, used) = (number(&block[..2]), number(&block[2..DATA]));
    let filling = (DATA + due.used()..CHECK).find(|&at| block[at] != 0);
    if stored != counted {
        Some(Fault::Check { stored, counted })
    } else if place != due.number {
        Some(Fault::Number { stored: place, due: due.number })
    } else if due.number == 0 && length > MAX_PAYLOAD_BYTES {
        Some(Fault::Length { length })
    } else if used != due.used() {
        Some(Fault::Used { stored: used, due: due.used() })
    } else if let Some(at) = filling {
        Some(Fault::Filling { at, byte: block[at] })
    } else {
        let missing = due.next().bytes;
        (!more && missing > 0).then_some(Fault::Unfinished { missing })
    }
}

/// Why a block of a file is bad, if it is: a block that no bad one stands before.
pub fn fault(file: &[u8], at: usize) -> Option<Fault> {
    let mut blocks = file.chunks(ARCHIVE_BLOCK_BYTES);
    let due = blocks.by_ref().take(at).fold(Due::default(), |due, block| due.at(block).next());
    let block = blocks.next()?;
    fault_of(block, due, blocks.next().is_some())
}
