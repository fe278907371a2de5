//! The published Rust as a library: its files unchanged, and stand-ins for what they name and what
//! was not published.
//!
//! No stand-in takes part in what is compared. `error` only separates the kinds of refusal; the
//! hybrid and correction types are named by functions that nothing here calls.
#![allow(clippy::all)]

include!(concat!(env!("OUT_DIR"), "/modules.rs"));

pub use packed_samples::PackedSamples;

/// The errors that the published files construct, with the values that they put in.
pub mod error {
    pub type Result<T> = core::result::Result<T, Error>;

    #[derive(Debug, Clone, PartialEq, Eq)]
    pub enum Error {
        Truncated,
        EndOfStream,
        EntropyInfoLength(usize),
        InvalidEntropyInfoForMono,
        InvalidEntropyInfoForStereo,
        PackedSamplesOddLength(usize),
        GolombDegenerateInterval(i32),
        ValueNotInInterval { value: u32, low: u32, high: u32 },
        InvalidDecorrelationTerm(i8),
        DecorrelationSeedUnderflow { term: i8, supplied: usize },
        TooManyDecorrelationPasses(usize),
        CrossTermOnMono(i8),
        DecorrelationTermsMissing,
        DecorrelationSamplesOddByteCount(usize),
        DecorrelationSampleCountUnspecified(i8),
        DecorrelationSampleCountMismatch { expected: usize, actual: usize },
        DecorrelationWeightCountMismatch { expected: usize, actual: usize },
        EncodeDeltaOutOfRange(i32),
        EncodeWeightNotRepresentable(i32),
        EncodeSeedNotRepresentable(i32),
        EncodeHybridTermUnsupported(i8),
        BlockMissingOverflowBits,
        Int32InfoLength(usize),
        Int32InfoConflict { zeros: u8, ones: u8, dups: u8 },
    }
}

/// Named by the hybrid (lossy) decoders alone.
pub struct HybridState;

impl HybridState {
    pub fn frame_limits(&self) -> [u32; 2] {
        unreachable!("no hybrid stream is compared")
    }

    pub fn update_signed(&mut self, _channel: usize, _sample: i32) {
        unreachable!("no hybrid stream is compared")
    }
}

/// Named by the decoders of hybrid streams with corrections alone.
pub struct ShapingState;

impl ShapingState {
    pub fn advance(&mut self, _channel: usize) -> i32 {
        unreachable!("no hybrid stream is compared")
    }

    pub fn update(&mut self, _channel: usize, _exact: i32, _coarse: i32, _temp: i32) {
        unreachable!("no hybrid stream is compared")
    }
}

/// Named by the decoders of hybrid streams with corrections alone.
pub struct PackedCorrectionData<'a> {
    bytes: &'a [u8],
}

impl<'a> PackedCorrectionData<'a> {
    pub fn bit_reader(&self) -> samples::BitReader<'a> {
        samples::BitReader::new(self.bytes)
    }
}
