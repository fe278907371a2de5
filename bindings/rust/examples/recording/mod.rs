//! A recording as the program `wvpair` reads it, for the examples that decode one.
use std::error::Error;
use wavpack_stereo::{Pass, ReadError, Reading, Refusal, decorrelate, read};

/// What a file holds of a recording, but for its passes.
pub struct Recording {
    pub entropy: [u8; 12],
    pub frames: usize,
    pub payload: Vec<u8>,
}

impl Recording {
    /// The recording in a file: 12 entropy bytes, the frame count in 2 bytes, the low one first, and
    /// the payload.
    pub fn open(name: &str) -> Result<Recording, Box<dyn Error>> {
        Ok(Recording::from_bytes(&std::fs::read(name)?).ok_or("a recording has at least 14 bytes")?)
    }

    fn from_bytes(file: &[u8]) -> Option<Recording> {
        let (entropy, rest) = file.split_first_chunk()?;
        let (frames, payload) = rest.split_first_chunk()?;
        let frames = usize::from(u16::from_le_bytes(*frames));
        Some(Recording { entropy: *entropy, frames, payload: payload.to_vec() })
    }

    /// The samples of a recording, and what its reading answered; where it was refused they are those
    /// of the whole frames before the word that ended it, or none.
    pub fn decode(&self, passes: &mut [Pass]) -> Result<(Vec<i32>, Result<Reading, ReadError>), Refusal> {
        let mut samples = vec![0; 2 * self.frames];
        let outcome = read(&self.entropy, &self.payload, self.frames, &mut samples);
        let (Ok(reading) | Err(ReadError { reading, .. })) = outcome;
        samples.truncate(reading.written / 2 * 2);
        decorrelate(passes, &mut samples)?;
        Ok((samples, outcome))
    }
}
