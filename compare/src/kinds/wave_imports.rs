//! Imports of sound files: every byte of the header with every value, every length of a short file,
//! headers as other programs write them, every set of faults, and lengths around each limit.
use super::wave_exports::rate;
use crate::case::{Case, Failed, Run, Smaller, plainer, same, same_list, shorter};
use crate::lent::Lent;
use crate::ours;
use crate::random::Random;
use crate::their_waves::{self, HEADER, MAX_BYTES, file};
use crate::wave_headers;
use std::fmt;
use wavpack_stereo::Slots;

/// Where the header says how many bytes follow it, and how many its data has.
const LENGTHS: [usize; 2] = [4, 40];

#[derive(Clone)]
pub struct Import {
    pub file: Vec<u8>,
    /// The length of the list of samples, and that of the answer.
    pub room: usize,
    pub slots: usize,
}

impl fmt::Debug for Import {
    fn fmt(&self, f: &mut fmt::Formatter<'_>) -> fmt::Result {
        let shown = &self.file[..self.file.len().min(4096)];
        write!(
            f,
            "Import {{ file of {}: {shown:02x?}, room: {}, slots: {} }}",
            self.file.len(),
            self.room,
            self.slots
        )
    }
}

impl Import {
    /// Whether our export of what was imported is the file.
    fn is_export(&self, rate: u32, samples: &[i32]) -> Result<(), String> {
        let mut out = vec![0; self.file.len()];
        same("refusal of export", &ours::wave_export(rate, samples, &mut out, &mut [0]), &0)?;
        same_list("file of the imported samples", &out, &self.file)
    }

    /// With other data; the lengths in the header and the room stay as right or wrong as they are.
    fn with_data(&self, data: &[u8]) -> Import {
        let mut file = [&self.file[..HEADER], data].concat();
        let gone = self.file.len() - file.len();
        for at in LENGTHS {
            let length = file[at..].first_chunk_mut().expect("a header is longer");
            *length = u32::from_le_bytes(*length).wrapping_sub(gone as u32).to_le_bytes();
        }
        Import { file, room: self.room.saturating_sub(gone / 2), ..*self }
    }
}

impl Case for Import {
    fn compare(&self) -> Result<u32, String> {
        let (mut samples, mut answer) = (Lent::marked(self.room), Lent::marked(self.slots));
        let mut file = Lent::holding(&self.file);
        let refusal = ours::wave_import(file.list(), samples.list(), answer.list());
        file.kept("file")?;
        let theirs = their_waves::import(&self.file, self.room);
        match if self.slots < 2 { Err(6) } else { theirs } {
            Ok((wave, read)) => {
                same("refusal", &refusal, &0)?;
                samples.written("samples", &read)?;
                answer.written("answer", &wave.slots())?;
                self.is_export(wave.rate, &read)?;
            }
            Err(number) => {
                same("refusal", &refusal, &number)?;
                samples.kept("samples")?;
                answer.kept("answer")?;
            }
        }
        Ok(refusal)
    }

    fn smaller(&self) -> Smaller<'_, Import> {
        let data = self.file.get(HEADER..).unwrap_or_default();
        let plain = plainer(&self.file).map(|file| Import { file, ..*self });
        let less = shorter(data).map(|data| self.with_data(&data));
        let short = shorter(&self.file).map(|file| Import { file, ..*self });
        Box::new(plain.chain(less).chain(short))
    }
}

/// All of a file, with just the room that its samples need.
fn whole_import(file: Vec<u8>) -> Import {
    Import { room: file.len().saturating_sub(HEADER) / 2, file, slots: 2 }
}

/// A file of so many frames, of noise.
fn noise(random: &mut Random, frames: usize) -> Vec<u8> {
    file(44_100, &random.bytes(4 * frames))
}

/// Short files: every byte of the header with every value.
fn every_byte(run: &mut Run) -> Result<(), Failed> {
    for frames in 0..4 {
        let whole = noise(&mut run.random, frames);
        for at in 0..HEADER {
            for byte in 0..=u8::MAX {
                let mut case = whole_import(whole.clone());
                case.file[at] = byte;
                run.agree(case)?;
            }
        }
    }
    Ok(())
}

/// Short files cut and made longer, with the header as it was and with one that has the length;
/// then every room and every number of slots up to 3.
fn every_length(run: &mut Run) -> Result<(), Failed> {
    for frames in 0..4 {
        let whole = noise(&mut run.random, frames);
        let longer = [&whole[..], &run.random.bytes(8)].concat();
        for length in 0..=longer.len() {
            run.agree(whole_import(longer[..length].to_vec()))?;
            if let Some(data) = longer[..length].get(HEADER..) {
                run.agree(whole_import(file(44_100, data)))?;
            }
        }
        for room in 0..2 * frames + 4 {
            for slots in 0..=3 {
                run.agree(Import { file: whole.clone(), room, slots })?;
            }
        }
    }
    Ok(())
}

/// Headers that are not, or not quite, those of the rules; before 12 frames the data suit other
/// formats too.
fn other_headers(run: &mut Run) -> Result<(), Failed> {
    for frames in [0, 1, 2, 3, 12] {
        for file in wave_headers::all(&run.random.bytes(4 * frames)) {
            run.agree(whole_import(file))?;
        }
    }
    Ok(())
}

/// Every set of faults at once: no second slot, a file that is too long, a wrong header, a short
/// list.
fn fault_sets(run: &mut Run) -> Result<(), Failed> {
    for set in 0..16 {
        let [slot, long, header, short] = std::array::from_fn(|fault| set >> fault & 1 == 1);
        for at in [0, 5, 24, 43] {
            let frames = if long { 131_073 } else { 3 };
            let mut case = whole_import(noise(&mut run.random, frames));
            case.slots -= usize::from(slot);
            case.room -= usize::from(short);
            case.file[at] ^= u8::from(header);
            run.agree(case)?;
        }
    }
    Ok(())
}

/// Files around the largest size, each with a list that is too short, just long enough, longer.
fn lengths(run: &mut Run) -> Result<(), Failed> {
    for length in MAX_BYTES - 4..=MAX_BYTES + 4 {
        let case = whole_import(file(192_000, &run.random.bytes(length - HEADER)));
        for room in [case.room - 1, case.room, case.room + 1, case.room + 1000] {
            run.agree(Import { room, ..case.clone() })?;
        }
    }
    Ok(())
}

pub fn run(run: &mut Run) -> Result<(), Failed> {
    every_byte(run)?;
    every_length(run)?;
    other_headers(run)?;
    fault_sets(run)?;
    lengths(run)?;
    run.agree(whole_import(file(1, &(0..=u16::MAX).flat_map(u16::to_le_bytes).collect::<Vec<u8>>())))?;
    for _ in 0..100_000 * run.scale {
        let random = &mut run.random;
        let frames = random.below(30);
        let (rate, data) = (rate(random), random.bytes(4 * frames));
        let mut case = whole_import(file(rate, &data));
        match random.below(8) {
            0 => case.file[random.below(HEADER + 4 * frames)] ^= 1 << random.below(8),
            1 => case.file = wave_headers::mixed(random, rate, &data),
            2 => case.file.truncate(random.below(HEADER + 4 * frames)),
            3 => case.room = random.below(2 * frames + 40),
            4 => case.slots = random.below(5),
            _ => case.room += random.below(40),
        }
        run.agree(case)?;
    }
    Ok(())
}
