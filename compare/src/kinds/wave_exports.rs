//! Exports of sound files: every rate, every sample in both channels, every set of faults, and
//! numbers and lengths at the ends of each rule.
use crate::case::{Case, Failed, Run, Smaller, plainer, same, same_list, shorter};
use crate::lent::Lent;
use crate::ours;
use crate::random::Random;
use crate::their_waves::{self, MAX_SAMPLES, RATES, SPAN, file_bytes};
use std::fmt;
use wavpack_stereo::{Slots, Wave};

/// Samples at the ends of a byte and of the span, and samples outside it.
const ENDS: [i32; 10] = [0, 1, -1, 127, 128, 255, 256, -256, 32_767, -32_768];
const BEYOND: [i32; 8] = [32_768, -32_769, 65_535, 65_536, -65_536, 98_304, i32::MAX, i32::MIN];

#[derive(Clone)]
pub struct Export {
    pub rate: u32,
    pub samples: Vec<i32>,
    /// The length of the lent buffer, and that of the answer.
    pub room: usize,
    pub slots: usize,
}

impl fmt::Debug for Export {
    fn fmt(&self, f: &mut fmt::Formatter<'_>) -> fmt::Result {
        let shown = &self.samples[..self.samples.len().min(1024)];
        write!(f, "Export {{ rate: {}, {} samples: {shown:?}, ", self.rate, self.samples.len())?;
        write!(f, "room: {}, slots: {} }}", self.room, self.slots)
    }
}

impl Export {
    /// Whether our import of the file gives the rate and the samples.
    fn comes_back(&self, file: &[u8]) -> Result<(), String> {
        let (mut samples, mut answer) = (vec![0; self.samples.len()], [0; 2]);
        same("refusal of import", &ours::wave_import(file, &mut samples, &mut answer), &0)?;
        same("rate after import", &Wave::from_slots(answer).rate, &self.rate)?;
        same_list("samples after import", &samples, &self.samples)
    }
}

impl Case for Export {
    fn compare(&self) -> Result<u32, String> {
        let (mut out, mut answer) = (Lent::marked(self.room), Lent::marked(self.slots));
        let mut samples = Lent::holding(&self.samples);
        let refusal = ours::wave_export(self.rate, samples.list(), out.list(), answer.list());
        samples.kept("samples")?;
        let theirs = their_waves::export(self.rate, &self.samples, self.room);
        match if self.slots < 1 { Err(6) } else { theirs } {
            Ok(file) => {
                same("refusal", &refusal, &0)?;
                out.written("out", &file)?;
                answer.written("answer", &[file.len() as u32])?;
                self.comes_back(&file)?;
            }
            Err(number) => {
                same("refusal", &refusal, &number)?;
                out.kept("out")?;
                answer.kept("answer")?;
            }
        }
        Ok(refusal)
    }

    fn smaller(&self) -> Smaller<'_, Export> {
        // The number of samples stays odd or even, and the buffer as much too short or too long.
        let count = self.samples.len();
        let lists = shorter(&self.samples).filter(move |list| list.len() % 2 == count % 2);
        let room = move |left: usize| (self.room + file_bytes(left)).saturating_sub(file_bytes(count));
        let lists = lists.map(move |samples| Export { room: room(samples.len()), samples, ..*self });
        let plain = plainer(&self.samples).map(|samples| Export { samples, ..*self });
        let rates = [1, self.rate / 2, self.rate.saturating_sub(1)].into_iter();
        let rates =
            rates.filter(|rate| (1..self.rate).contains(rate)).map(|rate| Export { rate, ..self.clone() });
        Box::new(plain.chain(rates).chain(lists))
    }
}

/// All of a list, with just the room that it needs.
fn whole_export(rate: u32, samples: Vec<i32>) -> Export {
    Export { rate, room: file_bytes(samples.len()), samples, slots: 1 }
}

/// A rate in the span, at times at its ends or outside.
pub fn rate(random: &mut Random) -> u32 {
    match random.below(16) {
        0 => random.pick(&[0, 192_001, 1 << 30, (1 << 30) + 1, 1 << 31, u32::MAX]),
        1 => random.pick(&[1, 2, 255, 256, 65_535, 65_536, 191_999, 192_000]),
        _ => 1 + random.below(192_000) as u32,
    }
}

pub fn within(random: &mut Random) -> i32 {
    if random.once_in(4) { random.pick(&ENDS) } else { (random.next() as i16).into() }
}

pub fn beyond(random: &mut Random) -> i32 {
    random.pick(&BEYOND)
}

fn samples(random: &mut Random, count: usize) -> Vec<i32> {
    (0..count).map(|_| within(random)).collect()
}

/// Every rate of the span and those beside it, and every sample in both channels.
fn every_number(run: &mut Run) -> Result<(), Failed> {
    for rate in 0..=RATES.end() + 1 {
        let samples = samples(&mut run.random, 2);
        run.agree(whole_export(rate, samples))?;
    }
    run.agree(whole_export(44_100, SPAN.flat_map(|sample| [sample, !sample]).collect()))
}

/// Samples at the ends of the span and outside it: the first, the last and one between.
fn sample_ends(run: &mut Run) -> Result<(), Failed> {
    for count in [2, 4, 30, MAX_SAMPLES] {
        let samples = samples(&mut run.random, count);
        for place in [0, count / 2, count - 1] {
            for sample in ENDS.into_iter().chain(BEYOND) {
                let mut case = whole_export(48_000, samples.clone());
                case.samples[place] = sample;
                run.agree(case)?;
            }
        }
    }
    Ok(())
}

/// Every set of faults at once: no slot, too many samples, an odd number of them, a short buffer, a
/// rate and a sample outside their spans.
fn fault_sets(run: &mut Run) -> Result<(), Failed> {
    for set in 0..64 {
        let [slot, many, odd, short, rate, sample] = std::array::from_fn(|fault| set >> fault & 1 == 1);
        for bad_rate in [0, 192_001] {
            let even = if many { MAX_SAMPLES + 2 } else { 6 };
            let count = even - usize::from(odd);
            let mut case = whole_export(8_000, samples(&mut run.random, count));
            case.slots -= usize::from(slot);
            case.room -= usize::from(short);
            case.rate = if rate { bad_rate } else { case.rate };
            if sample {
                case.samples[run.random.below(count)] = beyond(&mut run.random);
            }
            run.agree(case)?;
        }
    }
    Ok(())
}

/// The number of samples and the room for them, around their limits and around each power of two;
/// for short lists every room, and every number of slots up to 3.
fn lengths(run: &mut Run) -> Result<(), Failed> {
    for count in (3..18).flat_map(|bits| [0, 2, 4, 6].map(|more| (1 << bits) - 2 + more)) {
        let samples = samples(&mut run.random, count);
        run.agree(whole_export(11_025, samples))?;
    }
    for count in MAX_SAMPLES - 3..=MAX_SAMPLES + 3 {
        let case = whole_export(192_000, samples(&mut run.random, count));
        for room in [case.room - 1, case.room, case.room + 1, case.room + 1000] {
            run.agree(Export { room, ..case.clone() })?;
        }
    }
    for count in 0..8 {
        let case = whole_export(1, samples(&mut run.random, count));
        for room in 0..case.room + 10 {
            for slots in 0..=3 {
                run.agree(Export { room, slots, ..case.clone() })?;
            }
        }
    }
    Ok(())
}

pub fn run(run: &mut Run) -> Result<(), Failed> {
    every_number(run)?;
    sample_ends(run)?;
    fault_sets(run)?;
    lengths(run)?;
    for _ in 0..100_000 * run.scale {
        let random = &mut run.random;
        let count = random.below(30) * 2;
        let mut case = whole_export(rate(random), samples(random, count));
        match random.below(8) {
            0 if count > 0 => case.samples[random.below(count)] = beyond(random),
            1 => case.samples.push(0),
            2 => case.room = random.below(case.room + 40),
            3 => case.slots = random.below(4),
            _ => case.room += random.below(40),
        }
        run.agree(case)?;
    }
    Ok(())
}
