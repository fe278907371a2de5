//! Reassembly of wide samples, beside the rules and beside the published Rust: every number of sent
//! bits with every way to put bits in, literal bits that end in each bit, every set of faults, and
//! lengths around each limit. What was put together without a loss is taken apart again.
use crate::case::{Case, Failed, Run, Smaller, plainer, same, shorter};
use crate::fields::fresh;
use crate::int32_fields::{self, BEYOND, around, ends, every_setting, info_of, two_at_once, with_field};
use crate::lent::Lent;
use crate::plain_int32::{self, BYTES_PER_SAMPLE, MAX_FIELD, MAX_SAMPLES, literal_bytes, width};
use crate::random::Random;
use crate::{numbers, ours, their_int32};
use std::fmt;
use wavpack_stereo::Int32Info;

#[derive(Clone)]
pub struct Reassembly {
    pub info: Int32Info,
    pub samples: Vec<i32>,
    pub literal: Vec<u8>,
    /// The length of the answer.
    pub slots: usize,
}

impl fmt::Debug for Reassembly {
    fn fmt(&self, f: &mut fmt::Formatter<'_>) -> fmt::Result {
        let (samples, literal) = (self.samples.len(), self.literal.len());
        write!(
            f,
            "Reassembly {{ {:?}, {samples} samples: {:?}, ",
            self.info,
            &self.samples[..samples.min(1024)]
        )?;
        write!(
            f,
            "literal of {literal}: {:02x?}, slots: {} }}",
            &self.literal[..literal.min(4096)],
            self.slots
        )
    }
}

/// How far samples are shifted left.
pub fn shift(info: Int32Info) -> u32 {
    info.sent_bits + width(info)
}

impl Reassembly {
    /// With other fields and samples; the literal bits stay as much too short or too long.
    fn with(&self, info: Int32Info, samples: Vec<i32>) -> Reassembly {
        let asked = [literal_bytes(self.info, self.samples.len()), literal_bytes(info, samples.len())];
        let mut literal = self.literal.clone();
        literal.resize((literal.len() + asked[1]).saturating_sub(asked[0]), 0);
        Reassembly { info, samples, literal, ..*self }
    }

    /// Whether no sample loses a bit.
    fn without_loss(&self) -> bool {
        let shift = shift(self.info);
        shift <= MAX_FIELD
            && self.samples.iter().all(|&sample| i32::try_from(i64::from(sample) << shift).is_ok())
    }

    /// Whether taking the wide samples apart is accepted and, where none lost a bit, gives back the
    /// samples and the literal bits that were read.
    fn comes_apart(&self, wide: &[i32], bits: u32) -> Result<(), String> {
        let (mut samples, mut answer) = (Lent::holding(wide), Lent::marked(1));
        let mut literal = Lent::marked(BYTES_PER_SAMPLE * wide.len());
        let refusal = ours::deconstruct_int32(self.info, samples.list(), literal.list(), answer.list());
        same("refusal of the way back", &refusal, &0)?;
        answer.written("answer of the way back", &[bits])?;
        if !self.without_loss() {
            return Ok(());
        }
        let mut read = self.literal[..literal_bytes(self.info, wide.len())].to_vec();
        if let (Some(last), used @ 1..) = (read.last_mut(), bits % 8) {
            *last %= 1 << used;
        }
        samples.written("samples after the way back", &self.samples)?;
        literal.written("literal bits after the way back", &read)
    }
}

impl Case for Reassembly {
    fn compare(&self) -> Result<u32, String> {
        let (mut samples, mut literal) = (Lent::holding(&self.samples), Lent::holding(&self.literal));
        let mut answer = Lent::marked(self.slots);
        let refusal = ours::reassemble_int32(self.info, samples.list(), literal.list(), answer.list());
        literal.kept("literal bits")?;
        let beside = |stated: &Result<(u32, Vec<i32>), u32>| match stated {
            Ok((bits, wide)) => {
                same("refusal", &refusal, &0)?;
                samples.written("samples", wide)?;
                answer.written("answer", &[*bits])
            }
            Err(number) => {
                same("refusal", &refusal, number)?;
                samples.kept("samples")?;
                answer.kept("answer")
            }
        };
        if self.slots < 1 {
            beside(&Err(6))?;
            return Ok(refusal);
        }
        let stated = plain_int32::reassemble(self.info, &self.samples, &self.literal);
        beside(&stated)?;
        if let Some(theirs) = their_int32::reassemble(self.info, &self.samples, &self.literal) {
            beside(&theirs).map_err(|said| format!("beside the published Rust, {said}"))?;
        }
        if let Ok((bits, wide)) = stated {
            self.comes_apart(&wide, bits)?;
        }
        Ok(refusal)
    }

    fn smaller(&self) -> Smaller<'_, Reassembly> {
        let infos = int32_fields::smaller(self.info).map(|info| self.with(info, self.samples.clone()));
        let lists = shorter(&self.samples).map(|samples| self.with(self.info, samples));
        let plain = plainer(&self.samples).map(|samples| Reassembly { samples, ..self.clone() });
        let literals = shorter(&self.literal).chain(plainer(&self.literal));
        let literals = literals.map(|literal| Reassembly { literal, ..self.clone() });
        let slots = (self.slots > 1).then(|| Reassembly { slots: 1, ..self.clone() });
        Box::new(lists.chain(infos).chain(plain).chain(literals).chain(slots))
    }
}

/// Samples with just the literal bits that they need.
fn whole(random: &mut Random, info: Int32Info, samples: Vec<i32>) -> Reassembly {
    let literal = fresh(random, literal_bytes(info, samples.len()));
    Reassembly { info, samples, literal, slots: 1 }
}

/// Samples, half the time such as lose no bit.
pub fn samples(random: &mut Random, info: Int32Info, count: usize) -> Vec<i32> {
    let by = if random.once_in(2) { shift(info).min(MAX_FIELD) } else { 0 };
    (0..count).map(|_| numbers::any(random) >> by).collect()
}

/// Every number of sent bits with every way to put bits in, on samples at the ends of 32 bits and at
/// the ends of what loses no bit, with literal bits that are all 0, all 1 and random; then several
/// fields at once, and fields that are too large.
fn every_field(run: &mut Run) -> Result<(), Failed> {
    let ends = ends();
    for info in every_setting() {
        let length = literal_bytes(info, ends.len());
        for by in [0, shift(info).min(MAX_FIELD)] {
            for literal in [vec![0; length], vec![0xff; length], run.random.bytes(length)] {
                let samples = ends.iter().map(|sample| sample >> by).collect();
                run.agree(Reassembly { info, samples, literal, slots: 1 })?;
            }
        }
    }
    for info in two_at_once(&mut run.random) {
        let list = samples(&mut run.random, info, 9);
        let case = whole(&mut run.random, info, list);
        run.agree(case)?;
    }
    for (place, field) in (0..4).flat_map(|place| BEYOND.map(|field| (place, field))) {
        let case = whole(&mut run.random, info_of([3, 2, 0, 0]), vec![1, -2, 3]);
        run.agree(Reassembly { info: with_field(case.info, place, field), ..case })?;
    }
    Ok(())
}

/// Up to 33 samples with every number of sent bits, so that the literal bits end in each bit, and
/// every length of these up to some bytes more than they need.
fn every_length(run: &mut Run) -> Result<(), Failed> {
    for (count, sent_bits) in (0..34).flat_map(|count| (0..=MAX_FIELD).map(move |bits| (count, bits))) {
        let random = &mut run.random;
        let info = Int32Info { sent_bits, ..int32_fields::any(random) };
        let (list, asked) = (samples(random, info, count), literal_bytes(info, count));
        let case = Reassembly { info, samples: list, literal: fresh(random, asked + 9), slots: 1 };
        for length in (0..asked + 3).chain([asked + 9]) {
            let slots = run.random.pick(&[0, 1, 1, 1, 2, 3]);
            run.agree(Reassembly { literal: case.literal[..length].to_vec(), slots, ..case.clone() })?;
        }
    }
    Ok(())
}

/// Every set of faults at once: no slot, a field that is too large, too many samples, literal bits
/// that are a byte short.
fn fault_sets(run: &mut Run) -> Result<(), Failed> {
    for set in 0..16 {
        let [slot, field, many, short] = std::array::from_fn(|fault| set >> fault & 1 == 1);
        for place in 0..4 {
            let count = if many { MAX_SAMPLES + 1 } else { 6 };
            let list = numbers::list(&mut run.random, count);
            let mut case = whole(&mut run.random, info_of([5, 0, 1, 2]), list);
            case.slots -= usize::from(slot);
            case.literal.truncate(case.literal.len() - usize::from(short));
            if field {
                case.info = with_field(case.info, place, run.random.pick(&BEYOND));
            }
            run.agree(case)?;
        }
    }
    Ok(())
}

/// Samples around their limit, with literal bits that are a byte short, just enough, a byte more and
/// many more; then literal bits far more than any samples need.
fn largest(run: &mut Run) -> Result<(), Failed> {
    for (count, info) in around(MAX_SAMPLES) {
        let random = &mut run.random;
        let (list, asked) = (samples(random, info, count), literal_bytes(info, count));
        let case = Reassembly { info, samples: list, literal: fresh(random, asked + 1000), slots: 1 };
        for length in [asked.saturating_sub(1), asked, asked + 1, asked + 1000] {
            run.agree(Reassembly { literal: case.literal[..length].to_vec(), ..case.clone() })?;
        }
    }
    let literal = run.random.bytes(4 << 20);
    run.agree(Reassembly { info: info_of([31, 0, 0, 1]), samples: vec![1, -1, 0], literal, slots: 1 })
}

/// Mostly a short list, at times with one thing that is refused.
fn random_reassembly(random: &mut Random) -> Reassembly {
    let (info, count) = (int32_fields::any(random), random.below(30));
    let list = samples(random, info, count);
    let mut case = whole(random, info, list);
    match random.below(12) {
        0 => case.literal.truncate(random.below(case.literal.len() + 1)),
        1 => case.slots = random.below(4),
        2 => case.info = int32_fields::any(random),
        3 => case.info = int32_fields::beyond(random, info),
        _ => case.literal.extend(random.bytes(9)),
    }
    case
}

pub fn run(run: &mut Run) -> Result<(), Failed> {
    every_field(run)?;
    every_length(run)?;
    fault_sets(run)?;
    largest(run)?;
    for _ in 0..100_000 * run.scale {
        let case = random_reassembly(&mut run.random);
        run.agree(case)?;
    }
    Ok(())
}
