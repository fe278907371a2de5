//! Deconstruction of wide samples, beside the rules: every number of sent bits with every way to
//! take bits out, every bit of an image flipped, every set of faults, and lengths around each limit.
//! What was taken apart is put together again, by the library and by the published Rust.
use super::reassembly::{self, shift};
use crate::case::{Case, Failed, Run, Smaller, plainer, same, same_list, shorter};
use crate::int32_fields::{
    self, BEYOND, around, ends, every_setting, images, info_of, settings, two_at_once, with_field,
};
use crate::lent::Lent;
use crate::plain_int32::{self, BYTES_PER_SAMPLE, MAX_FIELD, MAX_SAMPLES};
use crate::random::Random;
use crate::{numbers, ours, their_int32};
use std::fmt;
use wavpack_stereo::Int32Info;

#[derive(Clone)]
pub struct Deconstruction {
    pub info: Int32Info,
    pub samples: Vec<i32>,
    /// The length of the storage for literal bits, and that of the answer.
    pub room: usize,
    pub slots: usize,
}

impl fmt::Debug for Deconstruction {
    fn fmt(&self, f: &mut fmt::Formatter<'_>) -> fmt::Result {
        let shown = &self.samples[..self.samples.len().min(1024)];
        write!(f, "Deconstruction {{ {:?}, {} samples: {shown:?}, ", self.info, self.samples.len())?;
        write!(f, "room: {}, slots: {} }}", self.room, self.slots)
    }
}

impl Deconstruction {
    /// With other samples; the storage stays as much too short or too long.
    fn with_samples(&self, samples: Vec<i32>) -> Deconstruction {
        let asked = [self.samples.len(), samples.len()].map(|count| BYTES_PER_SAMPLE * count);
        Deconstruction { samples, room: (self.room + asked[1]).saturating_sub(asked[0]), ..*self }
    }

    /// Whether our reassembly gives the samples back, from just the literal bits and with whatever
    /// stands after them, and the published Rust does.
    fn comes_back(&self, left: &[i32], literal: &[u8], bits: u32) -> Result<(), String> {
        let bytes = (bits as usize).div_ceil(8);
        let mut after = literal.to_vec();
        if let (Some(last), used @ 1..) = (after[..bytes].last_mut(), bits % 8) {
            *last |= 0xff << used;
        }
        for literal in [&literal[..bytes], &after] {
            let (mut samples, mut literal) = (Lent::holding(left), Lent::holding(literal));
            let mut answer = Lent::marked(1);
            let refusal = ours::reassemble_int32(self.info, samples.list(), literal.list(), answer.list());
            same("refusal of reassembly", &refusal, &0)?;
            samples.written("samples after reassembly", &self.samples)?;
            answer.written("answer of reassembly", &[bits])?;
        }
        match their_int32::reassemble(self.info, left, literal) {
            Some(Ok((read, samples))) => {
                same("bits that the published Rust reads", &bits, &read)?;
                same_list("samples that the published Rust puts together", &self.samples, &samples)
            }
            refused => Err(format!("the published Rust does not put it together: {refused:?}")),
        }
    }
}

impl Case for Deconstruction {
    fn compare(&self) -> Result<u32, String> {
        let (mut samples, mut literal) = (Lent::holding(&self.samples), Lent::marked(self.room));
        let mut answer = Lent::marked(self.slots);
        let refusal = ours::deconstruct_int32(self.info, samples.list(), literal.list(), answer.list());
        let stated = plain_int32::deconstruct(self.info, &self.samples, self.room);
        match if self.slots < 1 { Err(6) } else { stated } {
            Ok(apart) => {
                same("refusal", &refusal, &0)?;
                samples.written("samples", &apart.samples)?;
                literal.written("literal bits", &apart.literal)?;
                answer.written("answer", &[apart.bits])?;
                self.comes_back(samples.list(), literal.list(), apart.bits)?;
            }
            Err(number) => {
                same("refusal", &refusal, &number)?;
                samples.kept("samples")?;
                literal.kept("literal bits")?;
                answer.kept("answer")?;
            }
        }
        Ok(refusal)
    }

    fn smaller(&self) -> Smaller<'_, Deconstruction> {
        let infos = int32_fields::smaller(self.info).map(|info| Deconstruction { info, ..self.clone() });
        let lists = shorter(&self.samples).map(|samples| self.with_samples(samples));
        let plain = plainer(&self.samples).map(|samples| Deconstruction { samples, ..self.clone() });
        let asked = BYTES_PER_SAMPLE * self.samples.len();
        let rooms = [asked, asked + 1].into_iter().filter(|&room| room < self.room);
        let rooms = rooms.map(|room| Deconstruction { room, ..self.clone() });
        let slots = (self.slots > 1).then(|| Deconstruction { slots: 1, ..self.clone() });
        Box::new(lists.chain(infos).chain(plain).chain(rooms).chain(slots))
    }
}

/// All of a list, with just the storage that it needs.
fn whole(info: Int32Info, samples: Vec<i32>) -> Deconstruction {
    Deconstruction { info, room: BYTES_PER_SAMPLE * samples.len(), samples, slots: 1 }
}

/// Images of any samples.
fn any_images(random: &mut Random, info: Int32Info, count: usize) -> Vec<i32> {
    images(info, &numbers::list(random, count))
}

/// Every number of sent bits with every way to take bits out, on images of samples at the ends of 32
/// bits and of such as lose no bit; then several fields at once.
fn every_field(run: &mut Run) -> Result<(), Failed> {
    let ends = ends();
    for info in every_setting() {
        for by in [0, shift(info).min(MAX_FIELD)] {
            let samples: Vec<i32> = ends.iter().map(|sample| sample >> by).collect();
            run.agree(whole(info, images(info, &samples)))?;
        }
    }
    for info in two_at_once(&mut run.random) {
        let samples = any_images(&mut run.random, info, 9);
        run.agree(whole(info, samples))?;
    }
    for (place, field) in (0..4).flat_map(|place| BEYOND.map(|field| (place, field))) {
        run.agree(whole(with_field(info_of([3, 2, 0, 0]), place, field), vec![4, -8, 0]))?;
    }
    Ok(())
}

/// Images of which one has a bit flipped, each bit in turn, at the first place, the last and between;
/// then every number that differs from 0 or from -1 in its low 9 bits alone.
fn every_flip(run: &mut Run) -> Result<(), Failed> {
    for (info, bit) in settings().flat_map(|info| (0..32).map(move |bit| (info, bit))) {
        for (count, place) in [(1, 0), (9, 0), (9, 4), (9, 8)] {
            let info = Int32Info { sent_bits: run.random.below(32) as u32, ..info };
            let mut case = whole(info, any_images(&mut run.random, info, count));
            case.samples[place] ^= 1 << bit;
            run.agree(case)?;
        }
    }
    for info in settings() {
        for sample in (0..1 << 9).flat_map(|low| [low, !low]) {
            run.agree(whole(info, vec![sample]))?;
        }
    }
    Ok(())
}

/// Up to 33 samples with every number of sent bits, so that the literal bits end in each bit, with
/// storage around what they need; every storage for up to 8 samples.
fn every_length(run: &mut Run) -> Result<(), Failed> {
    for (count, sent_bits) in (0..34).flat_map(|count| (0..=MAX_FIELD).map(move |bits| (count, bits))) {
        let info = Int32Info { sent_bits, ..int32_fields::any(&mut run.random) };
        let case = whole(info, any_images(&mut run.random, info, count));
        let near = [0, case.room / 2, case.room.saturating_sub(1), case.room, case.room + 1, case.room + 9];
        let every = 0..if count < 9 { case.room + 10 } else { 0 };
        for room in near.into_iter().chain(every) {
            let slots = run.random.pick(&[0, 1, 1, 1, 2, 3]);
            run.agree(Deconstruction { room, slots, ..case.clone() })?;
        }
    }
    Ok(())
}

/// Every set of faults at once: no slot, a field that is too large, too many samples, storage that is
/// a byte short, a sample that is no image.
fn fault_sets(run: &mut Run) -> Result<(), Failed> {
    for set in 0..32 {
        let [slot, field, many, short, spoiled] = std::array::from_fn(|fault| set >> fault & 1 == 1);
        for place in 0..4 {
            let count = if many { MAX_SAMPLES + 1 } else { 6 };
            let info = info_of([5, 0, 1, 2]);
            let mut case = whole(info, any_images(&mut run.random, info, count));
            case.slots -= usize::from(slot);
            case.room -= usize::from(short);
            case.samples[run.random.below(count)] ^= i32::from(spoiled);
            if field {
                case.info = with_field(info, place, run.random.pick(&BEYOND));
            }
            run.agree(case)?;
        }
    }
    Ok(())
}

/// Samples around their limit, with storage around what they need; then one sample that is no image,
/// the first or the last, and storage far more than any samples need.
fn largest(run: &mut Run) -> Result<(), Failed> {
    for (count, info) in around(MAX_SAMPLES) {
        let case = whole(info, any_images(&mut run.random, info, count));
        run.agree(case.clone())?;
        run.agree(Deconstruction { room: case.room - 1, ..case })?;
    }
    for place in [0, MAX_SAMPLES - 1] {
        let info = info_of([31, 0, 0, 1]);
        let mut case = whole(info, any_images(&mut run.random, info, MAX_SAMPLES));
        run.agree(Deconstruction { room: case.room + 1000, ..case.clone() })?;
        case.samples[place] ^= 1;
        run.agree(case)?;
    }
    run.agree(Deconstruction {
        info: info_of([31, 0, 0, 1]),
        samples: vec![3, -1, 0],
        room: 4 << 20,
        slots: 1,
    })
}

/// Mostly a short list of images, at times with one thing that is refused.
fn random_deconstruction(random: &mut Random) -> Deconstruction {
    let (info, count) = (int32_fields::any(random), random.below(30));
    let samples = reassembly::samples(random, info, count);
    let mut case = whole(info, images(info, &samples));
    match random.below(12) {
        0 => case.room = random.below(case.room + 40),
        1 => case.slots = random.below(4),
        2 => case.info = int32_fields::any(random),
        3 => case.info = int32_fields::beyond(random, info),
        4 if count > 0 => case.samples[random.below(count)] ^= 1 << random.below(32),
        5 if count > 0 => case.samples[random.below(count)] = numbers::any(random),
        _ => case.room += random.below(40),
    }
    case
}

pub fn run(run: &mut Run) -> Result<(), Failed> {
    every_field(run)?;
    every_flip(run)?;
    every_length(run)?;
    fault_sets(run)?;
    largest(run)?;
    for _ in 0..100_000 * run.scale {
        let case = random_deconstruction(&mut run.random);
        run.agree(case)?;
    }
    Ok(())
}
