//! Deconstruction by the fields that the published Rust chooses for a recording: what it leaves of
//! the samples and its literal bits are the library's.
use crate::case::{Case, Failed, Run, Smaller, plainer, same, shorter};
use crate::int32_fields::{any, ends, images, settings};
use crate::lent::Lent;
use crate::plain_int32::{BYTES_PER_SAMPLE, MAX_SAMPLES};
use crate::{numbers, ours, their_int32};

#[derive(Clone, Debug)]
pub struct Recording {
    pub samples: Vec<i32>,
}

impl Case for Recording {
    fn compare(&self) -> Result<u32, String> {
        let apart = their_int32::deconstruct(&self.samples);
        let mut samples = Lent::holding(&self.samples);
        let mut literal = Lent::marked(BYTES_PER_SAMPLE * self.samples.len());
        let mut answer = Lent::marked(1);
        let refusal = ours::deconstruct_int32(apart.info, samples.list(), literal.list(), answer.list());
        let said = |said| format!("by {:?}, {said}", apart.info);
        same("refusal", &refusal, &0).map_err(said)?;
        samples.written("samples", &apart.samples).map_err(said)?;
        literal.written("literal bits", &apart.literal).map_err(said)?;
        answer.written("answer", &[self.samples.len() as u32 * apart.info.sent_bits]).map_err(said)?;
        Ok(refusal)
    }

    fn smaller(&self) -> Smaller<'_, Recording> {
        Box::new(shorter(&self.samples).chain(plainer(&self.samples)).map(|samples| Recording { samples }))
    }
}

pub fn run(run: &mut Run) -> Result<(), Failed> {
    let ends = ends();
    // Recordings of every number of bits, with every redundancy below them.
    for (info, bits) in settings().flat_map(|info| (0..32).map(move |bits| (info, bits))) {
        let samples: Vec<i32> = ends.iter().map(|sample| sample >> bits).collect();
        run.agree(Recording { samples: images(info, &samples) })?;
    }
    for _ in 0..20_000 * run.scale {
        let random = &mut run.random;
        let (info, count, by) = (any(random), random.below(30), random.below(32));
        let samples: Vec<i32> = numbers::list(random, count).into_iter().map(|sample| sample >> by).collect();
        run.agree(Recording { samples: images(info, &samples) })?;
    }
    for by in [0, 1, 8, 31] {
        let samples = numbers::list(&mut run.random, MAX_SAMPLES);
        run.agree(Recording { samples: samples.into_iter().map(|sample| sample >> by).collect() })?;
    }
    Ok(())
}
