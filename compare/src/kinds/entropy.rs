//! Entropy payloads of every length from 0 to 16, with random words and words at the ends of each
//! rule; every log word at each place.
use crate::case::{Case, Failed, Run, Smaller, plainer, same, shorter};
use crate::lent::Lent;
use crate::ours;
use crate::payloads::around_reach;
use crate::random::Random;
use crate::reach;
use crate::theirs;
use wavpack_stereo::Slots;

/// Log words at the ends of a rule: the canonical zero, the shift's pivot, the reach and the words
/// whose bits are shifted out, the ends of 16 bits.
const ENDS: [i16; 22] = [
    0, 1, 255, 256, 257, 2303, 2304, 2559, 2560, 8191, 8192, 8447, 8448, 32767, -1, -255, -256, -257, -8191,
    -8192, -32767, -32768,
];

#[derive(Clone, Debug)]
pub struct Entropy {
    pub payload: Vec<u8>,
    pub slots: usize,
}

impl Case for Entropy {
    fn compare(&self) -> Result<u32, String> {
        let (mut payload, mut medians) = (Lent::holding(&self.payload), Lent::marked(self.slots));
        let refusal = ours::entropy(payload.list(), medians.list());
        payload.kept("payload")?;
        match if self.slots < 6 { Err(6) } else { theirs::info(&self.payload) } {
            Ok(info) => {
                same("refusal", &refusal, &0)?;
                medians.written("medians", &[info.medians_left, info.medians_right].slots())?;
            }
            Err(number) => {
                same("refusal", &refusal, &number)?;
                medians.kept("medians")?;
            }
        }
        Ok(refusal)
    }

    fn smaller(&self) -> Smaller<'_, Entropy> {
        let payloads = shorter(&self.payload).chain(plainer(&self.payload));
        Box::new(payloads.map(|payload| Entropy { payload, ..*self }))
    }

    fn out_of_reach(&self) -> bool {
        reach::holds_one(&self.payload)
    }
}

/// A payload of `length` bytes whose words are random, at an end, or both; one in eight may hold words
/// out of reach.
pub fn payload(random: &mut Random, length: usize) -> Vec<u8> {
    let (ends, any) = (random.below(3), random.once_in(8));
    let mut out = random.bytes(length);
    for pair in out.chunks_exact_mut(2) {
        let is_end = ends == 2 || (ends == 1 && random.once_in(2));
        let word = if is_end { random.pick(&ENDS) } else { random.next() as i16 };
        let word = if any || !reach::is_out_of_reach(word) { word } else { word % 8192 };
        pair.copy_from_slice(&word.to_le_bytes());
    }
    out
}

/// Every log word at each place of 6 and of 12 bytes, and limits of the reach with other faults.
fn words(run: &mut Run) -> Result<(), Failed> {
    for (length, place) in
        [6, 12].into_iter().flat_map(|length| (0..length).step_by(2).map(move |at| (length, at)))
    {
        for word in i16::MIN..=i16::MAX {
            let mut payload = [0, 4].repeat(length / 2);
            payload[place..place + 2].copy_from_slice(&word.to_le_bytes());
            run.agree(Entropy { payload, slots: 6 })?;
        }
    }
    for payload in around_reach() {
        for slots in 5..=7 {
            run.agree(Entropy { payload: payload.clone(), slots })?;
        }
    }
    Ok(())
}

pub fn run(run: &mut Run) -> Result<(), Failed> {
    for round in 0..200_000 * run.scale {
        let random = &mut run.random;
        // The two lengths that are accepted come often, and a list of six medians too.
        let length = if round % 4 == 0 { random.below(17) } else { random.pick(&[6, 12]) };
        let slots = if random.once_in(8) { random.below(9) } else { 6 };
        let payload = payload(random, length);
        run.agree(Entropy { payload, slots })?;
    }
    for length in 0..=16 {
        for slots in 0..=8 {
            let payload = payload(&mut run.random, length);
            run.agree(Entropy { payload, slots })?;
        }
    }
    words(run)
}
