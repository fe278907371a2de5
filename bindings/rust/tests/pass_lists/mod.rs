//! Random lists of passes, and what the tests share that cut such a list, or a buffer, into parts.
use crate::random::Random;
use std::ops::Range;
use wavpack_stereo::{Pass, Refusal};

/// The thirteen valid terms.
const TERMS: [i32; 13] = [1, 2, 3, 4, 5, 6, 7, 8, 17, 18, -1, -2, -3];

impl Random {
    /// A pass of a valid term, half of them with delta and weights as settings have them.
    pub fn pass(&mut self) -> Pass {
        let mut slots: [i32; Pass::SLOTS] = std::array::from_fn(|_| self.number());
        slots[0] = TERMS[self.below(TERMS.len())];
        if self.below(2) == 0 {
            slots[1] = self.below(8) as i32;
            slots[2] = self.below(2_049) as i32 - 1_024;
            slots[3] = self.below(2_049) as i32 - 1_024;
        }
        Pass::from_slots(slots)
    }

    pub fn passes(&mut self, count: usize) -> Vec<Pass> {
        (0..count).map(|_| self.pass()).collect()
    }
}

/// Decorrelation or analysis.
pub type Call = fn(&mut [Pass], &mut [i32]) -> Result<(), Refusal>;

/// The passes and the buffer that accepted calls leave.
pub type Left = Result<(Vec<Pass>, Vec<i32>), Refusal>;

/// The parts of a list of this length that is cut at these places; without a cut it is one part.
pub fn parts(length: usize, cuts: impl IntoIterator<Item = usize>) -> Vec<Range<usize>> {
    let mut ends = vec![0];
    ends.extend(cuts);
    ends.push(length);
    ends.windows(2).map(|ends| ends[0]..ends[1]).collect()
}

/// Why a call is refused, which leaves list and buffer as they were.
pub fn refused(call: Call, list: &[Pass], buffer: &[i32]) -> Refusal {
    let (mut held, mut kept) = (list.to_vec(), buffer.to_vec());
    let refusal = call(&mut held, &mut kept).unwrap_err();
    assert!(held == list && kept == buffer, "{} passes, refused with {refusal:?}", list.len());
    refusal
}
