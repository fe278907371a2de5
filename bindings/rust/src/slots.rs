//! The slots of the C interface and what they hold: the order of each list stands here, but for those of
//! a pass and of an archive, which stand with `Pass` and `Recordings`, and nowhere else in Rust.
use crate::{Delta, Medians, Packed, Reading, TermByte, Wave, WordState, Zone};

/// A value that the C interface reads or writes as a list of numbers, its slots, in the order of
/// `include/wavpack_stereo.h`.
pub trait Slots: Sized {
    /// The list: an array of as many numbers as there are slots.
    type List;

    /// The value that the slots hold.
    fn from_slots(list: Self::List) -> Self;

    /// The slots that hold the value.
    fn slots(&self) -> Self::List;
}

/// Left medians 0, 1, 2, right medians 0, 1, 2.
impl<T: Copy> Slots for Medians<T> {
    type List = [T; 6];

    fn from_slots([a, b, c, d, e, f]: [T; 6]) -> Medians<T> {
        [[a, b, c], [d, e, f]]
    }

    fn slots(&self) -> [T; 6] {
        let [[a, b, c], [d, e, f]] = *self;
        [a, b, c, d, e, f]
    }
}

/// Term, delta.
impl Slots for TermByte {
    type List = [i32; 2];

    fn from_slots([term, delta]: [i32; 2]) -> TermByte {
        TermByte { term, delta: Delta(delta) }
    }

    fn slots(&self) -> [i32; 2] {
        [self.term, self.delta.0]
    }
}

/// Bits used, medians, samples written, bits read for left and for right.
impl Slots for Reading {
    type List = [u32; 10];

    fn from_slots([bits_used, medians @ .., written, left, right]: [u32; 10]) -> Reading {
        let (medians, written) = (Medians::from_slots(medians), written as usize);
        Reading { bits_used, medians, written, bits_read: [left, right] }
    }

    fn slots(&self) -> [u32; 10] {
        let ([a, b, c, d, e, f], [left, right]) = (self.medians.slots(), self.bits_read);
        // A reading writes at most 262,144 samples.
        let written = u32::try_from(self.written).unwrap_or(u32::MAX);
        [self.bits_used, a, b, c, d, e, f, written, left, right]
    }
}

/// Bits written, medians.
impl Slots for Packed {
    type List = [u32; 7];

    fn from_slots([bits_written, medians @ ..]: [u32; 7]) -> Packed {
        Packed { bits_written, medians: Medians::from_slots(medians) }
    }

    fn slots(&self) -> [u32; 7] {
        let [a, b, c, d, e, f] = self.medians.slots();
        [self.bits_written, a, b, c, d, e, f]
    }
}

/// Rate, samples written.
impl Slots for Wave {
    type List = [u32; 2];

    fn from_slots([rate, written]: [u32; 2]) -> Wave {
        Wave { rate, written: written as usize }
    }

    fn slots(&self) -> [u32; 2] {
        // A sound file holds at most 262,144 samples.
        [self.rate, u32::try_from(self.written).unwrap_or(u32::MAX)]
    }
}

/// Place, next_channel, last_zero, last_one, zero_run_pending, run_break, ever_took_zero_run,
/// medians, bits read for left and for right. A flag is set where its slot is not 0.
impl Slots for WordState {
    type List = [u32; 15];

    fn from_slots(list: [u32; 15]) -> WordState {
        let [place, next_channel, last_zero, last_one, zero_run_pending, rest @ ..] = list;
        let [run_break, ever_took_zero_run, medians @ .., left, right] = rest;
        WordState {
            place,
            next_channel,
            last_zero: last_zero != 0,
            last_one: last_one != 0,
            zero_run_pending,
            run_break: run_break != 0,
            ever_took_zero_run: ever_took_zero_run != 0,
            medians: Medians::from_slots(medians),
            bits_read: [left, right],
        }
    }

    #[rustfmt::skip]
    fn slots(&self) -> [u32; 15] {
        let ([a, b, c, d, e, f], [left, right]) = (self.medians.slots(), self.bits_read);
        [
            self.place, self.next_channel, self.last_zero.into(), self.last_one.into(), self.zero_run_pending,
            self.run_break.into(), self.ever_took_zero_run.into(), a, b, c, d, e, f, left, right,
        ]
    }
}

/// The report of a word: 0 for none, or 1 plus the number of the zone; then the count.
impl Slots for Option<Zone> {
    type List = [u32; 2];

    fn from_slots([zone, ones_count]: [u32; 2]) -> Option<Zone> {
        match zone {
            0 => None,
            1 => Some(Zone::Zone0),
            2 => Some(Zone::Zone1),
            3 => Some(Zone::Zone2),
            _ => Some(Zone::Zone2Overflow { ones_count }),
        }
    }

    fn slots(&self) -> [u32; 2] {
        match *self {
            None => [0, 0],
            Some(Zone::Zone0) => [1, 0],
            Some(Zone::Zone1) => [2, 1],
            Some(Zone::Zone2) => [3, 2],
            Some(Zone::Zone2Overflow { ones_count }) => [4, ones_count],
        }
    }
}

#[cfg(test)]
mod tests {
    use super::*;

    #[test]
    fn each_slot_stands_where_the_header_says() {
        let state = WordState::from_slots([1, 2, 1, 0, 3, 0, 1, 10, 11, 12, 20, 21, 22, 30, 31]);
        assert_eq!((state.place, state.next_channel, state.zero_run_pending), (1, 2, 3));
        assert!(state.last_zero && !state.last_one && !state.run_break && state.ever_took_zero_run);
        assert_eq!((state.medians, state.bits_read), ([[10, 11, 12], [20, 21, 22]], [30, 31]));
        let reading = Reading::from_slots([1, 10, 11, 12, 20, 21, 22, 2, 30, 31]);
        assert_eq!((reading.bits_used, reading.written, reading.bits_read), (1, 2, [30, 31]));
        assert_eq!(reading.medians, [[10, 11, 12], [20, 21, 22]]);
        let packed = Packed::from_slots([1, 10, 11, 12, 20, 21, 22]);
        assert_eq!(packed, Packed { bits_written: 1, medians: [[10, 11, 12], [20, 21, 22]] });
        assert_eq!(Wave::from_slots([44_100, 2]), Wave { rate: 44_100, written: 2 });
        assert_eq!(TermByte::from_slots([18, 2]), TermByte { term: 18, delta: Delta(2) });
        assert_eq!(Option::from_slots([4, 7]), Some(Zone::Zone2Overflow { ones_count: 7 }));
    }

    #[test]
    fn slots_come_back() {
        for flags in 0..16 {
            let [a, b, c, d] = [0, 1, 2, 3].map(|bit| flags >> bit & 1);
            let slots = [1, 2, a, b, 3, c, d, 10, 11, 12, 20, 21, 22, 30, 31];
            assert_eq!(WordState::from_slots(slots).slots(), slots);
        }
        assert_eq!(WordState::from_slots([u32::MAX; 15]).slots()[2..7], [1, 1, u32::MAX, 1, 1]);
        let list = [1, 10, 11, 12, 20, 21, 22, 2, 30, 31];
        assert_eq!(Reading::from_slots(list).slots(), list);
        assert_eq!(Packed::from_slots([1, 2, 3, 4, 5, 6, 7]).slots(), [1, 2, 3, 4, 5, 6, 7]);
        assert_eq!(Wave::from_slots([192_000, 262_144]).slots(), [192_000, 262_144]);
        assert_eq!(TermByte::from_slots([-3, 7]).slots(), [-3, 7]);
        for report in [[0, 0], [1, 0], [2, 1], [3, 2], [4, 3], [4, u32::MAX]] {
            assert_eq!(Option::<Zone>::from_slots(report).slots(), report);
        }
    }
}
