//! Passes, decorrelation and analysis.
use crate::{Refusal, ffi};

/// By how much a weight moves.
#[derive(Clone, Copy, Debug, Default, PartialEq, Eq, PartialOrd, Ord, Hash)]
pub struct Delta(pub i32);

/// What a source counts in a prediction: 1024 is one.
#[derive(Clone, Copy, Debug, Default, PartialEq, Eq, PartialOrd, Ord, Hash)]
pub struct Weight(pub i32);

/// A decorrelation pass: term, delta, and the weights and histories that decorrelation and analysis
/// move on.
#[derive(Clone, Debug, PartialEq, Eq, Hash)]
#[repr(transparent)]
pub struct Pass([i32; Pass::SLOTS]);

impl Pass {
    /// How many slots of the C interface a pass has: term, delta, weight A, weight B, eight of
    /// history A, eight of history B.
    pub const SLOTS: usize = 20;

    /// Makes a pass; weights and seeds are A's, then B's. Any delta and weights are accepted. An empty
    /// seed means zeros, except that a cross term with an A seed needs a B seed.
    /// [`term_byte`](crate::term_byte), [`weight_byte`](crate::weight_byte) and
    /// [`log_word`](crate::log_word) give its arguments.
    ///
    /// # Errors
    ///
    /// Refuses [`Refusal::InvalidTerm`], also for a term outside 8 bits, then
    /// [`Refusal::SeedTooShort`].
    ///
    /// # Examples
    ///
    /// ```
    /// use wavpack_stereo::{Delta, Pass, Refusal, Weight, term_byte, weight_byte};
    /// let stored = term_byte(0x57);
    /// let weights = [0x7f, 0x80].map(weight_byte);
    /// let pass = Pass::new(stored.term, stored.delta, weights, [&[10, 4], &[1, -2]])?;
    /// assert_eq!((pass.term(), pass.delta()), (18, Delta(2)));
    /// assert_eq!(pass.weights(), [Weight(1024), Weight(-1024)]);
    /// assert_eq!(pass.histories(), [[10, 4, 0, 0, 0, 0, 0, 0], [1, -2, 0, 0, 0, 0, 0, 0]]);
    ///
    /// assert_eq!(Pass::new(9, Delta(2), weights, [&[], &[]]), Err(Refusal::InvalidTerm));
    /// assert_eq!(Pass::new(256 + 18, Delta(2), weights, [&[], &[]]), Err(Refusal::InvalidTerm));
    /// assert_eq!(Pass::new(18, Delta(2), weights, [&[10], &[]]), Err(Refusal::SeedTooShort));
    /// # Ok::<(), Refusal>(())
    /// ```
    pub fn new(term: i32, delta: Delta, weights: [Weight; 2], seeds: [&[i32]; 2]) -> Result<Pass, Refusal> {
        let term = i8::try_from(term).map_err(|_| Refusal::InvalidTerm)?;
        let mut slots = [0; Pass::SLOTS];
        Refusal::outcome(ffi::pass(term, delta, weights, seeds, &mut slots))?;
        Ok(Pass(slots))
    }

    /// The pass that 20 slots hold, as a controller has stored it. Nothing is tested: an invalid
    /// term is refused when the pass is to run.
    #[must_use]
    pub const fn from_slots(slots: [i32; Pass::SLOTS]) -> Pass {
        Pass(slots)
    }

    /// The pass whose accessors give these values. Nothing is tested.
    #[cfg(feature = "ffi")]
    #[must_use]
    pub fn from_parts(term: i32, delta: Delta, weights: [Weight; 2], histories: [[i32; 8]; 2]) -> Pass {
        let [weight_a, weight_b] = weights;
        let mut slots = [0; Pass::SLOTS];
        slots[..4].copy_from_slice(&[term, delta.0, weight_a.0, weight_b.0]);
        slots[4..].copy_from_slice(histories.as_flattened());
        Pass(slots)
    }

    /// Its 20 slots, to be stored.
    #[must_use]
    pub const fn slots(&self) -> &[i32; Pass::SLOTS] {
        &self.0
    }

    /// Its term; one that [`Pass::from_slots`] was given may be invalid.
    #[must_use]
    pub const fn term(&self) -> i32 {
        self.0[0]
    }

    /// By how much its weights move.
    #[must_use]
    pub const fn delta(&self) -> Delta {
        Delta(self.0[1])
    }

    /// The weights of A and B.
    #[must_use]
    pub const fn weights(&self) -> [Weight; 2] {
        [Weight(self.0[2]), Weight(self.0[3])]
    }

    /// The histories of A and B.
    #[must_use]
    pub fn histories(&self) -> [[i32; 8]; 2] {
        [4, 12].map(|from| core::array::from_fn(|i| self.0[from + i]))
    }
}

/// Decorrelation: turns the residuals of `buffer`, left then right, into samples, by each pass in
/// turn, and moves the passes on. An odd last element keeps its value.
///
/// # Errors
///
/// Refuses [`Refusal::TooLarge`], [`Refusal::TooManyPasses`] and [`Refusal::InvalidTerm`], in this order;
/// passes and buffer are then as they were.
///
/// # Examples
///
/// ```
/// use wavpack_stereo::{Delta, Pass, Refusal, Weight, decorrelate};
/// let mut passes = [Pass::new(18, Delta(2), [Weight(1024); 2], [&[10, 4], &[1, -2]])?];
/// let mut buffer = [1, -1];
/// decorrelate(&mut passes, &mut buffer)?;
/// assert_eq!((buffer, passes[0].weights()), ([14, 1], [Weight(1026), Weight(1022)]));
/// # Ok::<(), Refusal>(())
/// ```
///
/// Accepted calls by a list for the microphone and then by one for the stem leave what one call
/// leaves with the second appended to the first, in samples and in all pass states, where both
/// have at most [`MAX_PASSES`](crate::MAX_PASSES) together. That is proved (rows Q4.1 and Q4.2 of
/// docs/PROVED.md).
///
/// ```
/// use wavpack_stereo::{Delta, Pass, Refusal, Weight, decorrelate};
/// let microphone = Pass::new(17, Delta(2), [Weight(1024); 2], [&[10, 4], &[1, -2]])?;
/// let stem = Pass::new(-1, Delta(3), [Weight(256), Weight(1023)], [&[40], &[8]])?;
/// let (mut apart, mut buffer) = ([microphone, stem], [1, -1, 100, 50]);
/// let (mut joined, mut samples) = (apart.clone(), buffer);
/// let (first, second) = apart.split_at_mut(1);
/// decorrelate(first, &mut buffer)?;
/// decorrelate(second, &mut buffer)?;
/// decorrelate(&mut joined, &mut samples)?;
/// assert_eq!((apart, buffer), (joined, samples));
/// # Ok::<(), Refusal>(())
/// ```
///
/// A buffer may be cut into parts, as a viewer does that loads a recording by screens: after any
/// multiple of eight frames, and where no pass has a term 1 to 8, after any whole frame. The passes go
/// on from part to part as each call leaves them. Accepted calls then leave what one call over the
/// whole leaves, in samples and in all pass states; a cut elsewhere gives other samples. A recording
/// of over [`MAX_ELEMENTS`](crate::MAX_ELEMENTS), which one call refuses, may be decorrelated in such
/// parts too, and comes to the same whatever their sizes are. That is proved (rows Q10.1 to Q10.5).
///
/// ```
/// use wavpack_stereo::{Delta, Pass, Refusal, Weight, decorrelate};
/// // The elements of a screen: 1,024 frames, which is 128 times eight.
/// const SCREEN: usize = 2 * 1_024;
/// let start = [
///     Pass::new(3, Delta(2), [Weight(512); 2], [&[], &[]])?,
///     Pass::new(17, Delta(1), [Weight(300), Weight(-40)], [&[10, 4], &[1, -2]])?,
/// ];
/// let residuals: Vec<i32> = (0..5_000).map(|n| n % 97 - 48).collect();
/// let (mut joined, mut samples) = (start.clone(), residuals.clone());
/// decorrelate(&mut joined, &mut samples)?;
///
/// let (mut passes, mut stretch) = (start.clone(), residuals.clone());
/// for screen in stretch.chunks_mut(SCREEN) {
///     decorrelate(&mut passes, screen)?;
/// }
/// assert_eq!((passes, stretch), (joined, samples.clone()));
///
/// // Screens of 1,001 frames: the second one has other samples.
/// let (mut passes, mut stretch) = (start, residuals);
/// for screen in stretch.chunks_mut(2 * 1_001) {
///     decorrelate(&mut passes, screen)?;
/// }
/// assert_eq!(stretch[..2_002], samples[..2_002]);
/// assert_ne!(stretch[2_002..], samples[2_002..]);
/// # Ok::<(), Refusal>(())
/// ```
pub fn decorrelate(passes: &mut [Pass], buffer: &mut [i32]) -> Result<(), Refusal> {
    Refusal::outcome(ffi::decorrelate(ffi::slots(passes), buffer))
}

/// Analysis, the inverse: turns the samples of `buffer` into the residuals that decorrelate to
/// them, and leaves the passes as decorrelation would.
///
/// Of two lists the second is undone before the first: accepted calls by it and then by the first
/// leave what one call leaves with the second appended to the first, where both have at most
/// [`MAX_PASSES`](crate::MAX_PASSES) together (row Q4.3).
///
/// A buffer may be cut into parts where [`decorrelate`] says, and its parts then go from the first to
/// the last here too (row Q10.4).
///
/// # Errors
///
/// Refuses as [`decorrelate`] does.
///
/// # Examples
///
/// ```
/// use wavpack_stereo::{Delta, Pass, Refusal, Weight, analyse, decorrelate};
/// let start = [
///     Pass::new(18, Delta(2), [Weight(1024); 2], [&[10, 4], &[1, -2]])?,
///     Pass::new(-3, Delta(5), [Weight(300), Weight(-40)], [&[], &[]])?,
/// ];
/// let (mut there, mut back) = (start.clone(), start);
/// let mut buffer = [14, 1, i32::MAX, -7];
/// analyse(&mut there, &mut buffer)?;
/// decorrelate(&mut back, &mut buffer)?;
/// assert_eq!(buffer, [14, 1, i32::MAX, -7]);
/// assert_eq!(there, back);
/// # Ok::<(), Refusal>(())
/// ```
pub fn analyse(passes: &mut [Pass], buffer: &mut [i32]) -> Result<(), Refusal> {
    Refusal::outcome(ffi::analyse(ffi::slots(passes), buffer))
}
