//! Reading one word at a time.
use crate::slots::Slots;
use crate::{Medians, Refusal, ffi, read};

/// What reading carries from word to word. The caller holds it.
#[derive(Clone, Copy, Debug, Default, PartialEq, Eq, Hash)]
pub struct WordState {
    /// How many bits lie before the next word.
    pub place: u32,
    /// The channel due: 0 left, 1 right.
    pub next_channel: u32,
    /// The next word has count 0 and reads no prefix.
    pub last_zero: bool,
    /// The next word's count is one higher than its prefix says.
    pub last_one: bool,
    /// How many zeros of a run are still to come.
    pub zero_run_pending: u32,
    /// A run was read: the next word outside it reads no run length.
    pub run_break: bool,
    /// A run was read in this block.
    pub ever_took_zero_run: bool,
    /// The medians of both channels.
    pub medians: Medians,
    /// The bits read for left and for right, two totals that together may not exceed the place. The
    /// bits from the place before a word to the place after it, those of a run length among them, are
    /// added to the total of the channel that was due; a zero out of a run adds nothing.
    pub bits_read: [u32; 2],
}

/// An accepted word.
#[derive(Clone, Copy, Debug, PartialEq, Eq, Hash)]
pub struct Word {
    /// Its sample.
    pub sample: i32,
    /// Where its value lies between the medians; none for a zero out of a run.
    pub zone: Option<Zone>,
}

/// Where the value of a word lies between the medians of its channel.
#[derive(Clone, Copy, Debug, PartialEq, Eq, Hash)]
pub enum Zone {
    /// Count 0.
    Zone0,
    /// Count 1.
    Zone1,
    /// Count 2.
    Zone2,
    /// A count of 3 or more.
    Zone2Overflow {
        /// The count.
        ones_count: u32,
    },
}

impl WordState {
    /// The state before the first word, with the seed medians of both channels.
    #[must_use]
    pub fn new(medians: Medians) -> WordState {
        WordState { medians, ..WordState::default() }
    }

    /// The state before the first word of a block with this entropy payload.
    ///
    /// # Errors
    ///
    /// Refuses an entropy payload as [`read`] does: [`Refusal::EntropyLength`],
    /// [`Refusal::LogWordOutOfReach`], [`Refusal::NotStereo`].
    pub fn from_entropy(entropy: &[u8]) -> Result<WordState, Refusal> {
        // A reading of no frames reads no bit and reports the medians that it starts from.
        let reading = read(entropy, &[], 0, &mut [])?;
        Ok(WordState::new(reading.medians))
    }
}

/// Reads the word at the state's place and moves the state past it.
///
/// # Errors
///
/// Refuses [`Refusal::TooLarge`] for the payload, [`Refusal::InvalidChannel`] for `next_channel` or for
/// totals in `bits_read` that together exceed the place, [`Refusal::Truncated`] or
/// [`Refusal::EndOfStream`], with the state as it was: a controller that follows a recording tries
/// again when more bytes are there.
///
/// # Examples
///
/// ```
/// use wavpack_stereo::{Refusal, WordState, Zone, word};
/// let entropy = [0, 1, 0, 1, 0, 1, 0, 1, 0, 1, 0, 1];
/// let mut state = WordState::from_entropy(&entropy)?;
/// let before = state;
/// assert_eq!(word(&[0x7e], &mut state), Err(Refusal::Truncated));
/// assert_eq!(state, before);
///
/// let first = word(&[0x7e, 0x02], &mut state)?;
/// assert_eq!((first.sample, first.zone), (3, Some(Zone::Zone2Overflow { ones_count: 3 })));
/// assert_eq!((state.place, state.next_channel, state.medians), (9, 1, [[6, 6, 6], [1, 1, 1]]));
/// assert_eq!(state.bits_read, [9, 0]);
/// assert_eq!(word(&[0x7e, 0x02], &mut state)?.sample, -1);
/// assert_eq!((state.place, state.bits_read), (10, [9, 1]));
///
/// state.bits_read = [9, 2];
/// assert_eq!(word(&[0x7e, 0x02], &mut state), Err(Refusal::InvalidChannel));
/// # Ok::<(), Refusal>(())
/// ```
pub fn word(payload: &[u8], state: &mut WordState) -> Result<Word, Refusal> {
    let (mut slots, mut sample, mut report) = (state.slots(), [0], [0; 2]);
    Refusal::outcome(ffi::word(payload, &mut slots, &mut sample, &mut report))?;
    *state = WordState::from_slots(slots);
    Ok(Word { sample: sample[0], zone: Option::from_slots(report) })
}
