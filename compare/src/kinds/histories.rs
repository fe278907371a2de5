//! Histories of words: from a fresh state at place 0 each word goes on from the state and place before,
//! in a payload of its own. After every word each total is the sum over the history of what its own words
//! took, and both together are the place.
use crate::case::{Case, Failed, Run, Smaller, plainer, same, same_list, shorter};
use crate::fields::{self, Bits};
use crate::ours;
use crate::random::Random;
use crate::theirs::{self, State};
use crate::totals::{TOTALS, Took, sums};

/// The seed medians, what each payload holds before its word, and the bytes that each has from there on.
#[derive(Clone, Debug)]
struct History {
    medians: [u32; 6],
    before: u8,
    words: Vec<Vec<u8>>,
}

/// A payload with these bytes from a place on, after bytes of `before`.
fn laid(before: u8, place: usize, bytes: &[u8]) -> Vec<u8> {
    let shift = place % 8;
    let mut out = vec![before; place / 8];
    let mut low = before & ((1 << shift) - 1);
    for &byte in bytes {
        let [this, next] = (u16::from(byte) << shift).to_le_bytes();
        out.push(low | this);
        low = next;
    }
    if shift > 0 {
        out.push(low);
    }
    out
}

impl History {
    /// The words that are accepted, or what differs. A refused one leaves the state as it was, and the
    /// next is tried from there.
    fn walk(&self) -> Result<Vec<Took>, String> {
        let mut state: State = [&[0; 7], &self.medians[..], &[0; 2]].concat().try_into().unwrap();
        let mut history = Vec::new();
        for bytes in &self.words {
            let (before, mut sample, mut report) = (state, [0], [0; 2]);
            let payload = laid(self.before, state[0] as usize, bytes);
            let refusal = ours::word(&payload, &mut state, &mut sample, &mut report);
            match theirs::word(&payload, &before) {
                Ok(word) => {
                    same("refusal", &refusal, &0)?;
                    same_list("state", &state[..TOTALS[0]], &word.state)?;
                    history.push(Took { channel: before[1], bits: word.state[0] - before[0] });
                }
                Err(number) => {
                    same("refusal", &refusal, &number)?;
                    same_list("state", &state, &before)?;
                }
            }
            same_list("totals", &state[TOTALS[0]..], &sums(&history))?;
            same("both totals", &(state[TOTALS[0]] + state[TOTALS[1]]), &state[0])?;
        }
        Ok(history)
    }
}

impl Case for History {
    fn compare(&self) -> Result<u32, String> {
        self.walk().map(|_| 0)
    }

    fn smaller(&self) -> Smaller<'_, History> {
        let words = shorter(&self.words).map(|words| History { words, ..self.clone() });
        let medians = plainer(&self.medians).map(|medians| medians.try_into().unwrap());
        Box::new(words.chain(medians.map(|medians| History { medians, ..self.clone() })))
    }
}

/// The bytes of a word: a count that is a short run length where one is due, then fields; at times cut.
fn word(random: &mut Random) -> Vec<u8> {
    let mut bits = Bits::default();
    // A long run would leave nothing but its zeros.
    bits.ones(random.pick(&[0, 0, 0, 1, 1, 2, 3]));
    bits.field(random);
    let mut bytes = bits.bytes();
    if random.once_in(8) {
        bytes.truncate(random.below(bytes.len() + 1));
    }
    bytes
}

/// A history of so many words, in half of which runs may come at once.
fn history(random: &mut Random, words: usize) -> History {
    let most = random.pick(&[2, u32::MAX]);
    let medians = std::array::from_fn(|_| fields::median(random) % most);
    let before = random.pick(&[0, 0xff, 0xa5]);
    History { medians, before, words: (0..words).map(|_| word(random)).collect() }
}

pub fn run(run: &mut Run) -> Result<(), Failed> {
    let (mut offered, mut accepted) = (0, 0);
    for round in 0..20_000 * run.scale {
        // Rarely one whose totals need more than 16 bits.
        let words = if round % 10_000 == 0 { 12_000 } else { 1 + run.random.below(80) };
        let history = history(&mut run.random, words);
        run.agree(history.clone())?;
        offered += words;
        accepted += history.walk().map_or(0, |history| history.len());
    }
    println!("compare: word histories: {offered} words, of these {accepted} accepted");
    Ok(())
}
