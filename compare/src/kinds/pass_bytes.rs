//! All 256 term bytes and all 256 weight bytes, each into lists of 0 to one more than is written.
use crate::case::{Case, Failed, Run, Smaller, same};
use crate::lent::Lent;
use crate::ours;
use reference::decorrelation::{decode_term_byte, expand_weights};
use wavpack_stereo::{Delta, Slots, TermByte};

/// A byte of either kind: what our function and the Rust's answer for it.
#[derive(Clone, Debug)]
struct PassByte {
    what: &'static str,
    byte: u8,
    slots: usize,
}

impl PassByte {
    fn ours(&self, out: &mut [i32]) -> u32 {
        match self.what {
            "term" => ours::term_byte(self.byte, out),
            _ => ours::weight_byte(self.byte, out),
        }
    }

    fn theirs(&self) -> Vec<i32> {
        match self.what {
            "term" => {
                let (term, delta) = decode_term_byte(self.byte);
                TermByte { term: term.into(), delta: Delta(delta) }.slots().to_vec()
            }
            _ => expand_weights(&[self.byte]).weights,
        }
    }
}

impl Case for PassByte {
    fn compare(&self) -> Result<u32, String> {
        let theirs = self.theirs();
        let mut out = Lent::marked(self.slots);
        let refusal = self.ours(out.list());
        if self.slots < theirs.len() {
            same("refusal", &refusal, &6)?;
            out.kept("out")?;
            return Ok(refusal);
        }
        same("refusal", &refusal, &0)?;
        out.written("out", &theirs)?;
        Ok(refusal)
    }

    fn smaller(&self) -> Smaller<'_, PassByte> {
        let bytes = [0, self.byte / 2, self.byte.saturating_sub(1)];
        let bytes = bytes.into_iter().filter(move |&byte| byte != self.byte);
        Box::new(bytes.map(move |byte| PassByte { byte, ..*self }))
    }
}

fn run_bytes(run: &mut Run, what: &'static str, most: usize) -> Result<(), Failed> {
    for byte in 0..=u8::MAX {
        for slots in 0..=most {
            run.agree(PassByte { what, byte, slots })?;
        }
    }
    Ok(())
}

pub fn run_terms(run: &mut Run) -> Result<(), Failed> {
    run_bytes(run, "term", 3)
}

pub fn run_weights(run: &mut Run) -> Result<(), Failed> {
    run_bytes(run, "weight", 2)
}
