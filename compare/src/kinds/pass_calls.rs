//! A call by a list of passes over a buffer, of either side: what lists joined and buffers cut are made of.
use crate::lent::Lent;
use crate::ours as library;
use crate::their_passes::{self, Pass};
use wavpack_stereo::{analyse, decorrelate};

/// The passes and the buffer after a call, or its refusal number.
pub type Left = Result<(Vec<Pass>, Vec<i32>), u32>;

/// A call of one side, of analysis or else of decorrelation; an error where it wrote what it must not.
pub type Call = fn(bool, &[Pass], &[i32]) -> Result<Left, String>;

/// A call of the library, whose lists keep what they held on refusal.
pub fn ours(analyses: bool, list: &[Pass], elements: &[i32]) -> Result<Left, String> {
    let mut passes = Lent::holding(&library::passes(list));
    let mut buffer = Lent::holding(elements);
    let call = if analyses { analyse } else { decorrelate };
    let refusal = library::number(call(passes.list(), buffer.list()));
    if refusal > 0 {
        buffer.kept("buffer")?;
        passes.kept("passes")?;
        return Ok(Err(refusal));
    }
    let (after, turned) = (passes.list().to_vec(), buffer.list().to_vec());
    buffer.written("buffer", &turned)?;
    passes.written("passes", &after)?;
    Ok(Ok((after.iter().map(|pass| *pass.slots()).collect(), turned)))
}

/// The same call of the published Rust.
pub fn theirs(analyses: bool, list: &[Pass], elements: &[i32]) -> Result<Left, String> {
    Ok(their_passes::run(analyses, list, elements))
}

/// The refusal number of a call, 0 for accepted.
pub fn number(left: &Left) -> u32 {
    left.as_ref().err().copied().unwrap_or_default()
}
