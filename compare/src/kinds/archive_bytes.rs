//! Every byte of an archive file altered to every other value: refused with 18 and the block that holds
//! the byte, and nothing else is written. The rule says so itself (Q9.7), so that no other reading is
//! needed beside ours.
use crate::archive_files::eight_blocks;
use crate::case::{Case, Failed, Run, Smaller, same};
use crate::lent::Lent;
use crate::their_archives::{BLOCK, listed};
use std::cell::RefCell;
use std::fmt;
use wavpack_stereo::ffi;

/// A file and the storage for its reading, which all alterations use in turn.
struct Lists {
    file: Lent<u8>,
    list: Lent<u32>,
    payloads: Lent<u8>,
}

/// The file with a byte altered by these bits.
#[derive(Clone)]
struct Altered<'a> {
    lists: &'a RefCell<Lists>,
    place: usize,
    bits: u8,
}

impl fmt::Debug for Altered<'_> {
    fn fmt(&self, f: &mut fmt::Formatter<'_>) -> fmt::Result {
        let whole = self.lists.borrow_mut().file.list().to_vec();
        let (place, bits) = (self.place, self.bits);
        write!(f, "Altered {{ bits {bits:02x} of byte {place} changed in {whole:02x?} }}")
    }
}

impl Case for Altered<'_> {
    fn compare(&self) -> Result<u32, String> {
        let Lists { file, list, payloads } = &mut *self.lists.borrow_mut();
        let mut answer = [0x5a5a_5a5a; 2];
        file.list()[self.place] ^= self.bits;
        let refusal = ffi::archive_read(file.list(), list.list(), payloads.list(), &mut answer);
        file.list()[self.place] ^= self.bits;
        same("refusal", &refusal, &18)?;
        same("answer", &answer, &[(self.place / BLOCK) as u32, 0])?;
        file.kept("file")?;
        list.kept("list")?;
        payloads.kept("payloads")?;
        Ok(refusal)
    }

    fn smaller(&self) -> Smaller<'_, Self> {
        Box::new(
            (0..8).map(|bit| 1 << bit).filter(|&bits| bits < self.bits).map(|bits| Altered { bits, ..*self }),
        )
    }
}

/// All alterations of a file.
fn all(run: &mut Run, file: &[u8]) -> Result<(), Failed> {
    let whole = listed(file).unwrap_or_else(|refused| unreachable!("{refused:?}"));
    let lists = RefCell::new(Lists {
        file: Lent::holding(file),
        list: Lent::marked(whole.list.len()),
        payloads: Lent::marked(whole.payloads.len()),
    });
    for place in 0..file.len() {
        for bits in 1..=u8::MAX {
            run.agree(Altered { lists: &lists, place, bits })?;
        }
    }
    Ok(())
}

pub fn run(run: &mut Run) -> Result<(), Failed> {
    for _ in 0..run.scale {
        let file = eight_blocks(&mut run.random);
        all(run, &file)?;
    }
    Ok(())
}
