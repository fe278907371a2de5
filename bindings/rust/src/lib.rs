//! The proved decoder and writer of stereo WavPack recordings, for greenhouse controllers in Rust.
//!
//! Thin and safe functions over the library `libwavpack_stereo.a`: each hands its slices to the C
//! interface and names what it answers. Nothing is allocated, no list is copied, and no state is kept
//! between calls. They have the names of the C functions, without `wv_`, and the same order of arguments.
//!
//! | function | what it does |
//! |---|---|
//! | [`log_word`] | gives the value of a log word: a seed or a median |
//! | [`term_byte`] | gives the term and the delta of a pass |
//! | [`weight_byte`] | gives a weight of a pass |
//! | [`entropy`] | gives the medians of an entropy payload |
//! | [`read`] | reads a packed payload into residuals |
//! | [`word`] | reads one word, for a controller that follows a recording as it comes in |
//! | [`Pass::new`] | makes a pass (`wv_pass`) |
//! | [`decorrelate`] | turns residuals into samples by passes |
//! | [`analyse`] | turns samples into residuals by passes |
//! | [`pack`] | packs residuals into a payload |
//! | [`wave_export`] | writes samples as a sound file, which audio editors open |
//! | [`wave_import`] | reads such a sound file |
//! | [`morning_page`] | writes peaks and clicks of samples as a page of text |
//! | [`reassemble_int32`] | completes samples that are wider than the words, after [`decorrelate`] |
//! | [`deconstruct_int32`] | makes such samples narrow, before [`analyse`] |
//! | [`archive_write`] | writes a packed recording as blocks of an archive file |
//! | [`archive_read`] | reads such a file: the recordings that are in force |
//!
//! The example `wv_file` decodes real `.wv` files, by the steps of docs/WV_FILES.md; `sound_file` exports a
//! recording, `clicks` prints its morning page, `stem_bits` what each stem costs in bits a sample, and
//! `archive` keeps recordings in an archive file.
//!
//! ```
//! use wavpack_stereo::{BYTES_PER_FRAME, Delta, Pass, Refusal, Weight};
//! use wavpack_stereo::{analyse, decorrelate, pack, read};
//! let entropy = [0, 5, 0, 5, 0, 5, 0, 5, 0, 5, 0, 5];
//! let passes = [Pass::new(18, Delta(2), [Weight(512); 2], [&[], &[]])?];
//! let recording = [100, -3, 90, -2];
//!
//! let mut residuals = recording;
//! analyse(&mut passes.clone(), &mut residuals)?;
//! let mut payload = [0; 2 * BYTES_PER_FRAME];
//! let packed = pack(&residuals, &entropy, 2, &mut payload)?;
//!
//! let mut samples = [0; 4];
//! read(&entropy, &payload[..packed.bytes()], 2, &mut samples)?;
//! decorrelate(&mut passes.clone(), &mut samples)?;
//! assert_eq!(samples, recording);
//! # Ok::<(), Refusal>(())
//! ```
//!
//! Every function tests its input itself and ends on every input. What it does not accept it refuses
//! with a [`Refusal`], and then `state`, `passes`, `buffer`, `samples`, `out`, `page`, `literal`, `list` and
//! `payloads` are as they were, with one exception: a reading that a word ends has written the samples of
//! the words before it, and reports how many ([`ReadError`]).
//!
//! Numbers of bits are `u32`, as in the C interface; numbers of bytes and elements are `usize`.
//!
//! With the feature `ffi` the C interface is public as it is, for tests that lend it lists of other
//! lengths than the functions here do.
#![no_std]
#![warn(missing_docs, clippy::undocumented_unsafe_blocks)]
#![warn(clippy::missing_errors_doc, clippy::must_use_candidate)]
#![deny(unsafe_code)]

mod archive;
#[allow(unsafe_code)]
#[cfg(feature = "ffi")]
pub mod ffi;
#[allow(unsafe_code)]
#[cfg(not(feature = "ffi"))]
mod ffi;
mod int32;
mod limits;
mod packing;
mod page;
mod passes;
mod reading;
mod refusal;
mod slots;
mod values;
mod wave;
mod words;

pub use archive::{ArchiveError, Recording, Recordings, archive_read, archive_write};
pub use int32::{Int32Info, deconstruct_int32, reassemble_int32};
pub use limits::*;
pub use packing::{Packed, pack};
pub use page::morning_page;
pub use passes::{Delta, Pass, Weight, analyse, decorrelate};
pub use reading::{ReadError, Reading, read};
pub use refusal::Refusal;
#[cfg(feature = "ffi")]
pub use slots::Slots;
pub use values::{TermByte, entropy, log_word, term_byte, weight_byte};
pub use wave::{Wave, wave_export, wave_import};
pub use words::{Word, WordState, Zone, word};

/// Three numbers for the left channel, then three for the right one.
pub type Medians<T = u32> = [[T; 3]; 2];
