//! The kinds of comparison, one module each.
use crate::case::{Failed, Run};

mod archive_bytes;
pub mod archive_case;
mod archive_keys;
mod archive_reads;
pub mod archive_writes;
mod chosen_fields;
mod counts;
mod cuts;
pub mod deconstruction;
pub mod entropy;
mod histories;
mod joined;
mod log_words;
pub mod making;
pub mod packs;
pub mod page_case;
mod pages;
mod pass_bytes;
mod pass_calls;
pub mod passes;
pub mod reads;
pub mod reassembly;
pub mod wave_exports;
pub mod wave_imports;
pub mod word_totals;
pub mod words;

/// A kind: its name, and what runs it.
pub type Kind = (&'static str, fn(&mut Run) -> Result<(), Failed>);

/// Every kind, in the order in which they run.
pub const KINDS: &[Kind] = &[
    ("log words", log_words::run),
    ("term bytes", pass_bytes::run_terms),
    ("weight bytes", pass_bytes::run_weights),
    ("entropy payloads", entropy::run),
    ("words", words::run),
    ("word histories", histories::run),
    ("counts", counts::run),
    ("readings", reads::run),
    ("pass making", making::run),
    ("decorrelation and analysis", passes::run),
    ("pass lists joined", joined::run),
    ("buffers cut into parts", cuts::run),
    ("packing", packs::run),
    ("exports of sound files", wave_exports::run),
    ("imports of sound files", wave_imports::run),
    ("morning pages", pages::run),
    ("reassembly of wide samples", reassembly::run),
    ("deconstruction of wide samples", deconstruction::run),
    ("deconstruction by fields that the Rust chose", chosen_fields::run),
    ("recordings written as archive files", archive_writes::run),
    ("archive files read", archive_reads::run),
    ("archive files with one byte altered", archive_bytes::run),
    ("archive files with superseded recordings", archive_keys::run),
];
