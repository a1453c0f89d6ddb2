//! A second implementation of document 01, and of document 02's requests, in plain Rust, written from
//! the papers and not from the crates beside it. It is there to be compared with them; it is short
//! rather than fast. Words in quotes are document 01's, where a module does not say otherwise.
#![forbid(unsafe_code)]

pub mod compile;
pub mod edition;
pub mod exact;
pub mod grammar;
pub mod judge;
pub mod many;
pub mod meaning;
pub mod mend;
pub mod notice;
pub mod op;
pub mod quorum;
pub mod regex;
pub mod run;
pub mod store;
pub mod table;
pub mod tokens;
pub mod ubf;
pub mod utf8;
pub mod value;
pub mod vectors;
pub mod verdict;
pub mod wildcard;

pub use compile::{translate, Translation};
pub use edition::Edition;
pub use many::{run_many, Many};
pub use meaning::meaning;
pub use mend::{mend, Mending};
pub use notice::{check_notice, find, read, write, Finding, Reading, Writing};
pub use run::{run, Running};
pub use table::{check, describe, Described};
pub use value::Truth;
pub use verdict::verdict;

/// "text over 4,096 bytes"
pub const MOST_TEXT: usize = 4096;
/// "over 512 entries"
pub const MOST_ENTRIES: usize = 512;
/// "depth is at most 32"
pub const MOST_SLOTS: usize = 32;
/// "pool length 0..4,096"
pub const MOST_POOL: usize = 4096;
/// "Whole notice at most 16,384 bytes"
pub const MOST_NOTICE: usize = 16384;
/// "field count 0..64"
pub const MOST_FIELDS: usize = 64;

/// "Little-endian.": the word of `width` bytes at `at`, if it lies in `bytes`.
pub(crate) fn word(bytes: &[u8], at: usize, width: usize) -> Option<u64> {
    let part = bytes.get(at..at.checked_add(width)?)?;
    Some(
        part.iter()
            .rev()
            .fold(0, |sum, byte| sum << 8 | u64::from(*byte)),
    )
}
