//! Virentolex, a verified notification router core, for Rust.
//!
//! A subscription is a text in the Elvin subscription language, translated once to a table. A notice is a list of
//! named fields. Running the subscription on a notice finds one of three verdicts; only a true one is delivered.
//!
//! ```
//! # #[cfg(feature = "alloc")]
//! # fn main() -> Result<(), virentolex::Refusal> {
//! use virentolex::{Edition, Notice, Subscription, Verdict};
//!
//! let subscription = Subscription::translate("Staff != \"417\"", Edition::First)?;
//! let notice = Notice::builder().field("Console", "yard").build()?;
//! // the console sends no Staff field, and a field that is not there is not unequal
//! assert_eq!(subscription.run(&notice)?.verdict, Verdict::Bottom);
//! # Ok(())
//! # }
//! # #[cfg(not(feature = "alloc"))]
//! # fn main() {}
//! ```
//!
//! Everything is a thin shell over a static library whose functions are proved, for all bytes, to keep what
//! `include/virentolex.h` promises; [`raw`] has them one by one. Above them, bytes are checked once by the library and
//! then trusted by their type, and what is refused is a [`Refusal`]. The fields of a checked notice and the entries of
//! a checked table are read here; tests hold this to what the library reads.
//!
//! Each thing has a borrowed form, which needs no allocator, and an owned one: [`SubscriptionRef`] and
//! `Subscription`, [`NoticeRef`] and `Notice`. [`Decision`], [`Store`] and [`Mended`] lie over any buffer.
//!
//! A subscription and the text form of a notice are read by `parse`, too; where a verdict is bottom, [`Why`] is the
//! sentence that says which field was lacking.
//!
//! ```
//! # #[cfg(feature = "alloc")]
//! # fn main() -> Result<(), Box<dyn core::error::Error>> {
//! use virentolex::{Notice, Subscription};
//!
//! let subscription: Subscription = "Load > 3 && size (Note) < 9".parse()?;
//! let notice: Notice = "Load: 4; Note: 7".parse()?;
//! let undecided = subscription.run(&notice)?.undecided.expect("it is bottom");
//! let why = "entry 5: size (Note): Note is an int32, size takes a string or an opaque value";
//! assert_eq!(subscription.why(&notice, undecided)?.to_string(), why);
//! # Ok(())
//! # }
//! # #[cfg(not(feature = "alloc"))]
//! # fn main() {}
//! ```
//!
//! The build links librouter.a, which `tools/staticlib router` writes to target/staticlib of the repository; the variable
//! VIRENTOLEX_LIB names another folder.
//!
//! Features: `std` (by default) makes a refusal a `std::io::Error` where one is asked; `alloc` alone gives the owned
//! forms; without either the crate needs `core` alone.
#![cfg_attr(not(any(test, feature = "std")), no_std)]
#![deny(unsafe_code, missing_docs)]

#[cfg(feature = "alloc")]
extern crate alloc;

mod builder;
mod decision;
mod edition;
mod entry;
mod many;
mod mend;
mod notice;
mod phrase;
#[allow(unsafe_code)]
pub mod raw;
mod refusal;
mod spell;
mod store;
mod subscription;
mod text;
mod ubf;
mod value;
mod verdict;
mod why;

pub use builder::NoticeBuilder;
pub use decision::{Decision, Tally};
pub use edition::Edition;
pub use entry::{Entries, Entry, Operand};
pub use many::{Verdicts, run_many};
pub use mend::{Fate, Fates, Listed, Mended};
pub use notice::{Fields, NoticeRef};
pub use phrase::Phrase;
pub use raw::{
    DECISION_HEAD, DECISION_MAX, EMPTY_NOTICE, LIST_MAX, NOTICE_MAX, STORE_MAX, STORE_MIN,
    STORE_PLACES, STORE_RECORD, TABLE_MAX, TABLES_MAX, TEXT_MAX, UBF_TEXT_MAX,
};
pub use refusal::Refusal;
pub use store::Store;
pub use subscription::SubscriptionRef;
pub use text::TextFault;
pub use value::{Field, Kind, OtherKind, Value};
pub use verdict::{Outcome, Verdict};
pub use why::{Cause, Why};

#[cfg(feature = "alloc")]
pub use {many::Tables, notice::Notice, subscription::Subscription};

#[cfg(test)]
#[allow(unsafe_code)]
mod tests;
