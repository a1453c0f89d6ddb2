//! The functions of the static library, one by one.
//!
//! Each function passes its slices to the function of the same name in `include/virentolex.h`, whose
//! promise is proved for all bytes, and puts the numbers that come back into a struct. `number` is the
//! refusal's number in the customer's papers, 0 if nothing was refused. No function asks anything of its caller.
//!
//! ```
//! use virentolex::raw;
//!
//! let ran = raw::run(b"no table", b"no notice");
//! assert_eq!(ran.number, virentolex::Refusal::Table.number());
//! ```

mod decisions;
pub(crate) mod library;
mod mend;
mod notices;
mod store;
mod tables;

pub use crate::{Edition, Verdict};
pub use decisions::*;
pub use mend::*;
pub use notices::*;
pub use store::*;
pub use tables::*;

/// The most bytes of a text.
///
/// ```
/// use virentolex::{Edition, Refusal, SubscriptionRef, TEXT_MAX};
///
/// let text = [b' '; TEXT_MAX + 1];
/// let refused = SubscriptionRef::translate_in(text, Edition::First, &mut []);
/// assert_eq!(refused, Err(Refusal::Length));
/// ```
pub const TEXT_MAX: usize = 4_096;
/// The most bytes of a table: 10, 512 entries of 12, a pool of 4,096.
///
/// ```
/// use virentolex::{Edition, SubscriptionRef, TABLE_MAX};
///
/// let mut room = [0; TABLE_MAX];
/// assert!(SubscriptionRef::translate_in("Op == 42", Edition::First, &mut room).is_ok());
/// ```
pub const TABLE_MAX: usize = 10_250;
/// The most bytes of a notice.
///
/// ```
/// use virentolex::{NoticeRef, NOTICE_MAX};
///
/// let mut room = [0; NOTICE_MAX];
/// assert!(NoticeRef::from_ubf_in("{\"Op\"42}$", &mut room).is_ok());
/// ```
pub const NOTICE_MAX: usize = 16_384;

/// The bytes of a decision before its table.
///
/// ```
/// use virentolex::{Decision, Edition, SubscriptionRef, DECISION_HEAD};
///
/// let mut room = [0; 48];
/// let subscription = SubscriptionRef::translate_in("Op == 42", Edition::First, &mut room)?;
/// assert!(Decision::open_in([0; DECISION_HEAD + 48], subscription, 2).is_ok());
/// # Ok::<(), virentolex::Refusal>(())
/// ```
pub const DECISION_HEAD: usize = 528;
/// The most bytes of a decision.
///
/// ```
/// use virentolex::{DECISION_HEAD, DECISION_MAX, TABLE_MAX};
///
/// assert_eq!(DECISION_MAX, DECISION_HEAD + TABLE_MAX);
/// ```
pub const DECISION_MAX: usize = DECISION_HEAD + TABLE_MAX;

/// The most tables of one call of `run_many`.
///
/// ```
/// use virentolex::{run_many, Refusal, EMPTY_NOTICE, TABLES_MAX};
///
/// // tables without a byte behind their length words, each refused alone
/// let tables = [0; 4 * (TABLES_MAX + 1)];
/// assert!(run_many(&tables[4..], EMPTY_NOTICE).is_ok());
/// assert_eq!(run_many(tables, EMPTY_NOTICE), Err(Refusal::Tables));
/// ```
pub const TABLES_MAX: usize = 64;
/// The byte of `run_many`, and of a store's match, for a table that fails its check.
///
/// ```
/// use virentolex::raw::{run_many, EMPTY_NOTICE, REFUSED};
///
/// let mut verdicts = [0];
/// run_many(b"???", &EMPTY_NOTICE, &mut verdicts);
/// assert_eq!(verdicts, [REFUSED]);
/// ```
pub const REFUSED: u8 = 3;

/// The most bytes of a UBF(A) text that is written; one that is read may be longer.
///
/// ```
/// use virentolex::{NoticeRef, UBF_TEXT_MAX};
///
/// let mut text = [0; UBF_TEXT_MAX];
/// assert_eq!(NoticeRef::EMPTY.to_ubf_in(&mut text)?, b"{}$");
/// # Ok::<(), virentolex::Refusal>(())
/// ```
pub const UBF_TEXT_MAX: usize = 32_839;

/// The bytes of a table before its entries, and those of an entry.
pub(crate) const TABLE_HEAD: usize = 10;
pub(crate) const ENTRY: usize = 12;
/// The bytes of a field beside its name and its value.
#[cfg(feature = "alloc")]
pub(crate) const FIELD_HEAD: usize = 5;

/// The library's index for a name that no field has.
const NO_FIELD: usize = 64;
/// The library's number where no entry is undecided.
const NO_ENTRY: u16 = 65_535;

/// The notice without fields, with which a new notice is begun.
///
/// ```
/// use virentolex::{NoticeRef, EMPTY_NOTICE};
///
/// assert_eq!(NoticeRef::from_bytes(&EMPTY_NOTICE).map(NoticeRef::len), Ok(0));
/// ```
pub const EMPTY_NOTICE: [u8; 8] = [4, 0, 0, 0, 1, 0, 0, 0];

/// The kinds of fields.
///
/// ```
/// assert_eq!(virentolex::raw::kind::OPAQUE, virentolex::Kind::Opaque.number());
/// ```
pub mod kind {
    /// 4 bytes, little-endian.
    ///
    /// ```
    /// use virentolex::{raw::kind, Value};
    ///
    /// assert_eq!(Value::Int32(0).kind().number(), kind::INT32);
    /// ```
    pub const INT32: u16 = 1;
    /// 8 bytes, little-endian.
    ///
    /// ```
    /// use virentolex::{raw::kind, Value};
    ///
    /// assert_eq!(Value::Int64(0).kind().number(), kind::INT64);
    /// ```
    pub const INT64: u16 = 2;
    /// 8 bytes, little-endian, the bits of an `f64`.
    ///
    /// ```
    /// use virentolex::{raw::kind, Value};
    ///
    /// assert_eq!(Value::Real64(0.0).kind().number(), kind::REAL64);
    /// ```
    pub const REAL64: u16 = 3;
    /// 0 to 1,024 bytes. `size` counts its UTF-8 characters, and is bottom if they are ill-formed.
    ///
    /// ```
    /// use virentolex::{raw::kind, Value};
    ///
    /// assert_eq!(Value::String(b"").kind().number(), kind::STRING);
    /// ```
    pub const STRING: u16 = 4;
    /// 0 to 1,024 bytes. `size` counts them.
    ///
    /// ```
    /// use virentolex::{raw::kind, Value};
    ///
    /// assert_eq!(Value::Opaque(b"").kind().number(), kind::OPAQUE);
    /// ```
    pub const OPAQUE: u16 = 5;
}
