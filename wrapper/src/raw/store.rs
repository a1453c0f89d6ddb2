//! A store of tables that come and go, in one buffer (document 02, request 12). Over any calls from an empty store on a
//! buffer of one length, which nobody else changes, none answers 26.

use super::library;

/// The most bytes of a store's buffer.
///
/// ```
/// use virentolex::{Refusal, Store, STORE_MAX};
///
/// assert!(Store::make([0; STORE_MAX]).is_ok());
/// assert_eq!(Store::make([0; STORE_MAX + 1]).err(), Some(Refusal::Store));
/// ```
pub const STORE_MAX: usize = 65_536;
/// The least bytes of a store's buffer.
///
/// ```
/// use virentolex::{Refusal, Store, STORE_MIN};
///
/// assert!(Store::make([0; STORE_MIN]).is_ok());
/// assert_eq!(Store::make([0; STORE_MIN - 1]).err(), Some(Refusal::Store));
/// ```
pub const STORE_MIN: usize = 8;
/// The places of a store, their numbers being 0 to 63, and so the verdict bytes that a match writes.
///
/// ```
/// use virentolex::{Refusal, Store, STORE_PLACES};
///
/// assert_eq!(Store::make([0; 8])?.fetch(STORE_PLACES), Err(Refusal::NotHeld));
/// # Ok::<(), Refusal>(())
/// ```
pub const STORE_PLACES: usize = 64;
/// The bytes that a table takes in a store beside its own.
///
/// ```
/// use virentolex::{Edition, Store, SubscriptionRef, STORE_MIN, STORE_RECORD};
///
/// let mut room = [0; 48];
/// let subscription = SubscriptionRef::translate_in("Op == 42", Edition::First, &mut room)?;
/// let mut store = Store::make([0; STORE_MIN + STORE_RECORD + 48])?;
/// assert_eq!(store.add(subscription), Ok(0));
/// # Ok::<(), virentolex::Refusal>(())
/// ```
pub const STORE_RECORD: usize = 4;
/// The byte of a match for a place that is free.
///
/// ```
/// use virentolex::raw::{store_make, store_match, EMPTY_NOTICE, FREE};
///
/// let (mut store, mut verdicts) = ([0; 8], [0; 64]);
/// store_make(&mut store);
/// store_match(&store, &EMPTY_NOTICE, &mut verdicts);
/// assert_eq!(verdicts, [FREE; 64]);
/// ```
pub const FREE: u8 = 4;

/// What adding a table answers: the number under which the store holds it, `STORE_PLACES` if refused.
///
/// ```
/// use virentolex::raw::{store_add, Added, STORE_PLACES};
///
/// let refused = store_add(&mut [], b"no table");
/// assert_eq!(refused, Added { number: 26, id: STORE_PLACES });
/// ```
#[derive(Debug, Clone, Copy, PartialEq, Eq)]
pub struct Added {
    /// The refusal, 0 if there is none.
    pub number: u8,
    /// The number under which the table is held.
    pub id: usize,
}

/// What fetching a table answers: the table as a part of the store, an empty part if refused.
///
/// ```
/// use virentolex::raw::{store_fetch, Fetched};
///
/// assert_eq!(store_fetch(b"no store", 0), Fetched { number: 26, table: b"" });
/// ```
#[derive(Debug, Clone, Copy, PartialEq, Eq)]
pub struct Fetched<'a> {
    /// The refusal, 0 if there is none.
    pub number: u8,
    /// The table.
    pub table: &'a [u8],
}

/// What matching a notice answers: the place is that of 11, and else 0.
///
/// ```
/// use virentolex::raw::{store_match, Matched};
///
/// let refused = store_match(b"no store", b"no notice", &mut []);
/// assert_eq!(refused, Matched { number: 26, place: 0 });
/// ```
#[derive(Debug, Clone, Copy, PartialEq, Eq)]
pub struct Matched {
    /// The refusal, 0 if there is none.
    pub number: u8,
    /// The place in the notice of 11; else 0.
    pub place: usize,
}

/// Makes an empty store at the start of the buffer, whatever is in it: 26 for over 65,536 or under 8 bytes. The
/// bytes after it stay, and a refusal changes no byte.
///
/// ```
/// use virentolex::raw::store_make;
///
/// let mut store = [0; 100];
/// assert_eq!(store_make(&mut store), 0);
/// assert_eq!(store_make(&mut store[..7]), 26);
/// ```
pub fn store_make(store: &mut [u8]) -> u8 {
    // SAFETY: the pointer and the length come from one slice, which is borrowed here alone.
    unsafe { library::virentolex_store_make(store.as_mut_ptr(), store.len()) }
}

/// Adds a table to the store at the start of the buffer, under the lowest free number: 26 for no store, 12 for a
/// table that fails its check, 27 for 64 held, then 28 for room. The bytes after the store stay, and a refusal
/// changes no byte. A table that was fetched from this store is copied out first, since it lies in the buffer.
///
/// ```
/// use virentolex::raw::{store_add, store_make, translate};
/// use virentolex::Edition;
///
/// let mut table = [0; 48];
/// translate(Edition::First, b"Op == 42", &mut table);
/// let mut store = [0; 100];
/// store_make(&mut store);
/// assert_eq!(store_add(&mut store, &table).id, 0);
/// assert_eq!(store_add(&mut store, &table).number, 28);
/// ```
pub fn store_add(store: &mut [u8], table: &[u8]) -> Added {
    let mut id = 0;
    // SAFETY: each pointer and length come from one slice, an empty one's pointer is not null; the store and
    // the result are borrowed here alone, so that they overlap nothing.
    let number = unsafe {
        library::virentolex_store_add(
            store.as_mut_ptr(),
            store.len(),
            table.as_ptr(),
            table.len(),
            &mut id,
        )
    };
    Added { number, id }
}

/// Removes a table from the store at the start of the buffer: 26, then 29 for a number not held. Its room is used
/// again. The bytes after the store as it then is stay, and a refusal changes no byte.
///
/// ```
/// use virentolex::raw::{store_make, store_remove};
///
/// let mut store = [0; 100];
/// store_make(&mut store);
/// assert_eq!(store_remove(&mut store, 0), 29);
/// ```
pub fn store_remove(store: &mut [u8], id: usize) -> u8 {
    // SAFETY: the pointer and the length come from one slice, which is borrowed here alone.
    unsafe { library::virentolex_store_remove(store.as_mut_ptr(), store.len(), id) }
}

/// The table of a number in the store at the start of the buffer: 26, then 29 for a number not held. In C the part keeps
/// its bytes until the next remove or make; here it borrows the store.
///
/// ```
/// use virentolex::raw::{store_add, store_fetch, store_make, translate};
/// use virentolex::Edition;
///
/// let mut table = [0; 48];
/// translate(Edition::First, b"Op == 42", &mut table);
/// let mut store = [0; 100];
/// store_make(&mut store);
/// store_add(&mut store, &table);
/// assert_eq!(store_fetch(&store, 0).table, table);
/// assert_eq!(store_fetch(&store, 1).number, 29);
/// ```
pub fn store_fetch(store: &[u8], id: usize) -> Fetched<'_> {
    let (mut start, mut end) = (0, 0);
    // SAFETY: the pointer and the length come from one slice, which is only read; the two results are
    // borrowed here alone.
    let number = unsafe {
        library::virentolex_store_fetch(store.as_ptr(), store.len(), id, &mut start, &mut end)
    };
    Fetched {
        number,
        table: store.get(start..end).unwrap_or_default(),
    }
}

/// Runs every table that the store at the start of the buffer holds on one notice, which is checked once: 26,
/// 11, then 9 for under `STORE_PLACES` bytes of verdicts. The byte of each number is what `run` would answer
/// for the table that is fetched by it: its verdict (`Verdict::of_byte`), or `REFUSED`; `FREE` if no table has
/// the number. The bytes after them stay, and a refusal changes no byte.
///
/// ```
/// use virentolex::raw::{store_add, store_make, store_match, translate, EMPTY_NOTICE, FREE};
/// use virentolex::Edition;
///
/// let mut table = [0; 48];
/// translate(Edition::First, b"Op == 42", &mut table);
/// let mut store = [0; 100];
/// store_make(&mut store);
/// store_add(&mut store, &table);
/// let mut verdicts = [0; 64];
/// assert_eq!(store_match(&store, &EMPTY_NOTICE, &mut verdicts).number, 0);
/// assert_eq!(verdicts[..2], [2, FREE]);
/// ```
pub fn store_match(store: &[u8], notice: &[u8], verdicts: &mut [u8]) -> Matched {
    let mut place = 0;
    // SAFETY: each pointer and length come from one slice, an empty one's pointer is not null; the verdicts
    // and the result are borrowed here alone, so that they overlap nothing.
    let number = unsafe {
        library::virentolex_store_match(
            store.as_ptr(),
            store.len(),
            notice.as_ptr(),
            notice.len(),
            verdicts.as_mut_ptr(),
            verdicts.len(),
            &mut place,
        )
    };
    Matched { number, place }
}
