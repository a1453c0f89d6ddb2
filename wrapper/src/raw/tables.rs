//! Translating, checking and running tables.

use super::{Edition, NO_ENTRY, Verdict, library};

/// What translating answers: the place is that in the text for 1, 2 and 3, and else 0; the length is
/// the table's, 0 if refused.
///
/// ```
/// use virentolex::raw::{translate, Translated};
/// use virentolex::Edition;
///
/// let mut table = [0; 48];
/// let answer = translate(Edition::First, b"Op == 42", &mut table);
/// assert_eq!(answer, Translated { number: 0, place: 0, length: 48 });
/// ```
#[derive(Debug, Clone, Copy, PartialEq, Eq)]
pub struct Translated {
    /// The refusal, 0 if there is none.
    pub number: u8,
    /// The place in the text of 1, 2 and 3; else 0.
    pub place: usize,
    /// The table's length, 0 if refused.
    pub length: usize,
}

/// What running answers: if refused, the verdict is bottom and the steps are 0. Undecided is the number of
/// the first visited entry that left bottom on the stack, if one did and nothing was refused; with verdict
/// bottom there is one, with true and false there may be. `entry` tells what it is.
///
/// ```
/// use virentolex::raw::{run, Ran};
/// use virentolex::Verdict;
///
/// let refused = run(b"no table", b"no notice");
/// let verdict = Verdict::Bottom;
/// assert_eq!(refused, Ran { number: 12, place: 0, verdict, steps: 0, undecided: None });
/// ```
#[derive(Debug, Clone, Copy, PartialEq, Eq)]
pub struct Ran {
    /// The refusal, 0 if there is none.
    pub number: u8,
    /// The place in the notice of 11; else 0.
    pub place: usize,
    /// The verdict, bottom if refused.
    pub verdict: Verdict,
    /// The entries that the run visited, 0 if refused.
    pub steps: usize,
    /// The first undecided entry.
    pub undecided: Option<usize>,
}

/// What an entry of a table is: its op, a and b, and of a string (op 4) or a name (op 5) its bytes as a part
/// of the table; if refused, zeros and no bytes.
///
/// ```
/// use virentolex::raw::{entry, Entry};
///
/// let refused = entry(b"no table", 0);
/// assert_eq!(refused, Entry { number: 12, op: 0, a: 0, b: 0, bytes: b"" });
/// ```
#[derive(Debug, Clone, Copy, PartialEq, Eq)]
pub struct Entry<'a> {
    /// The refusal, 0 if there is none.
    pub number: u8,
    /// The op.
    pub op: u16,
    /// The number a.
    pub a: u16,
    /// The number b.
    pub b: u64,
    /// The bytes of a string or a name.
    pub bytes: &'a [u8],
}

/// What running many tables answers: the place is that of 11, and else 0; the count is that of the
/// tables, and of the verdict bytes, 0 if refused.
///
/// ```
/// use virentolex::raw::{run_many, Delivered};
///
/// let refused = run_many(&[], b"no notice", &mut []);
/// assert_eq!(refused, Delivered { number: 11, place: 0, count: 0 });
/// ```
#[derive(Debug, Clone, Copy, PartialEq, Eq)]
pub struct Delivered {
    /// The refusal, 0 if there is none.
    pub number: u8,
    /// The place in the notice of 11; else 0.
    pub place: usize,
    /// How many tables there are.
    pub count: usize,
}

/// Translates a subscription text to a table of the edition at the buffer's start. The bytes after the
/// table stay, and a refusal changes no byte.
///
/// ```
/// use virentolex::raw::translate;
/// use virentolex::Edition;
///
/// let mut table = [0; 48];
/// assert_eq!(translate(Edition::First, b"Op == 42", &mut table).length, 48);
/// let refused = translate(Edition::First, b"Op == 42 &&", &mut table);
/// assert_eq!((refused.number, refused.place), (2, 11));
/// ```
pub fn translate(edition: Edition, text: &[u8], buffer: &mut [u8]) -> Translated {
    translate_numbered(edition.number(), text, buffer)
}

/// As `translate`, the edition by its number, which may come from elsewhere: 25 for another than 1 or 2.
///
/// ```
/// use virentolex::raw::translate_numbered;
///
/// let mut table = [0; 48];
/// assert_eq!(translate_numbered(2, b"Op == 42", &mut table).number, 0);
/// assert_eq!(translate_numbered(3, b"Op == 42", &mut table).number, 25);
/// ```
pub fn translate_numbered(edition: usize, text: &[u8], buffer: &mut [u8]) -> Translated {
    let mut place = 0;
    let mut length = 0;
    // SAFETY: each pointer and length come from one slice, an empty one's pointer is not null; the
    // buffer and the two results are borrowed here alone, so that they overlap nothing.
    let number = unsafe {
        library::virentolex_translate(
            edition,
            text.as_ptr(),
            text.len(),
            buffer.as_mut_ptr(),
            buffer.len(),
            &mut place,
            &mut length,
        )
    };
    Translated {
        number,
        place,
        length,
    }
}

/// Checks a table: 0, or 12 if its layout or its check fails.
///
/// ```
/// use virentolex::raw::{check, translate};
/// use virentolex::Edition;
///
/// let mut table = [0; 48];
/// assert_eq!(check(&table), 12);
/// translate(Edition::First, b"Op == 42", &mut table);
/// assert_eq!(check(&table), 0);
/// ```
pub fn check(table: &[u8]) -> u8 {
    // SAFETY: the pointer and the length come from one slice, which is only read.
    unsafe { library::virentolex_check(table.as_ptr(), table.len()) }
}

/// The entry's number, if the library's is one.
pub(super) fn undecided_of(number: u16) -> Option<usize> {
    (number != NO_ENTRY).then_some(number.into())
}

/// Runs a table on a notice. Both are checked first: 12, then 11. With a table that `translate` wrote, more
/// fields in the notice never turn true or false into another verdict.
///
/// ```
/// use virentolex::raw::{run, translate, EMPTY_NOTICE};
/// use virentolex::{Edition, Verdict};
///
/// let mut table = [0; 48];
/// translate(Edition::First, b"Op == 42", &mut table);
/// let ran = run(&table, &EMPTY_NOTICE);
/// assert_eq!((ran.number, ran.verdict, ran.steps, ran.undecided), (0, Verdict::Bottom, 3, Some(0)));
/// ```
pub fn run(table: &[u8], notice: &[u8]) -> Ran {
    let mut place = 0;
    let mut verdict = 0;
    let mut steps = 0;
    let mut undecided = 0;
    // SAFETY: each pointer and length come from one slice, which is only read; the four results are
    // borrowed here alone.
    let number = unsafe {
        library::virentolex_run(
            table.as_ptr(),
            table.len(),
            notice.as_ptr(),
            notice.len(),
            &mut place,
            &mut verdict,
            &mut steps,
            &mut undecided,
        )
    };
    Ran {
        number,
        place,
        verdict: Verdict::of_number(verdict),
        steps,
        undecided: undecided_of(undecided),
    }
}

/// Tells what entry k of a table is: 12, then 17 if it has no entry k.
///
/// ```
/// use virentolex::raw::{entry, translate};
/// use virentolex::Edition;
///
/// let mut table = [0; 48];
/// translate(Edition::First, b"Op == 42", &mut table);
/// assert_eq!((entry(&table, 0).op, entry(&table, 0).bytes), (5, &b"Op"[..]));
/// assert_eq!(entry(&table, 3).number, 17);
/// ```
pub fn entry(table: &[u8], k: usize) -> Entry<'_> {
    let (mut op, mut a, mut b) = (0, 0, 0);
    let (mut start, mut end) = (0, 0);
    // SAFETY: the pointer and the length come from one slice, which is only read; the five results are
    // borrowed here alone.
    let number = unsafe {
        library::virentolex_entry(
            table.as_ptr(),
            table.len(),
            k,
            &mut op,
            &mut a,
            &mut b,
            &mut start,
            &mut end,
        )
    };
    Entry {
        number,
        op,
        a,
        b,
        bytes: table.get(start..end).unwrap_or_default(),
    }
}

/// Runs up to `TABLES_MAX` tables, laid end to end, on one notice, which is checked once: 11, 24 for more
/// tables, then 9 for a verdict buffer too short. Byte by byte from the buffer's start it is told what `run`
/// would answer for a table: its verdict (`Verdict::of_byte`), or `REFUSED`. The bytes after them stay, and
/// a refusal changes no byte.
///
/// A table ends where its length word says; if that passes the end, or 1 to 3 bytes are left, the rest
/// counts as one refused table.
///
/// ```
/// use virentolex::raw::{run_many, translate, EMPTY_NOTICE, REFUSED};
/// use virentolex::Edition;
///
/// let mut tables = [0; 50];
/// translate(Edition::First, b"Op == 42", &mut tables);
/// let mut verdicts = [0; 64];
/// assert_eq!(run_many(&tables, &EMPTY_NOTICE, &mut verdicts).count, 2);
/// // bottom, and two bytes that are no table
/// assert_eq!(verdicts[..2], [2, REFUSED]);
/// ```
pub fn run_many(tables: &[u8], notice: &[u8], verdicts: &mut [u8]) -> Delivered {
    let (mut place, mut count) = (0, 0);
    // SAFETY: each pointer and length come from one slice, an empty one's pointer is not null; the
    // verdicts and the two results are borrowed here alone, so that they overlap nothing.
    let number = unsafe {
        library::virentolex_run_many(
            tables.as_ptr(),
            tables.len(),
            notice.as_ptr(),
            notice.len(),
            verdicts.as_mut_ptr(),
            verdicts.len(),
            &mut place,
            &mut count,
        )
    };
    Delivered {
        number,
        place,
        count,
    }
}
