//! Decisions of the quorum counter.

use super::library;
use super::tables::undecided_of;

/// What opening a decision and showing a notice to it answer: the people counted, and whether they are
/// as many as needed. A refusal leaves both as they stood; at opening and with 12 they are 0 and false.
/// Undecided is the run's, with 19 and 20 too.
///
/// ```
/// use virentolex::raw::{quorum_show, Shown};
///
/// let refused = quorum_show(&mut [0; 600], b"no notice");
/// assert_eq!(refused, Shown { number: 12, place: 0, count: 0, reached: false, undecided: None });
/// ```
#[derive(Debug, Clone, Copy, PartialEq, Eq)]
pub struct Shown {
    /// The refusal, 0 if there is none.
    pub number: u8,
    /// The place in the notice of 11; else 0.
    pub place: usize,
    /// The people counted, 0 to 8.
    pub count: u8,
    /// Whether they are as many as needed.
    pub reached: bool,
    /// The first undecided entry.
    pub undecided: Option<usize>,
}

/// Opens a decision at the start of the buffer: 12 for a table that fails its check, 21 for a needed number outside 1
/// to 8, then 9 for a buffer too short. The bytes after it stay, and a refusal changes no byte: a decision that stood
/// there still stands, with its table and the people counted.
///
/// ```
/// use virentolex::raw::{quorum_open, translate, DECISION_HEAD};
/// use virentolex::Edition;
///
/// let mut table = [0; 48];
/// translate(Edition::First, b"Op == 42", &mut table);
/// let mut decision = [0; DECISION_HEAD + 48];
/// assert_eq!(quorum_open(&mut decision, &table, 2).number, 0);
/// assert_eq!(quorum_open(&mut decision, &table, 9).number, 21);
/// ```
pub fn quorum_open(decision: &mut [u8], table: &[u8], needed: usize) -> Shown {
    let (mut place, mut count, mut reached, mut undecided) = (0, 0, 0, 0);
    // SAFETY: each pointer and length come from one slice, an empty one's pointer is not null; the
    // decision and the four results are borrowed here alone, so that they overlap nothing.
    let number = unsafe {
        library::virentolex_quorum_open(
            decision.as_mut_ptr(),
            decision.len(),
            table.as_ptr(),
            table.len(),
            needed,
            &mut place,
            &mut count,
            &mut reached,
            &mut undecided,
        )
    };
    Shown {
        number,
        place,
        count,
        reached: reached == 1,
        undecided: undecided_of(undecided),
    }
}

/// Shows a notice to the decision at the start of the buffer: 12 if none is there, 11, then, if the verdict is true,
/// 19 for no right Staff, 20 for a ninth person. A refusal changes no byte. People are told apart by the bytes of Staff.
///
/// ```
/// use virentolex::raw::{quorum_open, quorum_show, translate, DECISION_HEAD};
/// use virentolex::Edition;
///
/// let mut table = [0; 48];
/// translate(Edition::First, b"Op == 42", &mut table);
/// let mut decision = [0; DECISION_HEAD + 48];
/// quorum_open(&mut decision, &table, 2);
/// // true, but there is no Staff
/// let notice = *b"\x0F\0\0\0\x01\0\x01\0\x09\0\x01\0\x02Op\x2A\0\0\0";
/// assert_eq!(quorum_show(&mut decision, &notice).number, 19);
/// ```
pub fn quorum_show(decision: &mut [u8], notice: &[u8]) -> Shown {
    let (mut place, mut count, mut reached, mut undecided) = (0, 0, 0, 0);
    // SAFETY: as above.
    let number = unsafe {
        library::virentolex_quorum_show(
            decision.as_mut_ptr(),
            decision.len(),
            notice.as_ptr(),
            notice.len(),
            &mut place,
            &mut count,
            &mut reached,
            &mut undecided,
        )
    };
    Shown {
        number,
        place,
        count,
        reached: reached == 1,
        undecided: undecided_of(undecided),
    }
}
