//! Decisions of the quorum counter (document 02, request 3).

use crate::Refusal;
use crate::raw;
use crate::verdict::entry_number;
use core::fmt;

#[cfg(feature = "alloc")]
use crate::{DECISION_HEAD, TABLE_MAX};
#[cfg(feature = "alloc")]
use alloc::{vec, vec::Vec};

/// How a decision stands.
///
/// ```
/// use virentolex::{Decision, Edition, SubscriptionRef, Tally, DECISION_MAX, TABLE_MAX};
///
/// let mut room = [0; TABLE_MAX];
/// let subscription = SubscriptionRef::translate_in("require (Staff)", Edition::First, &mut room)?;
/// let decision = Decision::open_in([0; DECISION_MAX], subscription, 2)?;
/// assert_eq!(decision.tally(), Tally { count: 0, reached: false, undecided: None });
/// # Ok::<(), virentolex::Refusal>(())
/// ```
#[derive(Debug, Clone, Copy, PartialEq, Eq, Hash)]
pub struct Tally {
    /// The people counted, 0 to 8.
    pub count: u8,
    /// Whether they are as many as needed.
    pub reached: bool,
    /// The number of the first visited entry that left bottom on the stack in the last run, if one did.
    pub undecided: Option<u16>,
}

impl From<raw::Shown> for Tally {
    fn from(shown: raw::Shown) -> Tally {
        Tally {
            count: shown.count,
            reached: shown.reached,
            undecided: entry_number(shown.undecided),
        }
    }
}

/// A decision that needs so many people, in a buffer that it owns (`Vec<u8>`, `[u8; N]`) or borrows (`&mut [u8]`).
/// It keeps its subscription's table.
///
/// Each person is a different value of the string field Staff in a notice for which the subscription is true. Values are
/// compared by their bytes: `"417"` and `"417 "` are two people. So let consoles write a number in one way, or let the
/// decision's own subscription fix the form, as in the second example.
///
/// ```
/// use virentolex::{Decision, Edition, NoticeRef, Refusal, SubscriptionRef, DECISION_MAX, TABLE_MAX};
///
/// let mut room = [0; TABLE_MAX];
/// let text = "Approve == 'payout'";
/// let subscription = SubscriptionRef::translate_in(text, Edition::First, &mut room)?;
/// let mut decision = Decision::open_in([0; DECISION_MAX], subscription, 2)?;
///
/// let mut show = |staff: Option<&str>| {
///     let mut room = [0; 100];
///     let notice = NoticeRef::builder_in(&mut room).field("Approve", "payout");
///     let notice = match staff {
///         Some(staff) => notice.field("Staff", staff),
///         None => notice,
///     };
///     decision.show(notice.build()?)
/// };
/// assert!(!show(Some("417"))?.reached);
/// // she is not counted twice, and a console that names nobody is refused
/// assert!(!show(Some("417"))?.reached);
/// assert_eq!(show(None), Err(Refusal::Staff));
/// assert!(show(Some("502"))?.reached);
/// # Ok::<(), Refusal>(())
/// ```
///
/// One spelling of each number, decimal digits of which the first is not 0:
///
/// ```
/// use virentolex::{Decision, Edition, NoticeRef, SubscriptionRef, DECISION_MAX, TABLE_MAX};
///
/// let mut room = [0; TABLE_MAX];
/// let text = r#"Approve == "payout" && regex (Staff, "^[1-9][0-9]*$")"#;
/// let subscription = SubscriptionRef::translate_in(text, Edition::First, &mut room)?;
/// let mut decision = Decision::open_in([0; DECISION_MAX], subscription, 2)?;
/// for (staff, count) in [("417", 1), ("417 ", 1), ("0417", 1), ("502", 2)] {
///     let mut room = [0; 100];
///     let notice = NoticeRef::builder_in(&mut room).field("Approve", "payout").field("Staff", staff);
///     assert_eq!(decision.show(notice.build()?)?.count, count);
/// }
/// # Ok::<(), virentolex::Refusal>(())
/// ```
#[derive(Clone, PartialEq, Eq, Hash)]
pub struct Decision<B> {
    buffer: B,
    tally: Tally,
}

#[cfg(feature = "alloc")]
impl Decision<Vec<u8>> {
    /// Opens a decision in a buffer of its own, just as long as it is.
    ///
    /// # Errors
    ///
    /// [`Refusal::Table`] if the table fails its check, as no subscription's does; then [`Refusal::Needed`] for a
    /// number of people outside 1 to 8.
    ///
    /// ```
    /// use virentolex::{Decision, Edition, Refusal, Subscription};
    ///
    /// let subscription = Subscription::translate("Approve == 'payout'", Edition::First)?;
    /// assert!(Decision::open(&subscription, 2).is_ok());
    /// assert_eq!(Decision::open(&subscription, 9), Err(Refusal::Needed));
    /// # Ok::<(), Refusal>(())
    /// ```
    pub fn open(table: impl AsRef<[u8]>, needed: usize) -> Result<Self, Refusal> {
        // a table that is longer than any that passes the check is refused before the room is asked
        let room = DECISION_HEAD + table.as_ref().len().min(TABLE_MAX);
        Decision::open_in(vec![0; room], table, needed)
    }
}

impl<B: AsRef<[u8]> + AsMut<[u8]>> Decision<B> {
    /// Opens a decision at the start of a buffer. The bytes after it stay.
    ///
    /// # Errors
    ///
    /// [`Refusal::Table`] if the table fails its check, as no subscription's does; then [`Refusal::Needed`] for a
    /// number of people outside 1 to 8; then [`Refusal::Buffer`] for a buffer too short. A refusal changes no byte: a
    /// decision that stood in a borrowed buffer still stands there, with its table and the people counted.
    ///
    /// ```
    /// use virentolex::{Decision, Edition, Refusal, SubscriptionRef, DECISION_HEAD};
    ///
    /// let mut room = [0; 48];
    /// let subscription = SubscriptionRef::translate_in("Op == 42", Edition::First, &mut room)?;
    /// let mut buffer = [0; DECISION_HEAD + 48];
    /// assert!(Decision::open_in(&mut buffer[..], subscription, 8).is_ok());
    /// let short = Decision::open_in(&mut buffer[1..], subscription, 8);
    /// assert_eq!(short, Err(Refusal::Buffer));
    /// // the first one still stands
    /// assert_eq!(Decision::open_in(&mut buffer[..], subscription, 9), Err(Refusal::Needed));
    /// assert!(Decision::kept(&mut buffer[..]).is_ok());
    /// # Ok::<(), Refusal>(())
    /// ```
    pub fn open_in(mut buffer: B, table: impl AsRef<[u8]>, needed: usize) -> Result<Self, Refusal> {
        let shown = raw::quorum_open(buffer.as_mut(), table.as_ref(), needed);
        let tally = Refusal::or(shown.number, shown.place, shown.into())?;
        Ok(Decision { buffer, tally })
    }

    /// The decision in a buffer in which one was kept.
    ///
    /// # Errors
    ///
    /// [`Refusal::Table`] if none is there.
    ///
    /// ```
    /// use virentolex::{Decision, Edition, Refusal, SubscriptionRef, DECISION_MAX};
    ///
    /// let mut room = [0; 48];
    /// let subscription = SubscriptionRef::translate_in("Op == 42", Edition::First, &mut room)?;
    /// let buffer = Decision::open_in([0; DECISION_MAX], subscription, 2)?.into_buffer();
    /// assert_eq!(Decision::kept(buffer)?.tally().count, 0);
    /// assert_eq!(Decision::kept([0; 600]), Err(Refusal::Table));
    /// # Ok::<(), Refusal>(())
    /// ```
    pub fn kept(mut buffer: B) -> Result<Self, Refusal> {
        // what is no notice changes nothing; it is refused by 12 or 11, and with 11 it is told how the decision stands
        let shown = raw::quorum_show(buffer.as_mut(), &[]);
        let tally = shown.into();
        match Refusal::from_number(shown.number, shown.place) {
            Some(Refusal::Notice { .. }) | None => Ok(Decision { buffer, tally }),
            Some(refusal) => Err(refusal),
        }
    }

    /// Shows a notice, or bytes that may be none.
    ///
    /// # Errors
    ///
    /// [`Refusal::Notice`] for bytes that are none; then, if the verdict is true, [`Refusal::Staff`] if the notice
    /// has no string field Staff of 1 to 64 bytes, and [`Refusal::Ninth`] for a ninth person. The count stays as it
    /// stood.
    ///
    /// ```
    /// use virentolex::{Decision, Edition, Refusal, SubscriptionRef, DECISION_MAX};
    ///
    /// let mut room = [0; 48];
    /// let subscription = SubscriptionRef::translate_in("Op == 42", Edition::First, &mut room)?;
    /// let mut decision = Decision::open_in([0; DECISION_MAX], subscription, 2)?;
    /// assert_eq!(decision.show("no notice"), Err(Refusal::Notice { place: 0 }));
    /// # Ok::<(), Refusal>(())
    /// ```
    pub fn show(&mut self, notice: impl AsRef<[u8]>) -> Result<Tally, Refusal> {
        let shown = raw::quorum_show(self.buffer.as_mut(), notice.as_ref());
        self.tally = shown.into();
        Refusal::or(shown.number, shown.place, self.tally)
    }

    /// The buffer's bytes, the decision first.
    ///
    /// ```
    /// use virentolex::{Decision, Edition, SubscriptionRef, DECISION_HEAD};
    ///
    /// let mut room = [0; 48];
    /// let subscription = SubscriptionRef::translate_in("Op == 42", Edition::First, &mut room)?;
    /// let decision = Decision::open_in([0; DECISION_HEAD + 48], subscription, 2)?;
    /// assert_eq!(decision.as_bytes().len(), 576);
    /// # Ok::<(), virentolex::Refusal>(())
    /// ```
    pub fn as_bytes(&self) -> &[u8] {
        self.buffer.as_ref()
    }
}

impl<B> Decision<B> {
    /// How the decision stands after the last notice that was shown, refused or not.
    ///
    /// ```
    /// use virentolex::{Decision, Edition, NoticeRef, Refusal, SubscriptionRef, DECISION_MAX};
    ///
    /// let mut room = [0; 100];
    /// let subscription = SubscriptionRef::translate_in("require (Staff)", Edition::First, &mut room)?;
    /// let mut decision = Decision::open_in([0; DECISION_MAX], subscription, 1)?;
    /// let mut room = [0; 100];
    /// decision.show(NoticeRef::builder_in(&mut room).field("Staff", "417").build()?)?;
    /// let wrong = NoticeRef::builder_in(&mut room).field("Staff", 502).build()?;
    /// assert_eq!(decision.show(wrong), Err(Refusal::Staff));
    /// assert_eq!((decision.tally().count, decision.tally().reached), (1, true));
    /// # Ok::<(), Refusal>(())
    /// ```
    pub fn tally(&self) -> Tally {
        self.tally
    }

    /// The buffer, to be kept.
    ///
    /// ```
    /// use virentolex::{Decision, Edition, SubscriptionRef, DECISION_MAX};
    ///
    /// let mut room = [0; 48];
    /// let subscription = SubscriptionRef::translate_in("Op == 42", Edition::First, &mut room)?;
    /// let decision = Decision::open_in([0; DECISION_MAX], subscription, 2)?;
    /// let again = Decision::kept(decision.clone().into_buffer())?;
    /// assert_eq!(again, decision);
    /// # Ok::<(), virentolex::Refusal>(())
    /// ```
    pub fn into_buffer(self) -> B {
        self.buffer
    }
}

/// How it stands.
impl<B> fmt::Debug for Decision<B> {
    fn fmt(&self, f: &mut fmt::Formatter<'_>) -> fmt::Result {
        let mut decision = f.debug_struct("Decision");
        decision.field("tally", &self.tally).finish_non_exhaustive()
    }
}

#[cfg(test)]
mod tests;
