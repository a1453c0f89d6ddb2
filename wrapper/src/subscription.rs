//! Subscriptions: texts translated to tables, which are checked once and then trusted by their type.

use crate::raw;
use crate::{Edition, Entries, Entry, Outcome, Refusal};
use core::fmt;

/// A subscription as a table that passes the check, in bytes that it borrows. It needs no allocator.
///
/// ```
/// use virentolex::{Edition, NoticeRef, SubscriptionRef, Verdict, TABLE_MAX};
///
/// let mut room = [0; TABLE_MAX];
/// let subscription = SubscriptionRef::translate_in("Op == 42", Edition::First, &mut room)?;
/// let mut room = [0; 100];
/// let notice = NoticeRef::builder_in(&mut room).field("Op", 42).build()?;
/// assert_eq!(subscription.run(notice)?.verdict, Verdict::True);
/// # Ok::<(), virentolex::Refusal>(())
/// ```
#[derive(Clone, Copy, PartialEq, Eq, Hash)]
pub struct SubscriptionRef<'a> {
    table: &'a [u8],
}

impl<'a> SubscriptionRef<'a> {
    /// Translates a text to a table at the start of a lent buffer, whose later bytes stay. `TABLE_MAX` bytes always
    /// suffice.
    ///
    /// # Errors
    ///
    /// The first that applies of [`Refusal::Length`], [`Refusal::Token`] or [`Refusal::Limit`], [`Refusal::Depth`],
    /// [`Refusal::Grammar`], [`Refusal::Function`], [`Refusal::Pattern`], [`Refusal::Kind`], [`Refusal::Entries`],
    /// [`Refusal::Stack`], [`Refusal::Buffer`]. The buffer stays as it was.
    ///
    /// ```
    /// use virentolex::{Edition, Refusal, SubscriptionRef};
    ///
    /// let mut room = [0; 47];
    /// let short = SubscriptionRef::translate_in("Op == 42", Edition::First, &mut room);
    /// assert_eq!(short, Err(Refusal::Buffer));
    /// let mut room = [0; 48];
    /// assert!(SubscriptionRef::translate_in("Op == 42", Edition::First, &mut room).is_ok());
    /// ```
    pub fn translate_in(
        text: impl AsRef<[u8]>,
        edition: Edition,
        buffer: &'a mut [u8],
    ) -> Result<Self, Refusal> {
        let translated = raw::translate(edition, text.as_ref(), buffer);
        Refusal::or(translated.number, translated.place, ())?;
        let (table, _) = buffer
            .split_at_checked(translated.length)
            .ok_or(Refusal::Buffer)?;
        Ok(SubscriptionRef { table })
    }

    /// The subscription of a table that was kept, or came from elsewhere.
    ///
    /// # Errors
    ///
    /// [`Refusal::Table`] if it fails its check.
    ///
    /// ```
    /// use virentolex::{Edition, Refusal, SubscriptionRef};
    ///
    /// let mut room = [0; 48];
    /// SubscriptionRef::translate_in("Op == 42", Edition::First, &mut room)?;
    /// assert!(SubscriptionRef::from_table(&room).is_ok());
    /// assert_eq!(SubscriptionRef::from_table(&room[1..]), Err(Refusal::Table));
    /// # Ok::<(), Refusal>(())
    /// ```
    pub fn from_table(table: &'a [u8]) -> Result<Self, Refusal> {
        Refusal::or(raw::check(table), 0, SubscriptionRef { table })
    }

    /// Bytes that the library wrote as a table, or checked.
    #[cfg(feature = "alloc")]
    pub(crate) fn trusted(table: &'a [u8]) -> Self {
        SubscriptionRef { table }
    }

    /// The table's bytes.
    ///
    /// ```
    /// use virentolex::{Edition, SubscriptionRef};
    ///
    /// let mut room = [0; 60];
    /// let subscription = SubscriptionRef::translate_in("Op == 42", Edition::First, &mut room)?;
    /// assert_eq!(subscription.as_table().len(), 48);
    /// # Ok::<(), virentolex::Refusal>(())
    /// ```
    pub fn as_table(self) -> &'a [u8] {
        self.table
    }

    /// The edition by which the table shifts.
    ///
    /// ```
    /// use virentolex::{Edition, SubscriptionRef};
    ///
    /// let mut room = [0; 60];
    /// let subscription = SubscriptionRef::translate_in("Op == 42", Edition::Second, &mut room)?;
    /// assert_eq!(subscription.edition(), Edition::Second);
    /// # Ok::<(), virentolex::Refusal>(())
    /// ```
    pub fn edition(self) -> Edition {
        match self.table {
            [_, _, _, _, 4, ..] => Edition::Second,
            _ => Edition::First,
        }
    }

    /// Runs the subscription on a notice, or on bytes that may be none.
    ///
    /// With a table that was translated, more fields in the notice never turn true or false into another verdict.
    ///
    /// # Errors
    ///
    /// [`Refusal::Notice`] for bytes that are none; never for a `NoticeRef`.
    ///
    /// ```
    /// use virentolex::{Edition, Refusal, SubscriptionRef, Verdict, EMPTY_NOTICE, TABLE_MAX};
    ///
    /// let mut room = [0; TABLE_MAX];
    /// let subscription = SubscriptionRef::translate_in("1 == 2 && Op == 42", Edition::First, &mut room)?;
    /// let outcome = subscription.run(EMPTY_NOTICE)?;
    /// assert_eq!((outcome.verdict, outcome.steps), (Verdict::False, 4));
    /// assert_eq!(subscription.run("no notice"), Err(Refusal::Notice { place: 0 }));
    /// # Ok::<(), Refusal>(())
    /// ```
    pub fn run(self, notice: impl AsRef<[u8]>) -> Result<Outcome, Refusal> {
        let ran = raw::run(self.table, notice.as_ref());
        Refusal::or(ran.number, ran.place, ran.into())
    }

    /// Entry k of the table, the first being 0.
    ///
    /// # Errors
    ///
    /// [`Refusal::Index`] if there is none.
    ///
    /// ```
    /// use virentolex::{Edition, Operand, Refusal, SubscriptionRef};
    ///
    /// let mut room = [0; 60];
    /// let subscription = SubscriptionRef::translate_in("Op == 42", Edition::First, &mut room)?;
    /// assert_eq!(subscription.entry(1)?.operand(), Operand::Int32(42));
    /// assert_eq!(subscription.entry(3), Err(Refusal::Index));
    /// # Ok::<(), Refusal>(())
    /// ```
    pub fn entry(self, k: u16) -> Result<Entry<'a>, Refusal> {
        Entry::at(k, self).ok_or(Refusal::Index)
    }

    /// How many entries the table has, 1 to 512.
    ///
    /// ```
    /// use virentolex::{Edition, SubscriptionRef};
    ///
    /// let mut room = [0; 60];
    /// let subscription = SubscriptionRef::translate_in("Op == 42", Edition::First, &mut room)?;
    /// assert_eq!(subscription.entry_count(), 3);
    /// # Ok::<(), virentolex::Refusal>(())
    /// ```
    pub fn entry_count(self) -> u16 {
        match self.table {
            [_, _, _, _, _, _, low, high, ..] => u16::from_le_bytes([*low, *high]),
            _ => 0,
        }
    }

    /// The entries of the table.
    ///
    /// ```
    /// use virentolex::{Edition, SubscriptionRef};
    ///
    /// let mut room = [0; 60];
    /// let subscription = SubscriptionRef::translate_in("Op == 42", Edition::First, &mut room)?;
    /// let ops = subscription.entries().map(|entry| entry.op);
    /// assert!(ops.eq([5, 1, 32]));
    /// # Ok::<(), virentolex::Refusal>(())
    /// ```
    pub fn entries(self) -> Entries<'a> {
        Entries::of(self)
    }

    /// The most slots of the stack that a run uses, 1 to 32. Every way to an entry finds the same depth.
    ///
    /// ```
    /// use virentolex::{Edition, SubscriptionRef};
    ///
    /// let mut room = [0; 99];
    /// let subscription = SubscriptionRef::translate_in("1 + (2 + Op) == 42", Edition::First, &mut room)?;
    /// assert_eq!(subscription.stack(), 3);
    /// # Ok::<(), virentolex::Refusal>(())
    /// ```
    pub fn stack(self) -> u16 {
        let (mut depth, mut most) = (0u16, 0);
        for entry in self.entries() {
            depth = depth.saturating_sub(entry.takes()) + entry.leaves();
            most = most.max(depth);
        }
        most
    }

    /// The pool: the bytes of the names and strings, one after the other.
    ///
    /// ```
    /// use virentolex::{Edition, SubscriptionRef};
    ///
    /// let mut room = [0; 99];
    /// let subscription = SubscriptionRef::translate_in("Staff != '417'", Edition::First, &mut room)?;
    /// assert_eq!(subscription.pool(), b"Staff417");
    /// # Ok::<(), virentolex::Refusal>(())
    /// ```
    pub fn pool(self) -> &'a [u8] {
        let start = raw::TABLE_HEAD + raw::ENTRY * usize::from(self.entry_count());
        self.table.get(start..).unwrap_or_default()
    }
}

impl AsRef<[u8]> for SubscriptionRef<'_> {
    fn as_ref(&self) -> &[u8] {
        self.table
    }
}

impl<'a> TryFrom<&'a [u8]> for SubscriptionRef<'a> {
    type Error = Refusal;

    fn try_from(table: &'a [u8]) -> Result<Self, Refusal> {
        SubscriptionRef::from_table(table)
    }
}

impl fmt::Debug for SubscriptionRef<'_> {
    fn fmt(&self, f: &mut fmt::Formatter<'_>) -> fmt::Result {
        f.debug_list().entries(self.entries()).finish()
    }
}

#[cfg(feature = "alloc")]
mod owned;
#[cfg(feature = "alloc")]
pub use owned::Subscription;

#[cfg(test)]
mod tests;
