//! One notice and many subscriptions (document 02, request 8).

use crate::raw::{self, FREE, REFUSED, TABLES_MAX};
use crate::{Refusal, Verdict};
use core::fmt;

#[cfg(feature = "alloc")]
use alloc::vec::Vec;

/// Runs up to 64 tables, laid end to end, on one notice, or on bytes that may be none. They are checked once, and each
/// table is answered as it would be alone. A table ends where its length word says.
///
/// # Errors
///
/// [`Refusal::Notice`] for bytes that are none, then [`Refusal::Tables`] for more tables.
///
/// ```
/// use virentolex::{run_many, Edition, NoticeRef, Refusal, SubscriptionRef, Verdict};
///
/// let mut tables = [0; 96];
/// let (first, second) = tables.split_at_mut(48);
/// SubscriptionRef::translate_in("Op == 42", Edition::First, first)?;
/// SubscriptionRef::translate_in("Op != 42", Edition::First, second)?;
/// let mut room = [0; 100];
/// let notice = NoticeRef::builder_in(&mut room).field("Op", 42).build()?;
/// let verdicts = run_many(&tables, notice)?;
/// assert!(verdicts.iter().eq([(0, Ok(Verdict::True)), (1, Ok(Verdict::False))]));
/// // a table that is spoiled is refused alone
/// tables[4] = 7;
/// assert_eq!(run_many(&tables, notice)?.get(0), Some(Err(Refusal::Table)));
/// # Ok::<(), Refusal>(())
/// ```
pub fn run_many(tables: impl AsRef<[u8]>, notice: impl AsRef<[u8]>) -> Result<Verdicts, Refusal> {
    let mut bytes = [FREE; TABLES_MAX];
    let ran = raw::run_many(tables.as_ref(), notice.as_ref(), &mut bytes);
    Refusal::or(ran.number, ran.place, Verdicts::of(bytes))
}

/// The verdicts of many subscriptions on one notice, by their numbers: of `run_many` their order, of a store the
/// numbers that it gave. A table that fails its check is refused alone.
///
/// ```
/// use virentolex::{Store, EMPTY_NOTICE};
///
/// let verdicts = Store::make([0; 100])?.run(EMPTY_NOTICE)?;
/// assert_eq!(verdicts.iter().count(), 0);
/// # Ok::<(), virentolex::Refusal>(())
/// ```
#[derive(Clone, Copy, PartialEq, Eq, Hash)]
pub struct Verdicts {
    bytes: [u8; TABLES_MAX],
}

impl Verdicts {
    pub(crate) fn of(bytes: [u8; TABLES_MAX]) -> Self {
        Verdicts { bytes }
    }

    /// The verdict of a number; none if there is no table of the number.
    ///
    /// # Errors
    ///
    /// [`Refusal::Table`] if the table fails its check.
    ///
    /// ```
    /// use virentolex::{run_many, Edition, SubscriptionRef, Verdict, EMPTY_NOTICE};
    ///
    /// let mut room = [0; 48];
    /// let subscription = SubscriptionRef::translate_in("Op == 42", Edition::First, &mut room)?;
    /// let verdicts = run_many(subscription, EMPTY_NOTICE)?;
    /// assert_eq!(verdicts.get(0), Some(Ok(Verdict::Bottom)));
    /// assert_eq!(verdicts.get(1), None);
    /// # Ok::<(), virentolex::Refusal>(())
    /// ```
    pub fn get(&self, number: usize) -> Option<Result<Verdict, Refusal>> {
        match *self.bytes.get(number)? {
            FREE => None,
            REFUSED => Some(Err(Refusal::Table)),
            byte => Verdict::of_byte(byte).map(Ok),
        }
    }

    /// The numbers for which there is a table, rising, and their verdicts.
    ///
    /// ```
    /// use virentolex::{run_many, Refusal, EMPTY_NOTICE};
    ///
    /// // two bytes that are no table
    /// let verdicts = run_many([0, 0], EMPTY_NOTICE)?;
    /// assert!(verdicts.iter().eq([(0, Err(Refusal::Table))]));
    /// # Ok::<(), Refusal>(())
    /// ```
    pub fn iter(&self) -> impl Iterator<Item = (usize, Result<Verdict, Refusal>)> + '_ {
        (0..TABLES_MAX).filter_map(|number| Some((number, self.get(number)?)))
    }

    /// The numbers of those to which the notice is delivered: their verdict is true.
    ///
    /// ```
    /// use virentolex::{run_many, Edition, SubscriptionRef, EMPTY_NOTICE};
    ///
    /// let mut room = [0; 100];
    /// let subscription = SubscriptionRef::translate_in("1 == 1", Edition::First, &mut room)?;
    /// assert!(run_many(subscription, EMPTY_NOTICE)?.delivered().eq([0]));
    /// # Ok::<(), virentolex::Refusal>(())
    /// ```
    pub fn delivered(&self) -> impl Iterator<Item = usize> + '_ {
        self.iter()
            .filter_map(|(number, verdict)| (verdict == Ok(Verdict::True)).then_some(number))
    }
}

/// The numbers and what each was answered.
impl fmt::Debug for Verdicts {
    fn fmt(&self, f: &mut fmt::Formatter<'_>) -> fmt::Result {
        f.debug_map().entries(self.iter()).finish()
    }
}

/// Tables laid end to end, to be run on one notice after the other.
///
/// ```
/// use virentolex::{Edition, Notice, Subscription, Tables};
///
/// let texts = ["Cab == 'T-41'", "Cab == 'T-42'", "require (Cab)"];
/// let subscriptions = texts.map(|text| Subscription::translate(text, Edition::First).expect(text));
/// let tables: Tables = subscriptions.iter().collect();
/// let notice = Notice::builder().field("Cab", "T-42").build()?;
/// assert!(tables.run(&notice)?.delivered().eq([1, 2]));
/// # Ok::<(), virentolex::Refusal>(())
/// ```
#[cfg(feature = "alloc")]
#[derive(Debug, Clone, PartialEq, Eq, Hash, Default)]
pub struct Tables {
    bytes: Vec<u8>,
}

#[cfg(feature = "alloc")]
impl Tables {
    /// No tables.
    ///
    /// ```
    /// assert!(virentolex::Tables::new().as_bytes().is_empty());
    /// ```
    pub fn new() -> Self {
        Tables::default()
    }

    /// Lays a subscription's table behind the others.
    ///
    /// ```
    /// use virentolex::{Edition, Subscription, Tables};
    ///
    /// let mut tables = Tables::new();
    /// tables.push(&Subscription::translate("Op == 42", Edition::First)?);
    /// assert_eq!(tables.as_bytes().len(), 48);
    /// # Ok::<(), virentolex::Refusal>(())
    /// ```
    pub fn push<'a>(&mut self, subscription: impl Into<crate::SubscriptionRef<'a>>) {
        self.bytes.extend_from_slice(subscription.into().as_table());
    }

    /// Runs the tables on a notice, or on bytes that may be none.
    ///
    /// # Errors
    ///
    /// [`Refusal::Notice`] for bytes that are none, then [`Refusal::Tables`] for over 64 tables.
    ///
    /// ```
    /// use virentolex::{Refusal, Tables};
    ///
    /// assert_eq!(Tables::new().run("no notice"), Err(Refusal::Notice { place: 0 }));
    /// ```
    pub fn run(&self, notice: impl AsRef<[u8]>) -> Result<Verdicts, Refusal> {
        run_many(&self.bytes, notice)
    }

    /// The tables' bytes.
    ///
    /// ```
    /// assert_eq!(virentolex::Tables::new().as_bytes(), []);
    /// ```
    pub fn as_bytes(&self) -> &[u8] {
        &self.bytes
    }
}

/// The tables of subscriptions, in their order.
#[cfg(feature = "alloc")]
impl<'a, S: Into<crate::SubscriptionRef<'a>>> FromIterator<S> for Tables {
    fn from_iter<I: IntoIterator<Item = S>>(subscriptions: I) -> Self {
        let mut tables = Tables::new();
        subscriptions
            .into_iter()
            .for_each(|subscription| tables.push(subscription));
        tables
    }
}

#[cfg(test)]
mod tests;
