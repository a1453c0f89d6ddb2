//! Subscriptions that own their tables.

use super::SubscriptionRef;
use crate::{Edition, Entries, Entry, Outcome, Refusal, TABLE_MAX};
use alloc::vec;
use alloc::vec::Vec;
use core::fmt;
use core::str::FromStr;

/// A subscription that owns its table.
///
/// ```
/// use virentolex::{Edition, Notice, Subscription, Verdict};
///
/// let subscription = Subscription::translate("Staff != \"417\"", Edition::First)?;
/// let room = Notice::builder().field("Staff", "502").build()?;
/// let yard = Notice::builder().field("Console", "yard").build()?;
/// assert_eq!(subscription.run(&room)?.verdict, Verdict::True);
/// // a field that is not there is not unequal: bottom, which is not delivered
/// assert_eq!(subscription.run(&yard)?.verdict, Verdict::Bottom);
/// # Ok::<(), virentolex::Refusal>(())
/// ```
#[derive(Clone, PartialEq, Eq, Hash)]
pub struct Subscription {
    table: Vec<u8>,
}

impl Subscription {
    /// Translates a text to a table of the edition.
    ///
    /// # Errors
    ///
    /// The first that applies of [`Refusal::Length`], [`Refusal::Token`] or [`Refusal::Limit`], [`Refusal::Depth`],
    /// [`Refusal::Grammar`], [`Refusal::Function`], [`Refusal::Pattern`], [`Refusal::Kind`], [`Refusal::Entries`],
    /// [`Refusal::Stack`].
    ///
    /// ```
    /// use virentolex::{Edition, Refusal, Subscription};
    ///
    /// assert!(Subscription::translate("wildcard (Cab, \"T-4?\")", Edition::First).is_ok());
    /// let refused = Subscription::translate("wildcard (Cab, \"T-[4\")", Edition::First);
    /// assert_eq!(refused, Err(Refusal::Pattern));
    /// ```
    pub fn translate(text: impl AsRef<[u8]>, edition: Edition) -> Result<Self, Refusal> {
        let mut table = vec![0; TABLE_MAX];
        let length = SubscriptionRef::translate_in(text, edition, &mut table)?
            .as_table()
            .len();
        table.truncate(length);
        table.shrink_to_fit();
        Ok(Subscription { table })
    }

    /// The subscription of a table that was kept, or came from elsewhere.
    ///
    /// # Errors
    ///
    /// [`Refusal::Table`] if it fails its check.
    ///
    /// ```
    /// use virentolex::{Edition, Refusal, Subscription};
    ///
    /// let subscription = Subscription::translate("Op == 42", Edition::First)?;
    /// let again = Subscription::from_table(subscription.as_table())?;
    /// assert_eq!(again, subscription);
    /// assert_eq!(Subscription::from_table("no table"), Err(Refusal::Table));
    /// # Ok::<(), Refusal>(())
    /// ```
    pub fn from_table(table: impl Into<Vec<u8>>) -> Result<Self, Refusal> {
        let table = table.into();
        SubscriptionRef::from_table(&table)?;
        Ok(Subscription { table })
    }

    /// The subscription, borrowed.
    ///
    /// ```
    /// use virentolex::{Edition, Subscription};
    ///
    /// let subscription = Subscription::translate("Op == 42", Edition::First)?;
    /// assert_eq!(subscription.as_subscription().as_table(), subscription.as_table());
    /// # Ok::<(), virentolex::Refusal>(())
    /// ```
    pub fn as_subscription(&self) -> SubscriptionRef<'_> {
        SubscriptionRef::trusted(&self.table)
    }

    /// The table's bytes.
    ///
    /// ```
    /// use virentolex::{Edition, Subscription};
    ///
    /// assert_eq!(Subscription::translate("Op == 42", Edition::First)?.as_table().len(), 48);
    /// # Ok::<(), virentolex::Refusal>(())
    /// ```
    pub fn as_table(&self) -> &[u8] {
        &self.table
    }

    /// The table's bytes, to be kept or sent.
    ///
    /// ```
    /// use virentolex::{Edition, Subscription};
    ///
    /// assert_eq!(Subscription::translate("Op == 42", Edition::First)?.into_table().len(), 48);
    /// # Ok::<(), virentolex::Refusal>(())
    /// ```
    pub fn into_table(self) -> Vec<u8> {
        self.table
    }

    /// The edition by which the table shifts.
    ///
    /// ```
    /// use virentolex::{Edition, Subscription};
    ///
    /// let subscription = Subscription::translate("1 << Door != 0", Edition::Second)?;
    /// assert_eq!(subscription.edition(), Edition::Second);
    /// # Ok::<(), virentolex::Refusal>(())
    /// ```
    pub fn edition(&self) -> Edition {
        self.as_subscription().edition()
    }

    /// Runs the subscription on a notice, or on bytes that may be none.
    ///
    /// # Errors
    ///
    /// [`Refusal::Notice`] for bytes that are none; never for a `Notice`.
    ///
    /// ```
    /// use virentolex::{Edition, Notice, Refusal, Subscription, Verdict};
    ///
    /// let subscription = Subscription::translate("Op == 42", Edition::First)?;
    /// let notice = Notice::builder().field("Op", 42).build()?;
    /// let outcome = subscription.run(&notice)?;
    /// assert_eq!((outcome.verdict, outcome.steps), (Verdict::True, 3));
    /// assert_eq!(subscription.run("no notice"), Err(Refusal::Notice { place: 0 }));
    /// # Ok::<(), Refusal>(())
    /// ```
    pub fn run(&self, notice: impl AsRef<[u8]>) -> Result<Outcome, Refusal> {
        self.as_subscription().run(notice)
    }

    /// Entry k of the table, the first being 0.
    ///
    /// # Errors
    ///
    /// [`Refusal::Index`] if there is none.
    ///
    /// ```
    /// use virentolex::{Edition, Notice, Operand, Subscription};
    ///
    /// let subscription = Subscription::translate("Load > 3 && Staff != '417'", Edition::First)?;
    /// let notice = Notice::builder().field("Load", 4).build()?;
    /// let lacking = subscription.run(&notice)?.undecided.expect("it is bottom");
    /// assert_eq!(subscription.entry(lacking)?.operand(), Operand::Name(b"Staff"));
    /// # Ok::<(), virentolex::Refusal>(())
    /// ```
    pub fn entry(&self, k: u16) -> Result<Entry<'_>, Refusal> {
        self.as_subscription().entry(k)
    }

    /// How many entries the table has, 1 to 512.
    ///
    /// ```
    /// use virentolex::{Edition, Subscription};
    ///
    /// assert_eq!(Subscription::translate("Op == 42", Edition::First)?.entry_count(), 3);
    /// # Ok::<(), virentolex::Refusal>(())
    /// ```
    pub fn entry_count(&self) -> u16 {
        self.as_subscription().entry_count()
    }

    /// The entries of the table.
    ///
    /// ```
    /// use virentolex::{Edition, Subscription};
    ///
    /// let subscription = Subscription::translate("Op == 42", Edition::First)?;
    /// let entries: Vec<String> = subscription.entries().map(|entry| entry.to_string()).collect();
    /// assert_eq!(entries, ["name Op", "int32 42", "=="]);
    /// # Ok::<(), virentolex::Refusal>(())
    /// ```
    pub fn entries(&self) -> Entries<'_> {
        self.as_subscription().entries()
    }

    /// The most slots of the stack that a run uses, 1 to 32.
    ///
    /// ```
    /// use virentolex::{Edition, Subscription};
    ///
    /// assert_eq!(Subscription::translate("Op == 42", Edition::First)?.stack(), 2);
    /// # Ok::<(), virentolex::Refusal>(())
    /// ```
    pub fn stack(&self) -> u16 {
        self.as_subscription().stack()
    }

    /// The pool: the bytes of the names and strings, one after the other.
    ///
    /// ```
    /// use virentolex::{Edition, Subscription};
    ///
    /// let subscription = Subscription::translate("Staff != '417'", Edition::First)?;
    /// assert_eq!(subscription.pool(), b"Staff417");
    /// # Ok::<(), virentolex::Refusal>(())
    /// ```
    pub fn pool(&self) -> &[u8] {
        self.as_subscription().pool()
    }
}

impl AsRef<[u8]> for Subscription {
    fn as_ref(&self) -> &[u8] {
        &self.table
    }
}

impl<'a> From<&'a Subscription> for SubscriptionRef<'a> {
    fn from(subscription: &'a Subscription) -> SubscriptionRef<'a> {
        subscription.as_subscription()
    }
}

impl From<SubscriptionRef<'_>> for Subscription {
    fn from(subscription: SubscriptionRef<'_>) -> Subscription {
        Subscription {
            table: subscription.as_table().to_vec(),
        }
    }
}

/// The text by the first edition, as `translate` has it; a text without a shift means the same in both.
///
/// ```
/// use virentolex::{Refusal, Subscription};
///
/// let subscription: Subscription = "Staff != \"417\"".parse()?;
/// assert_eq!(subscription.entry_count(), 3);
/// assert_eq!("Op".parse::<Subscription>(), Err(Refusal::Kind));
/// # Ok::<(), Refusal>(())
/// ```
impl FromStr for Subscription {
    type Err = Refusal;

    fn from_str(text: &str) -> Result<Self, Refusal> {
        Subscription::translate(text, Edition::First)
    }
}

/// The text by the first edition, as `from_str` has it.
///
/// ```
/// use virentolex::Subscription;
///
/// assert_eq!(Subscription::try_from("Op == 42")?, "Op == 42".parse()?);
/// # Ok::<(), virentolex::Refusal>(())
/// ```
impl TryFrom<&str> for Subscription {
    type Error = Refusal;

    fn try_from(text: &str) -> Result<Self, Refusal> {
        text.parse()
    }
}

impl TryFrom<Vec<u8>> for Subscription {
    type Error = Refusal;

    fn try_from(table: Vec<u8>) -> Result<Self, Refusal> {
        Subscription::from_table(table)
    }
}

impl fmt::Debug for Subscription {
    fn fmt(&self, f: &mut fmt::Formatter<'_>) -> fmt::Result {
        self.as_subscription().fmt(f)
    }
}
