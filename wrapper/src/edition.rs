//! The editions of a table.

use crate::Refusal;

/// The editions of a table. They differ in the shifts `<< >> >>>` alone, where the count is not 0 to the
/// width less 1 (32 or 64 bits, the width of what is shifted). Name the second if the subscription is about
/// doors with the newer firmware, which takes counts so, and if every router that is to run the table is
/// renewed; else, and for a text without a shift, the first.
///
/// ```
/// use virentolex::{Edition, SubscriptionRef, Verdict, EMPTY_NOTICE, TABLE_MAX};
///
/// let verdict = |edition| {
///     let mut room = [0; TABLE_MAX];
///     let subscription = SubscriptionRef::translate_in("1 << 33 == 2", edition, &mut room)?;
///     Ok::<Verdict, virentolex::Refusal>(subscription.run(EMPTY_NOTICE)?.verdict)
/// };
/// assert_eq!(verdict(Edition::First), Ok(Verdict::Bottom));
/// assert_eq!(verdict(Edition::Second), Ok(Verdict::True));
/// ```
#[derive(Debug, Clone, Copy, PartialEq, Eq, Hash, Default)]
pub enum Edition {
    /// The shift is bottom. The table is of kind 2, which every router takes.
    #[default]
    First,
    /// The shift is by the count's remainder by the width: -1 shifts an int32 by 31. The table is of kind
    /// 4, which routers not yet renewed refuse with 12.
    Second,
}

impl Edition {
    /// The edition's number, 1 or 2.
    ///
    /// ```
    /// assert_eq!(virentolex::Edition::Second.number(), 2);
    /// ```
    pub fn number(self) -> usize {
        u8::from(self).into()
    }

    /// The edition of a number, which may come from elsewhere.
    ///
    /// # Errors
    ///
    /// [`Refusal::Edition`] for another than 1 or 2.
    ///
    /// ```
    /// use virentolex::{Edition, Refusal};
    ///
    /// assert_eq!(Edition::from_number(1), Ok(Edition::First));
    /// assert_eq!(Edition::from_number(3), Err(Refusal::Edition));
    /// ```
    pub fn from_number(number: usize) -> Result<Edition, Refusal> {
        match number {
            1 => Ok(Edition::First),
            2 => Ok(Edition::Second),
            _ => Err(Refusal::Edition),
        }
    }
}

/// The edition of a number, as `from_number` has it.
///
/// ```
/// use virentolex::{Edition, Refusal};
///
/// assert_eq!(Edition::try_from(2), Ok(Edition::Second));
/// assert_eq!(Edition::try_from(0), Err(Refusal::Edition));
/// ```
impl TryFrom<u8> for Edition {
    type Error = Refusal;

    fn try_from(number: u8) -> Result<Self, Refusal> {
        Edition::from_number(number.into())
    }
}

/// The edition's number, 1 or 2.
///
/// ```
/// assert_eq!(u8::from(virentolex::Edition::Second), 2);
/// ```
impl From<Edition> for u8 {
    fn from(edition: Edition) -> u8 {
        match edition {
            Edition::First => 1,
            Edition::Second => 2,
        }
    }
}
