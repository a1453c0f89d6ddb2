//! What a run finds.

use crate::raw::{self, REFUSED};
use core::fmt;

/// The three truth values, in their order. Only a true verdict is delivered.
///
/// ```
/// use virentolex::Verdict;
///
/// assert!(Verdict::False < Verdict::Bottom && Verdict::Bottom < Verdict::True);
/// assert_eq!(Verdict::Bottom.to_string(), "bottom");
/// ```
#[derive(Debug, Clone, Copy, PartialEq, Eq, PartialOrd, Ord, Hash)]
pub enum Verdict {
    /// The subscription does not hold for the notice.
    False,
    /// It cannot be told: a field is lacking, or of a kind or a value that an operator does not take.
    Bottom,
    /// It holds; the notice is delivered.
    True,
}

impl Verdict {
    /// The verdict of a number of the library: false 0, true 1, bottom 2, and no other is promised.
    pub(crate) fn of_number(number: u8) -> Verdict {
        match number {
            0 => Verdict::False,
            1 => Verdict::True,
            _ => Verdict::Bottom,
        }
    }

    /// The verdict that a byte of `raw::run_many` or of a store's match is; none for `raw::REFUSED`, for
    /// `raw::FREE`, and for what is no such byte.
    ///
    /// ```
    /// use virentolex::{raw, Verdict};
    ///
    /// assert_eq!(Verdict::of_byte(1), Some(Verdict::True));
    /// assert_eq!(Verdict::of_byte(raw::REFUSED), None);
    /// ```
    pub fn of_byte(byte: u8) -> Option<Verdict> {
        (byte < REFUSED).then(|| Verdict::of_number(byte))
    }

    /// Whether the verdict is true: bottom is not.
    ///
    /// ```
    /// use virentolex::Verdict;
    ///
    /// assert!(Verdict::True.is_true());
    /// assert!(!Verdict::Bottom.is_true() && !Verdict::False.is_true());
    /// ```
    pub fn is_true(self) -> bool {
        self == Verdict::True
    }

    /// Whether the notice is delivered: bottom and false are not.
    ///
    /// ```
    /// use virentolex::Verdict;
    ///
    /// assert!(Verdict::True.is_delivered());
    /// assert!(!Verdict::Bottom.is_delivered());
    /// ```
    pub fn is_delivered(self) -> bool {
        self.is_true()
    }
}

impl fmt::Display for Verdict {
    fn fmt(&self, f: &mut fmt::Formatter<'_>) -> fmt::Result {
        f.pad(match self {
            Verdict::False => "false",
            Verdict::Bottom => "bottom",
            Verdict::True => "true",
        })
    }
}

/// What a run answers.
///
/// ```
/// use virentolex::{Edition, Outcome, SubscriptionRef, Verdict, EMPTY_NOTICE, TABLE_MAX};
///
/// let mut room = [0; TABLE_MAX];
/// let subscription = SubscriptionRef::translate_in("Op == 42", Edition::First, &mut room)?;
/// let outcome = subscription.run(EMPTY_NOTICE)?;
/// assert_eq!((outcome.verdict, outcome.steps), (Verdict::Bottom, 3));
/// // the first entry is the name Op, which the notice has not
/// assert_eq!(outcome.undecided, Some(0));
/// # Ok::<(), virentolex::Refusal>(())
/// ```
#[derive(Debug, Clone, Copy, PartialEq, Eq, Hash)]
pub struct Outcome {
    /// The verdict.
    pub verdict: Verdict,
    /// How many entries the run visited.
    pub steps: usize,
    /// The number of the first visited entry that left bottom on the stack, if one did; with verdict bottom there
    /// is one, with true and false there may be. `SubscriptionRef::entry` tells what it is.
    pub undecided: Option<u16>,
}

impl Outcome {
    /// Whether the notice is delivered.
    ///
    /// ```
    /// use virentolex::{Edition, SubscriptionRef, EMPTY_NOTICE, TABLE_MAX};
    ///
    /// let mut room = [0; TABLE_MAX];
    /// let subscription = SubscriptionRef::translate_in("Op != 42", Edition::First, &mut room)?;
    /// // a field that is not there is not unequal
    /// assert!(!subscription.run(EMPTY_NOTICE)?.is_delivered());
    /// # Ok::<(), virentolex::Refusal>(())
    /// ```
    pub fn is_delivered(&self) -> bool {
        self.verdict.is_delivered()
    }
}

impl From<raw::Ran> for Outcome {
    fn from(ran: raw::Ran) -> Outcome {
        Outcome {
            verdict: ran.verdict,
            steps: ran.steps,
            undecided: entry_number(ran.undecided),
        }
    }
}

/// An entry's number, which is under 512.
pub(crate) fn entry_number(number: Option<usize>) -> Option<u16> {
    number.and_then(|k| u16::try_from(k).ok())
}

#[cfg(test)]
mod tests;
