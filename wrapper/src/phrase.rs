//! Parts of a table as the expressions that they stand for.

use crate::{Entry, SubscriptionRef};
use core::fmt::{self, Display};
use core::ops::Range;

/// The most operands of an entry: a function's first argument and eight more.
const OPERANDS: usize = 9;

impl<'a> SubscriptionRef<'a> {
    /// The entries of the expression that entry k ends, of a table that was translated.
    ///
    /// ```
    /// use virentolex::{Edition, SubscriptionRef};
    ///
    /// let mut room = [0; 200];
    /// let text = "Load > 3 && Fare / Trips < 100";
    /// let subscription = SubscriptionRef::translate_in(text, Edition::First, &mut room)?;
    /// assert_eq!((subscription.span(2), subscription.span(6)), (0..3, 4..7));
    /// assert_eq!(subscription.span(9), 0..10);
    /// # Ok::<(), virentolex::Refusal>(())
    /// ```
    pub fn span(self, k: u16) -> Range<u16> {
        let slots = |k| self.entry(k).map_or((0, 0), |e| (e.takes(), e.leaves()));
        let (mut first, (mut wanted, _)) = (k, slots(k));
        while wanted > 0 && first > 0 {
            first -= 1;
            let (takes, leaves) = slots(first);
            wanted = wanted.saturating_sub(leaves).saturating_add(takes);
        }
        first..k.saturating_add(1)
    }

    /// The entries that give the operands of entry k, the first operand first, of a table that was translated.
    ///
    /// ```
    /// use virentolex::{Edition, SubscriptionRef};
    ///
    /// let mut room = [0; 200];
    /// let text = "Load > 3 && Fare / Trips < 100";
    /// let subscription = SubscriptionRef::translate_in(text, Edition::First, &mut room)?;
    /// assert!(subscription.operands(8).eq([6, 7]));
    /// assert!(subscription.operands(9).eq([2, 8]));
    /// # Ok::<(), virentolex::Refusal>(())
    /// ```
    pub fn operands(self, k: u16) -> impl DoubleEndedIterator<Item = u16> + ExactSizeIterator {
        let (mut numbers, mut at, mut end) = ([0; OPERANDS], OPERANDS, k);
        let takes = self.entry(k).map_or(0, |entry| entry.takes());
        for _ in 0..takes {
            // a skip before the right side of `&&` or `||` is none of its operands
            let skip = |k: &u16| self.entry(*k).is_ok_and(|entry| entry.leaves() == 0);
            let before = end.checked_sub(1);
            let operand = before.map(|k| if skip(&k) { k.saturating_sub(1) } else { k });
            let (Some(operand), Some(place)) = (operand, at.checked_sub(1)) else {
                break;
            };
            (numbers[place], at, end) = (operand, place, self.span(operand).start);
        }
        numbers.into_iter().skip(at)
    }

    /// The expression that entry k ends, of a table that was translated; operators in it stand in parentheses.
    ///
    /// ```
    /// use virentolex::{Edition, SubscriptionRef};
    ///
    /// let mut room = [0; 200];
    /// let text = "Load > 3 && Fare / Trips < 100";
    /// let subscription = SubscriptionRef::translate_in(text, Edition::First, &mut room)?;
    /// assert_eq!(subscription.phrase(8).to_string(), "(Fare / Trips) < 100");
    /// assert_eq!(subscription.phrase(9).to_string(), "(Load > 3) && ((Fare / Trips) < 100)");
    /// # Ok::<(), virentolex::Refusal>(())
    /// ```
    pub fn phrase(self, k: u16) -> Phrase<'a> {
        Phrase {
            subscription: self,
            k,
        }
    }
}

/// The expression that an entry ends; `SubscriptionRef::phrase` gives it.
///
/// ```
/// use virentolex::{Edition, SubscriptionRef};
///
/// let mut room = [0; 200];
/// let subscription = SubscriptionRef::translate_in("size (Note) > 9", Edition::First, &mut room)?;
/// assert_eq!(subscription.phrase(1).to_string(), "size (Note)");
/// # Ok::<(), virentolex::Refusal>(())
/// ```
#[derive(Debug, Clone, Copy, PartialEq, Eq, Hash)]
pub struct Phrase<'a> {
    subscription: SubscriptionRef<'a>,
    k: u16,
}

impl Phrase<'_> {
    /// Whether it has at most so many characters.
    pub(crate) fn fits(&self, characters: usize) -> bool {
        fmt::write(&mut Left(characters), format_args!("{self}")).is_ok()
    }

    fn part(&self, k: u16) -> Self {
        Phrase { k, ..*self }
    }

    /// An operand, in parentheses if it is an operator's.
    fn operand(&self, f: &mut fmt::Formatter<'_>, k: u16) -> fmt::Result {
        let operator = |entry: Entry<'_>| matches!(entry.op, 8 | 16..=43);
        match self.subscription.entry(k).is_ok_and(operator) {
            true => write!(f, "({})", self.part(k)),
            false => self.part(k).fmt(f),
        }
    }

    /// A function and its arguments.
    fn call(&self, f: &mut fmt::Formatter<'_>, word: &str) -> fmt::Result {
        write!(f, "{word} (")?;
        for (at, k) in self.subscription.operands(self.k).enumerate() {
            f.write_str(if at == 0 { "" } else { ", " })?;
            self.part(k).fmt(f)?;
        }
        f.write_str(")")
    }
}

impl Display for Phrase<'_> {
    fn fmt(&self, f: &mut fmt::Formatter<'_>) -> fmt::Result {
        let Ok(entry) = self.subscription.entry(self.k) else {
            return Ok(());
        };
        let mut operands = self.subscription.operands(self.k);
        match (entry.op, operands.next(), operands.next()) {
            (1..=5, ..) => entry.operand().fmt(f),
            (8, Some(x), None) => {
                f.write_str("~")?;
                self.operand(f, x)
            }
            (..48, Some(left), Some(right)) => {
                self.operand(f, left)?;
                write!(f, " {} ", entry.word())?;
                self.operand(f, right)
            }
            _ => self.call(f, entry.word()),
        }
    }
}

/// Takes so many characters, and fails at one more.
struct Left(usize);

impl fmt::Write for Left {
    fn write_str(&mut self, part: &str) -> fmt::Result {
        self.0 = self.0.checked_sub(part.chars().count()).ok_or(fmt::Error)?;
        Ok(())
    }
}

#[cfg(test)]
mod tests;
