//! Why a verdict is bottom: the first entry that was undecided, and what it lacked.
//!
//! No operand of that entry is bottom. So it is a name that the notice has not, or an operator on values that does not
//! take the kind, or the value, of an operand.

mod probe;

use crate::{Entry, Kind, NoticeRef, Operand, Refusal, SubscriptionRef};
use crate::{phrase::Phrase, spell};
use core::fmt::{self, Display};

#[cfg(feature = "alloc")]
use crate::Subscription;

/// The most characters of an expression that are shown.
const SHOWN: usize = 60;

/// Why an entry of a table left bottom on the stack. Its `Display` is a sentence for support staff.
///
/// ```
/// use virentolex::{Cause, Edition, NoticeRef, SubscriptionRef};
///
/// let mut room = [0; 200];
/// let text = "Load > 3 && Staff != '417'";
/// let subscription = SubscriptionRef::translate_in(text, Edition::First, &mut room)?;
/// let mut room = [0; 200];
/// let notice = NoticeRef::builder_in(&mut room).field("Load", 4).field("staff", "502").build()?;
/// let undecided = subscription.run(notice)?.undecided.expect("it is bottom");
/// let why = subscription.why(notice, undecided)?;
/// assert_eq!(why.to_string(), "entry 4: there is no field Staff, but one \"staff\"");
/// assert_eq!(why.cause, Cause::Absent { name: b"Staff", other: Some(b"staff") });
/// # Ok::<(), virentolex::Refusal>(())
/// ```
#[derive(Debug, Clone, Copy, PartialEq, Eq, Hash)]
pub struct Why<'a> {
    /// The subscription.
    pub subscription: SubscriptionRef<'a>,
    /// The entry that was undecided.
    pub entry: Entry<'a>,
    /// What it lacked.
    pub cause: Cause<'a>,
}

/// What an undecided entry lacked. An operand is told by the number of the entry that gives it, whose expression
/// `SubscriptionRef::phrase` has.
///
/// ```
/// use virentolex::{Cause, Edition, NoticeRef, SubscriptionRef};
///
/// let mut room = [0; 200];
/// let subscription = SubscriptionRef::translate_in("Fare / Trips < 100", Edition::First, &mut room)?;
/// let mut room = [0; 200];
/// let notice = NoticeRef::builder_in(&mut room).field("Fare", 900).field("Trips", 0).build()?;
/// let why = subscription.why(notice, 2)?;
/// assert_eq!(why.cause, Cause::Zero { divisor: 1 });
/// assert_eq!(why.to_string(), "entry 2: Fare / Trips: Trips is zero");
/// # Ok::<(), virentolex::Refusal>(())
/// ```
#[derive(Debug, Clone, Copy, PartialEq, Eq, Hash)]
pub enum Cause<'a> {
    /// The notice has no field of the name.
    Absent {
        /// The name.
        name: &'a [u8],
        /// The name of a field that differs from it in capitals alone, if there is one.
        other: Option<&'a [u8]>,
    },
    /// The operator does not take the operand's kind.
    Kind {
        /// The operand.
        operand: u16,
        /// Its kind.
        kind: Kind,
    },
    /// The two are not compared: one is a string or a number, and the other is not; or one is opaque.
    Unlike {
        /// The first operand and its kind.
        first: (u16, Kind),
        /// Another one and its kind.
        other: (u16, Kind),
    },
    /// By the first edition, a shift's count is outside the width.
    Count {
        /// The count.
        count: u16,
        /// The greatest count, 31 or 63.
        most: u8,
    },
    /// The divisor is zero.
    Zero {
        /// The divisor.
        divisor: u16,
    },
    /// `size` of a string that is not well-formed UTF-8.
    Utf8 {
        /// The string.
        text: u16,
    },
    /// Nothing of these, as of an entry that was decided.
    Other,
}

impl<'a> SubscriptionRef<'a> {
    /// Why entry k left bottom on the stack, where k is what a run of the subscription on this notice answered as
    /// `undecided`. Of other entries it need not be so.
    ///
    /// # Errors
    ///
    /// [`Refusal::Index`] if there is no entry k.
    ///
    /// ```
    /// use virentolex::{Edition, NoticeRef, Refusal, SubscriptionRef};
    ///
    /// let mut room = [0; 200];
    /// let subscription = SubscriptionRef::translate_in("Staff != '417'", Edition::First, &mut room)?;
    /// let mut room = [0; 200];
    /// let notice = NoticeRef::builder_in(&mut room).field("Staff", 417).build()?;
    /// let undecided = subscription.run(notice)?.undecided.expect("it is bottom");
    /// assert_eq!(
    ///     subscription.why(notice, undecided)?.to_string(),
    ///     "entry 2: Staff != \"417\": Staff is an int32 and \"417\" a string, != takes two strings or two numbers",
    /// );
    /// assert_eq!(subscription.why(notice, 3), Err(Refusal::Index));
    /// # Ok::<(), Refusal>(())
    /// ```
    pub fn why(self, notice: impl Into<NoticeRef<'a>>, k: u16) -> Result<Why<'a>, Refusal> {
        let (entry, notice) = (self.entry(k)?, notice.into());
        let cause = match entry.operand() {
            Operand::Name(name) => {
                let other = notice.other_case(name);
                Cause::Absent { name, other }
            }
            _ => {
                let kinds = |x| self.kind_on(notice, x);
                let kind = Cause::of_kinds(self, k, kinds);
                kind.unwrap_or_else(|| Cause::of_values(self, k, kinds))
            }
        };
        Ok(Why {
            subscription: self,
            entry,
            cause,
        })
    }
}

#[cfg(feature = "alloc")]
impl Subscription {
    /// Why entry k left bottom on the stack, where k is what a run of the subscription on this notice answered as
    /// `undecided`. Of other entries it need not be so.
    ///
    /// # Errors
    ///
    /// [`Refusal::Index`] if there is no entry k.
    ///
    /// ```
    /// use virentolex::{Notice, Subscription};
    ///
    /// let subscription: Subscription = "Staff != \"417\"".parse()?;
    /// let notice: Notice = "Console: \"yard\"".parse()?;
    /// let undecided = subscription.run(&notice)?.undecided.expect("it is bottom");
    /// let why = subscription.why(&notice, undecided)?;
    /// assert_eq!(why.to_string(), "entry 0: there is no field Staff");
    /// # Ok::<(), Box<dyn std::error::Error>>(())
    /// ```
    pub fn why<'a>(&'a self, notice: impl Into<NoticeRef<'a>>, k: u16) -> Result<Why<'a>, Refusal> {
        self.as_subscription().why(notice, k)
    }
}

impl<'a> NoticeRef<'a> {
    /// The name of a field that differs from a name in capitals alone, if there is one.
    ///
    /// ```
    /// use virentolex::NoticeRef;
    ///
    /// let mut room = [0; 100];
    /// let notice = NoticeRef::builder_in(&mut room).field("Staff", "417").build()?;
    /// assert_eq!(notice.other_case("staff"), Some(&b"Staff"[..]));
    /// assert_eq!((notice.other_case("Staff"), notice.other_case("Staf")), (None, None));
    /// # Ok::<(), virentolex::Refusal>(())
    /// ```
    pub fn other_case(self, name: impl AsRef<[u8]>) -> Option<&'a [u8]> {
        let name = name.as_ref();
        let mut names = self.fields().map(|field| field.name);
        names.find(|other| other.eq_ignore_ascii_case(name) && *other != name)
    }
}

fn is_integer(kind: Kind) -> bool {
    matches!(kind, Kind::Int32 | Kind::Int64)
}

fn is_number(kind: Kind) -> bool {
    is_integer(kind) || kind == Kind::Real64
}

/// Whether `==` takes the two.
fn compares(left: Kind, right: Kind) -> bool {
    (is_number(left) && is_number(right)) || (left == Kind::String && right == Kind::String)
}

/// The kinds that an operator takes, and the words for them; none for those that compare two values.
fn wanted(op: u16) -> Option<(fn(Kind) -> bool, &'static str)> {
    Some(match op {
        6 | 56..=58 | 60 | 61 => (|kind| kind == Kind::String, "a string"),
        7 => (
            |kind| matches!(kind, Kind::String | Kind::Opaque),
            "a string or an opaque value",
        ),
        8 | 16..=21 | 24 => (is_integer, "integers"),
        32 | 33 | 59 => return None,
        _ => (is_number, "numbers"),
    })
}

impl<'a> Cause<'a> {
    /// The first operand of entry k, an operator, that is of a kind which it does not take, where `kinds` gives the
    /// kinds of the operands that are known.
    ///
    /// ```
    /// use virentolex::{Cause, Edition, Kind, SubscriptionRef};
    ///
    /// let mut room = [0; 200];
    /// let subscription = SubscriptionRef::translate_in("Staff > '417'", Edition::First, &mut room)?;
    /// let string = |x| (x == 1).then_some(Kind::String);
    /// let kind = Kind::String;
    /// assert_eq!(Cause::of_kinds(subscription, 2, string), Some(Cause::Kind { operand: 1, kind }));
    /// assert_eq!(Cause::of_kinds(subscription, 2, |_| None), None);
    /// # Ok::<(), virentolex::Refusal>(())
    /// ```
    pub fn of_kinds(
        subscription: SubscriptionRef<'a>,
        k: u16,
        kinds: impl Fn(u16) -> Option<Kind>,
    ) -> Option<Self> {
        let operands = subscription.operands(k);
        let mut parts = operands.filter_map(|operand| Some((operand, kinds(operand)?)));
        match wanted(subscription.entry(k).ok()?.op) {
            Some((takes, _)) => {
                let (operand, kind) = parts.find(|(_, kind)| !takes(*kind))?;
                Some(Cause::Kind { operand, kind })
            }
            None => {
                let first = parts.next()?;
                let other = parts.find(|(_, kind)| !compares(first.1, *kind))?;
                Some(Cause::Unlike { first, other })
            }
        }
    }

    /// What entry k, an operator that is bottom, has against its operands, where it takes their kinds.
    ///
    /// ```
    /// use virentolex::{Cause, Edition, Kind, SubscriptionRef};
    ///
    /// let mut room = [0; 200];
    /// let subscription = SubscriptionRef::translate_in("1 << Count == 2", Edition::First, &mut room)?;
    /// let cause = Cause::of_values(subscription, 2, |_| Some(Kind::Int32));
    /// assert_eq!(cause, Cause::Count { count: 1, most: 31 });
    /// # Ok::<(), virentolex::Refusal>(())
    /// ```
    pub fn of_values(
        subscription: SubscriptionRef<'a>,
        k: u16,
        kinds: impl Fn(u16) -> Option<Kind>,
    ) -> Self {
        let op = subscription.entry(k).map_or(0, |entry| entry.op);
        let mut operands = subscription.operands(k);
        match (op, operands.next(), operands.next_back()) {
            (16..=18, Some(shifted), Some(count)) => {
                let narrow = kinds(shifted) == Some(Kind::Int32);
                let most = if narrow { 31 } else { 63 };
                Cause::Count { count, most }
            }
            (23 | 24, _, Some(divisor)) => Cause::Zero { divisor },
            (7, Some(text), None) => Cause::Utf8 { text },
            _ => Cause::Other,
        }
    }
}

impl<'a> Why<'a> {
    /// The sentence without the entry's number.
    ///
    /// ```
    /// use virentolex::{Edition, NoticeRef, SubscriptionRef};
    ///
    /// let mut room = [0; 200];
    /// let subscription = SubscriptionRef::translate_in("Op == 42", Edition::First, &mut room)?;
    /// let why = subscription.why(NoticeRef::EMPTY, 0)?;
    /// assert_eq!(why.reason().to_string(), "there is no field Op");
    /// # Ok::<(), virentolex::Refusal>(())
    /// ```
    pub fn reason(self) -> impl Display + 'a {
        Reason(self)
    }
}

/// The entry's number and what it lacked.
impl Display for Why<'_> {
    fn fmt(&self, f: &mut fmt::Formatter<'_>) -> fmt::Result {
        write!(f, "entry {}: {}", self.entry.k, Reason(*self))
    }
}

/// The sentence of a cause, behind the expression that the entry ends.
struct Reason<'a>(Why<'a>);

impl Display for Reason<'_> {
    fn fmt(&self, f: &mut fmt::Formatter<'_>) -> fmt::Result {
        let Reason(why) = self;
        if let Cause::Absent { name, other } = why.cause {
            write!(f, "there is no field {}", spell::Name(name))?;
            return match other {
                Some(other) => write!(f, ", but one {}", spell::Quoted(other)),
                None => Ok(()),
            };
        }
        match why.subscription.phrase(why.entry.k) {
            phrase if phrase.fits(SHOWN) => write!(f, "{phrase}: ")?,
            _ => write!(f, "{}: ", why.entry.word())?,
        }
        self.operands(f)
    }
}

impl Reason<'_> {
    /// What an operator has against its operands.
    fn operands(&self, f: &mut fmt::Formatter<'_>) -> fmt::Result {
        let Reason(why) = self;
        let (word, op) = (why.entry.word(), why.entry.op);
        let shown = |operand| Shown(why.subscription.phrase(operand));
        match why.cause {
            Cause::Kind { operand, kind } => {
                let (operand, kind) = (shown(operand), kind.with_article());
                let takes = wanted(op).map_or("others", |(_, words)| words);
                write!(f, "{operand} is {kind}, {word} takes {takes}")
            }
            Cause::Unlike { first, other } => {
                let (one, two) = (first.1.with_article(), other.1.with_article());
                let (first, other) = (shown(first.0), shown(other.0));
                write!(f, "{first} is {one} and {other} {two}, ")?;
                write!(f, "{word} takes two strings or two numbers")
            }
            Cause::Count { count, most } => write!(f, "{} is not 0 to {most}", shown(count)),
            Cause::Zero { divisor } => write!(f, "{} is zero", shown(divisor)),
            Cause::Utf8 { text } => write!(f, "{} is not well-formed UTF-8", shown(text)),
            Cause::Absent { .. } | Cause::Other => write!(f, "{word} does not take its operands"),
        }
    }
}

/// An expression, if it is not too long to be shown.
struct Shown<'a>(Phrase<'a>);

impl Display for Shown<'_> {
    fn fmt(&self, f: &mut fmt::Formatter<'_>) -> fmt::Result {
        match self.0.fits(SHOWN) {
            true => self.0.fmt(f),
            false => f.write_str("an operand"),
        }
    }
}

#[cfg(test)]
mod tests;
