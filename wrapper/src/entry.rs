//! The entries of a table.

use crate::SubscriptionRef;
use crate::raw;
use crate::spell;
use core::fmt;
use core::iter::FusedIterator;
use core::ops::Range;

/// An entry of a table: its number and document 01's op, a and b.
///
/// ```
/// use virentolex::{Edition, Operand, SubscriptionRef};
///
/// let mut room = [0; 200];
/// let text = "Cab == 'T-41' || Load > 3";
/// let subscription = SubscriptionRef::translate_in(text, Edition::First, &mut room)?;
/// let name = subscription.entry(0)?;
/// assert_eq!((name.op, name.operand()), (5, Operand::Name(b"Cab")));
/// let skip = subscription.entry(3)?;
/// assert_eq!((skip.word(), skip.lands()), ("skip if true", Some(8)));
/// # Ok::<(), virentolex::Refusal>(())
/// ```
#[derive(Debug, Clone, Copy, PartialEq, Eq, Hash)]
pub struct Entry<'a> {
    /// The entry's number in its table, the first being 0.
    pub k: u16,
    /// The op.
    pub op: u16,
    /// The number a.
    pub a: u16,
    /// The number b.
    pub b: u64,
    /// The bytes of a string (op 4) or a name (op 5), as a part of the table; else none.
    pub bytes: &'a [u8],
}

/// What an entry has beside its op.
///
/// ```
/// use virentolex::{Edition, Operand, SubscriptionRef};
///
/// let mut room = [0; 200];
/// let subscription = SubscriptionRef::translate_in("0.5 < Load", Edition::First, &mut room)?;
/// assert_eq!(subscription.entry(0)?.operand(), Operand::Real64(0.5));
/// assert_eq!(subscription.entry(1)?.operand(), Operand::Name(b"Load"));
/// assert_eq!(subscription.entry(2)?.operand(), Operand::None);
/// # Ok::<(), virentolex::Refusal>(())
/// ```
#[derive(Debug, Clone, Copy, PartialEq)]
pub enum Operand<'a> {
    /// Nothing.
    None,
    /// An int32 literal.
    Int32(i32),
    /// An int64 literal.
    Int64(i64),
    /// A real literal.
    Real64(f64),
    /// A string literal's bytes.
    String(&'a [u8]),
    /// A field's name.
    Name(&'a [u8]),
    /// How many entries a skip passes over.
    Skip(u16),
    /// How many literals or values a function takes beside its first argument.
    Count(u16),
}

impl<'a> Entry<'a> {
    /// Entry k of a table that passed its check, if it has one.
    pub(crate) fn at(k: u16, subscription: SubscriptionRef<'a>) -> Option<Self> {
        let start = raw::TABLE_HEAD + raw::ENTRY * usize::from(k);
        let entry: &[u8; raw::ENTRY] = subscription.as_table().get(start..)?.first_chunk()?;
        let [op, op_high, a, a_high, b @ ..] = *entry;
        let mut entry = Entry {
            k,
            op: u16::from_le_bytes([op, op_high]),
            a: u16::from_le_bytes([a, a_high]),
            b: u64::from_le_bytes(b),
            bytes: &[],
        };
        if let 4 | 5 = entry.op {
            let pool = subscription.pool().get(usize::try_from(entry.b).ok()?..)?;
            entry.bytes = pool.get(..entry.a.into())?;
        }
        (k < subscription.entry_count()).then_some(entry)
    }

    /// The op in a word: an operator or a function as the language spells it; `name`; the kind of a literal; `skip
    /// if false`, `skip if true`.
    ///
    /// ```
    /// use virentolex::{Edition, SubscriptionRef};
    ///
    /// let mut room = [0; 200];
    /// let subscription = SubscriptionRef::translate_in("-1 >>> 28 == 15", Edition::First, &mut room)?;
    /// let words = subscription.entries().map(|entry| entry.word());
    /// assert!(words.eq(["int32", "int32", ">>>", "int32", "=="]));
    /// # Ok::<(), virentolex::Refusal>(())
    /// ```
    pub fn word(&self) -> &'static str {
        let (first, words): (u16, &[&str]) = match self.op {
            1..=8 => (
                1,
                &[
                    "int32",
                    "int64",
                    "real64",
                    "string",
                    "name",
                    "fold-case",
                    "size",
                    "~",
                ],
            ),
            16..=26 => (
                16,
                &["<<", ">>", ">>>", "&", "^", "|", "*", "/", "%", "+", "-"],
            ),
            32..=37 => (32, &["==", "!=", "<", "<=", ">", ">="]),
            40..=45 => (
                40,
                &["!", "&&", "^^", "||", "skip if false", "skip if true"],
            ),
            48..=54 => (
                48,
                &[
                    "int32", "int64", "real64", "string", "opaque", "nan", "require",
                ],
            ),
            56..=61 => (
                56,
                &[
                    "begins-with",
                    "contains",
                    "ends-with",
                    "equals",
                    "wildcard",
                    "regex",
                ],
            ),
            _ => return "",
        };
        words
            .get(usize::from(self.op - first))
            .copied()
            .unwrap_or_default()
    }

    /// What the entry has beside its op.
    ///
    /// ```
    /// use virentolex::{Edition, Operand, SubscriptionRef};
    ///
    /// let mut room = [0; 200];
    /// let subscription = SubscriptionRef::translate_in("equals (Op, 1, 2)", Edition::First, &mut room)?;
    /// assert_eq!(subscription.entry(3)?.operand(), Operand::Count(2));
    /// # Ok::<(), virentolex::Refusal>(())
    /// ```
    pub fn operand(&self) -> Operand<'a> {
        match self.op {
            1 => Operand::Int32(self.b as i32),
            2 => Operand::Int64(self.b as i64),
            3 => Operand::Real64(f64::from_bits(self.b)),
            4 => Operand::String(self.bytes),
            5 => Operand::Name(self.bytes),
            44 | 45 => Operand::Skip(self.a),
            56..=61 => Operand::Count(self.a),
            _ => Operand::None,
        }
    }

    /// How many slots the entry takes from the stack; a skip looks at one and keeps it.
    ///
    /// ```
    /// use virentolex::{Edition, SubscriptionRef};
    ///
    /// let mut room = [0; 200];
    /// let subscription = SubscriptionRef::translate_in("contains (Note, 'a', 'b')", Edition::First, &mut room)?;
    /// assert!(subscription.entries().map(|entry| entry.takes()).eq([0, 0, 0, 3]));
    /// # Ok::<(), virentolex::Refusal>(())
    /// ```
    pub fn takes(&self) -> u16 {
        match self.op {
            6..=8 | 40 | 48..=54 => 1,
            16..=26 | 32..=37 | 41..=43 => 2,
            56..=61 => self.a.saturating_add(1),
            _ => 0,
        }
    }

    /// How many slots the entry leaves on the stack: one, or none for a skip.
    ///
    /// ```
    /// use virentolex::{Edition, SubscriptionRef};
    ///
    /// let mut room = [0; 200];
    /// let subscription = SubscriptionRef::translate_in("a == 1 && b == 2", Edition::First, &mut room)?;
    /// assert!(subscription.entries().map(|entry| entry.leaves()).eq([1, 1, 1, 0, 1, 1, 1, 1]));
    /// # Ok::<(), virentolex::Refusal>(())
    /// ```
    pub fn leaves(&self) -> u16 {
        u16::from(!matches!(self.op, 44 | 45))
    }

    /// Where a skip lands, an entry's number or the table's end; none for other ops.
    ///
    /// ```
    /// use virentolex::{Edition, SubscriptionRef};
    ///
    /// let mut room = [0; 200];
    /// let subscription = SubscriptionRef::translate_in("a == 1 && b == 2", Edition::First, &mut room)?;
    /// assert_eq!(subscription.entry(3)?.lands(), Some(8));
    /// assert_eq!(subscription.entry(2)?.lands(), None);
    /// # Ok::<(), virentolex::Refusal>(())
    /// ```
    pub fn lands(&self) -> Option<u16> {
        match self.operand() {
            Operand::Skip(over) => self.k.checked_add(over)?.checked_add(1),
            _ => None,
        }
    }
}

/// The op in a word, and what it has beside it.
impl fmt::Display for Entry<'_> {
    fn fmt(&self, f: &mut fmt::Formatter<'_>) -> fmt::Result {
        f.write_str(self.word())?;
        match self.operand() {
            Operand::None => Ok(()),
            Operand::Skip(over) => write!(f, ", {over} passed over"),
            operand => write!(f, " {operand}"),
        }
    }
}

/// A literal or a name as a subscription spells it; of a skip and a function the number; else nothing.
///
/// ```
/// use virentolex::Operand;
///
/// assert_eq!(Operand::Int64(42).to_string(), "42L");
/// assert_eq!(Operand::Name(b"the pipe").to_string(), "the\\ pipe");
/// ```
impl fmt::Display for Operand<'_> {
    fn fmt(&self, f: &mut fmt::Formatter<'_>) -> fmt::Result {
        match *self {
            Operand::None => Ok(()),
            Operand::Int32(number) => write!(f, "{number}"),
            Operand::Int64(number) => write!(f, "{number}L"),
            Operand::Real64(number) => write!(f, "{}", spell::Real(number)),
            Operand::String(bytes) => write!(f, "{}", spell::Quoted(bytes)),
            Operand::Name(bytes) => write!(f, "{}", spell::Name(bytes)),
            Operand::Skip(count) | Operand::Count(count) => write!(f, "{count}"),
        }
    }
}

/// The entries of a table, by their numbers.
///
/// ```
/// use virentolex::{Edition, SubscriptionRef};
///
/// let mut room = [0; 60];
/// let subscription = SubscriptionRef::translate_in("Op == 42", Edition::First, &mut room)?;
/// assert_eq!(subscription.entries().len(), 3);
/// # Ok::<(), virentolex::Refusal>(())
/// ```
#[derive(Debug, Clone)]
pub struct Entries<'a> {
    subscription: SubscriptionRef<'a>,
    numbers: Range<u16>,
}

impl<'a> Entries<'a> {
    pub(crate) fn of(subscription: SubscriptionRef<'a>) -> Self {
        Entries {
            subscription,
            numbers: 0..subscription.entry_count(),
        }
    }
}

impl<'a> Iterator for Entries<'a> {
    type Item = Entry<'a>;

    fn next(&mut self) -> Option<Entry<'a>> {
        self.subscription.entry(self.numbers.next()?).ok()
    }

    fn size_hint(&self) -> (usize, Option<usize>) {
        self.numbers.size_hint()
    }
}

impl DoubleEndedIterator for Entries<'_> {
    fn next_back(&mut self) -> Option<Self::Item> {
        self.subscription.entry(self.numbers.next_back()?).ok()
    }
}

impl ExactSizeIterator for Entries<'_> {}
impl FusedIterator for Entries<'_> {}

#[cfg(test)]
mod tests;
