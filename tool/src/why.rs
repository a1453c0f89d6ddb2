//! Why a verdict is bottom, which the wrapper says; and what is bottom on every notice, or true on none.
//!
//! What is the same on every notice, the library tells: the entries of an expression, with an operator behind them, are
//! a table of their own, which is run on the notice without fields.
mod always;
mod kinds;
mod possible;

use crate::program::{number, Program};
use kinds::{compares, Kinds};
use std::ops::Range;
use virentolex::{Entry, Kind, NoticeRef, Subscription, SubscriptionRef, Verdict};

const HEAD: usize = 10;
const ENTRY: usize = 12;
/// The most characters of an expression that are shown.
const SHOWN: usize = 60;

/// A subscription whose undecided runs are explained.
pub struct Why<'a> {
    program: Program<'a>,
}

/// What an operand is: its expression, and the kinds that it may have.
struct Part {
    phrase: String,
    kinds: Kinds,
}

impl<'a> Why<'a> {
    pub fn new(subscription: &'a Subscription) -> Why<'a> {
        let program = Program::new(subscription);
        Why { program }
    }

    /// What was lacking at entry k, the first undecided one of a run on the well-formed notice.
    pub fn explain(&self, notice: &[u8], k: u16) -> String {
        let subscription = self.program.subscription();
        let notice = NoticeRef::from_bytes(notice);
        let why = notice.and_then(|notice| Ok(subscription.why(notice, k)?.to_string()));
        why.unwrap_or_else(|_| format!("entry {k}"))
    }

    /// The expression that entry x ends, if it is not too long.
    fn shown(&self, x: usize) -> String {
        let phrase = Some(self.program.phrase(x)).filter(|p| p.chars().count() <= SHOWN);
        phrase.unwrap_or_else(|| "an operand".into())
    }

    /// The kind on the notice of the value that entry x leaves; none if it is bottom.
    fn kind(&self, notice: NoticeRef, x: usize) -> Option<Kind> {
        self.program.subscription().kind_on(notice, number(x))
    }

    /// The verdict of a table of some entries, behind a literal 1 of an op if one is given, and with more ops behind.
    fn verdict(
        &self,
        notice: NoticeRef,
        one: Option<u16>,
        entries: Range<usize>,
        ops: &[u16],
    ) -> Option<Verdict> {
        let subscription = self.program.subscription();
        let (bytes, pool) = (subscription.as_table(), subscription.pool());
        let count = usize::from(one.is_some()) + entries.len() + ops.len();
        let mut table = vec![0; 4];
        table.extend_from_slice(&bytes[4..6]);
        table.extend_from_slice(&(count as u16).to_le_bytes());
        table.extend_from_slice(&(pool.len() as u16).to_le_bytes());
        if let Some(op) = one {
            table.extend_from_slice(&written(op, 1));
        }
        table.extend_from_slice(&bytes[HEAD + ENTRY * entries.start..HEAD + ENTRY * entries.end]);
        ops.iter()
            .for_each(|op| table.extend_from_slice(&written(*op, 0)));
        table.extend_from_slice(pool);
        let length = (table.len() - 4) as u32;
        table[..4].copy_from_slice(&length.to_le_bytes());
        let ran = SubscriptionRef::from_table(&table).and_then(|s| s.run(notice));
        ran.ok().map(|outcome| outcome.verdict)
    }

    /// Whether entry x leaves zero on every notice: no number may be divided by it.
    fn is_zero(&self, x: usize) -> bool {
        self.undoes(x, Kinds::INT32, 23)
    }

    /// Whether entry x leaves a count on every notice by which no integer of the kind is shifted.
    fn is_outside(&self, kind: Kinds, x: usize) -> bool {
        self.undoes(x, kind, 16)
    }

    /// Whether entry x leaves the same number on every notice, and an op on 1 and that number is bottom.
    fn undoes(&self, x: usize, kind: Kinds, op: u16) -> bool {
        let one = if kind == Kinds::INT64 { 2 } else { 1 };
        self.program.is_constant(x)
            && self
                .kind(NoticeRef::EMPTY, x)
                .is_some_and(|kind| Kinds::of(kind).is_within(Kinds::NUMBERS))
            && self.verdict(NoticeRef::EMPTY, Some(one), self.program.span(x), &[op, 54])
                == Some(Verdict::Bottom)
    }
}

/// The bytes of an entry with a number b.
fn written(op: u16, b: u8) -> [u8; ENTRY] {
    let [low, high] = op.to_le_bytes();
    [low, high, 0, 0, b, 0, 0, 0, 0, 0, 0, 0]
}

/// The complaint about the first operand of a kind that the operator does not take, if there is one.
fn wrong_kind(entry: &Entry, parts: &[Part]) -> Option<String> {
    let word = entry.word();
    let (takes, wanted) = match entry.op {
        6 | 56..=58 | 60 | 61 => (Kinds::STRING, "a string"),
        7 => (Kinds::SIZED, "a string or an opaque value"),
        8 | 16..=21 | 24 => (Kinds::INTEGERS, "integers"),
        32 | 33 | 59 => return unlike(entry, parts),
        _ => (Kinds::NUMBERS, "numbers"),
    };
    let part = parts.iter().find(|part| !part.kinds.meets(takes))?;
    Some(format!(
        "{} is {}, {word} takes {wanted}",
        part.phrase,
        part.kinds.spelled()
    ))
}

/// The complaint about the first two that `==` does not compare, the first operand being one of them.
fn unlike(entry: &Entry, parts: &[Part]) -> Option<String> {
    let (first, others) = parts.split_first()?;
    let other = others
        .iter()
        .find(|other| !compares(first.kinds, other.kinds))?;
    Some(format!(
        "{} is {} and {} {}, {} takes two strings or two numbers",
        first.phrase,
        first.kinds.spelled(),
        other.phrase,
        other.kinds.spelled(),
        entry.word()
    ))
}

/// The complaint where the kinds are right.
fn wrong_value(entry: &Entry, parts: &[Part]) -> String {
    match (entry.op, parts) {
        (16..=18, [left, count]) => {
            let width = if left.kinds == Kinds::INT32 { 31 } else { 63 };
            format!("{} is not 0 to {width}", count.phrase)
        }
        (23 | 24, [.., divisor]) => format!("{} is zero", divisor.phrase),
        (7, [text]) => format!("{} is not well-formed UTF-8", text.phrase),
        _ => format!("{} does not take its operands", entry.word()),
    }
}
