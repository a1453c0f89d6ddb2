//! The entries of a table by their numbers, for what keeps something of each in a list.
use std::ops::Range;
use virentolex::{Entry, Subscription, SubscriptionRef};

/// A table that was translated; its expressions are the wrapper's.
#[derive(Clone, Copy)]
pub struct Program<'a>(SubscriptionRef<'a>);

impl<'a> Program<'a> {
    pub fn new(subscription: &'a Subscription) -> Program<'a> {
        Program(subscription.as_subscription())
    }

    pub fn subscription(self) -> SubscriptionRef<'a> {
        self.0
    }

    pub fn entries(self) -> impl Iterator<Item = Entry<'a>> {
        self.0.entries()
    }

    pub fn entry(self, k: usize) -> Option<Entry<'a>> {
        self.0.entry(u16::try_from(k).ok()?).ok()
    }

    /// The entries of the value, or of the condition, that entry k leaves.
    pub fn span(self, k: usize) -> Range<usize> {
        let span = self.0.span(number(k));
        span.start.into()..span.end.into()
    }

    /// The entries that give the operands of entry k, the first operand first.
    pub fn operands(self, k: usize) -> Vec<usize> {
        self.0.operands(number(k)).map(usize::from).collect()
    }

    /// Whether entry k's result is the same on every notice.
    pub fn is_constant(self, k: usize) -> bool {
        let named = |k: usize| self.entry(k).is_some_and(|entry| entry.op == 5);
        !self.span(k).any(named)
    }

    /// The expression that entry k ends.
    pub fn phrase(self, k: usize) -> String {
        self.0.phrase(number(k)).to_string()
    }
}

/// A table has 512 entries at most; a greater number is none's.
pub fn number(k: usize) -> u16 {
    u16::try_from(k).unwrap_or(u16::MAX)
}
