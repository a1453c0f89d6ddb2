//! What an expression is on a notice, as the library tells it.

use crate::raw::{ENTRY, TABLE_HEAD};
use crate::{Kind, NoticeRef, Operand, SubscriptionRef, TABLE_MAX};
use core::ops::Range;

/// The kinds of values, with the ops of their type tests.
const TESTS: [(Kind, u8); 5] = [
    (Kind::Int32, 48),
    (Kind::Int64, 49),
    (Kind::Real64, 50),
    (Kind::String, 51),
    (Kind::Opaque, 52),
];

impl<'a> SubscriptionRef<'a> {
    /// The kind of the value that the expression which entry k ends has on a notice; none if it is bottom, or a
    /// condition.
    ///
    /// ```
    /// use virentolex::{Edition, Kind, NoticeRef, SubscriptionRef};
    ///
    /// let mut room = [0; 200];
    /// let subscription = SubscriptionRef::translate_in("Fare * 1.5 > 20", Edition::First, &mut room)?;
    /// let mut room = [0; 100];
    /// let notice = NoticeRef::builder_in(&mut room).field("Fare", 15).build()?;
    /// assert_eq!(subscription.kind_on(notice, 0), Some(Kind::Int32));
    /// assert_eq!(subscription.kind_on(notice, 2), Some(Kind::Real64));
    /// assert_eq!(subscription.kind_on(NoticeRef::EMPTY, 2), None);
    /// # Ok::<(), virentolex::Refusal>(())
    /// ```
    pub fn kind_on<'n>(self, notice: impl Into<NoticeRef<'n>>, k: u16) -> Option<Kind> {
        let notice = notice.into();
        match self.entry(k).ok()?.operand() {
            Operand::Int32(_) => Some(Kind::Int32),
            Operand::Int64(_) => Some(Kind::Int64),
            Operand::Real64(_) => Some(Kind::Real64),
            Operand::String(_) => Some(Kind::String),
            Operand::Name(name) => notice.find(name).map(|field| field.value.kind()),
            _ => Probe::of(self, self.span(k))?.kind(notice),
        }
    }
}

/// A table of its own: the entries of an expression, a type test behind them, and the pool.
struct Probe {
    table: [u8; TABLE_MAX],
    /// Where the test stands, and where the table ends.
    test: usize,
    end: usize,
}

impl Probe {
    fn of(subscription: SubscriptionRef<'_>, span: Range<u16>) -> Option<Probe> {
        let (bytes, pool) = (subscription.as_table(), subscription.pool());
        let offset = |k: u16| TABLE_HEAD + ENTRY * usize::from(k);
        let entries = bytes.get(offset(span.start)..offset(span.end))?;
        let test = TABLE_HEAD + entries.len();
        let end = test + ENTRY + pool.len();
        let mut table = [0; TABLE_MAX];
        let length = u32::try_from(end - 4).ok()?.to_le_bytes();
        let count = u16::try_from(span.len() + 1).ok()?.to_le_bytes();
        table.get_mut(..4)?.copy_from_slice(&length);
        table.get_mut(4..6)?.copy_from_slice(bytes.get(4..6)?);
        table.get_mut(6..8)?.copy_from_slice(&count);
        table.get_mut(8..10)?.copy_from_slice(bytes.get(8..10)?);
        table.get_mut(TABLE_HEAD..test)?.copy_from_slice(entries);
        table.get_mut(test + ENTRY..end)?.copy_from_slice(pool);
        Some(Probe { table, test, end })
    }

    /// The kind whose test is true.
    fn kind(&mut self, notice: NoticeRef<'_>) -> Option<Kind> {
        TESTS.into_iter().find_map(|(kind, op)| {
            *self.table.get_mut(self.test)? = op;
            let table = SubscriptionRef::from_table(self.table.get(..self.end)?).ok()?;
            let outcome = table.run(notice).ok()?;
            outcome.verdict.is_true().then_some(kind)
        })
    }
}
