//! What the shifts of a run met, for the tally (document 02, request 9): by edition, op, width and count.

use crate::operands::{is_int32, is_int64, is_negative, is_real, whole};
use reference::compile::Entry;
use reference::op::Op;
use reference::value::Slot;
use reference::Edition;
use std::collections::BTreeSet;

pub const SHIFTS: [Op; 3] = [Op::ShiftLeft, Op::ShiftRight, Op::ShiftZeros];

/// A count, or a stretch of counts, by the width.
type Count = (&'static str, fn(i64, i64) -> bool);

const COUNTS: [Count; 16] = [
    ("0", |count, _| count == 0),
    ("the width less 1", |count, width| count == width - 1),
    ("the width", |count, width| count == width),
    ("the width and 1", |count, width| count == width + 1),
    ("twice the width", |count, width| count == 2 * width),
    ("-1", |count, _| count == -1),
    ("the width negated", |count, width| count == -width),
    ("one below that", |count, width| count == -width - 1),
    ("2^31 - 1", |count, _| count == i64::from(i32::MAX)),
    ("-2^31", |count, _| count == i64::from(i32::MIN)),
    ("2^32", |count, _| count == 1 << 32),
    ("over 2^32, no multiple", |count, width| {
        count > 1 << 32 && count % width != 0
    }),
    ("below -2^32, no multiple", |count, width| {
        count < -(1 << 32) && count % width != 0
    }),
    ("the greatest int64", |count, _| count == i64::MAX),
    ("the least int64", |count, _| count == i64::MIN),
    ("one above that", |count, _| count == i64::MIN + 1),
];
/// What else stands beside the left side.
const OTHERS: [&str; 4] = [
    "a real",
    "a negative one, outside the width",
    "an int32 count, outside the width",
    "an int64 count, outside the width",
];

fn named(edition: Edition, op: Op, width: i64, what: &str) -> String {
    format!("{edition:?} {op:?} of {width}: {what}")
}

/// What must occur in a run of many cases.
pub fn names() -> Vec<String> {
    let mut names = Vec::new();
    for edition in [Edition::First, Edition::Second] {
        for op in SHIFTS {
            for width in [32, 64] {
                let counts = COUNTS.iter().map(|(what, _)| what).chain(&OTHERS);
                names.extend(counts.map(|what| named(edition, op, width, what)));
            }
        }
    }
    names
}

/// The shifts of a run, each count once.
pub struct Shifts {
    edition: Option<Edition>,
    pub met: BTreeSet<String>,
}

impl Shifts {
    /// For the run of a table, which may be refused.
    pub fn of(table: &[u8]) -> Shifts {
        let kind = crate::edges::word(table, 4);
        Shifts {
            edition: Edition::of_kind(kind as u64),
            met: BTreeSet::new(),
        }
    }

    /// An entry and the stack before its visit.
    pub fn see(&mut self, entry: &Entry, stack: &[Slot]) {
        let (Some(edition), [.., left, right]) = (self.edition, stack) else {
            return;
        };
        if !SHIFTS.contains(&entry.op) {
            return;
        }
        let width = match (is_int32(left), is_int64(left)) {
            (true, _) => 32,
            (_, true) => 64,
            _ => return,
        };
        let found = of_count(left, right, width);
        self.met
            .extend(found.map(|what| named(edition, entry.op, width, what)));
    }
}

/// What the count is beside a left side of the width.
fn of_count(left: &Slot, right: &Slot, width: i64) -> impl Iterator<Item = &'static str> {
    let count = whole(right);
    let outside = count.is_some_and(|count| !(0..width).contains(&count));
    let others = [
        is_real(right),
        outside && is_negative(left),
        outside && is_int32(right),
        outside && is_int64(right),
    ];
    let counts = COUNTS
        .into_iter()
        .filter_map(move |(what, is)| count.is_some_and(|count| is(count, width)).then_some(what));
    let others = OTHERS.into_iter().zip(others);
    counts.chain(others.filter_map(|(what, is)| is.then_some(what)))
}

#[cfg(test)]
mod tests {
    use super::*;
    use reference::compile::table_of;
    use reference::run::run_shown;

    fn met(edition: usize, text: &str) -> Vec<String> {
        let table = table_of(edition, text.as_bytes()).unwrap();
        let mut shifts = Shifts::of(&table);
        let notice = virentolex::raw::EMPTY_NOTICE;
        let answer = run_shown(&table, &notice, &mut |_, entry, stack| {
            shifts.see(entry, stack)
        });
        assert_eq!(answer.number, 0);
        shifts.met.into_iter().collect()
    }

    #[test]
    fn counts_by_edition() {
        assert_eq!(
            met(1, "1 << 31 == 0"),
            ["First ShiftLeft of 32: the width less 1"]
        );
        assert_eq!(
            met(2, "-1L >>> 64L == 0"),
            [
                "Second ShiftZeros of 64: a negative one, outside the width",
                "Second ShiftZeros of 64: an int64 count, outside the width",
                "Second ShiftZeros of 64: the width",
            ]
        );
        assert_eq!(
            met(2, "1 >> -33 == 0"),
            [
                "Second ShiftRight of 32: an int32 count, outside the width",
                "Second ShiftRight of 32: one below that",
            ]
        );
        assert_eq!(met(1, "1 >> 1.0 == 0"), ["First ShiftRight of 32: a real"]);
        assert_eq!(met(2, "1.0 >> 1 == 0"), Vec::<String>::new());
        assert_eq!(met(2, "1 + 32 == 0"), Vec::<String>::new());
    }

    #[test]
    fn all_that_is_met_is_named() {
        let names = names();
        for text in ["1 << -1 == 0", "-1L >> -9223372036854775808L == 0"] {
            for edition in [1, 2] {
                assert!(met(edition, text).iter().all(|one| names.contains(one)));
            }
        }
    }
}
