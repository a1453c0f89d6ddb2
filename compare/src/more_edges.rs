//! What a notice that grows met, for the tally (document 02, request 10): the verdicts before and after, what
//! came, and each op whose operands came with it.

use crate::edges::met;
use crate::notices::Field;
use reference::compile::Entry;
use reference::op::{Op, OPS};
use reference::run::{is_bottom, run_shown};
use reference::table::operands;
use reference::value::Slot;
use reference::{Edition, Truth};
use std::collections::BTreeMap;

const VERDICTS: [(Truth, Truth); 5] = [
    (Truth::True, Truth::True),
    (Truth::False, Truth::False),
    (Truth::Bottom, Truth::Bottom),
    (Truth::Bottom, Truth::True),
    (Truth::Bottom, Truth::False),
];
const CAME: [&str; 10] = [
    "one field, which the text names",
    "one field, which it does not name",
    "several fields, of which it names some",
    "to a notice without fields",
    "before the first",
    "behind the last",
    "between two",
    "the 64th field",
    "a name, and a longer one is there",
    "a name, and its start is there",
];

fn turned(edition: Edition, verdicts: (Truth, Truth)) -> String {
    format!("{edition:?}: {:?} to {:?}", verdicts.0, verdicts.1)
}

fn came(op: Op) -> String {
    format!("{op:?}: an operand came")
}

/// The ops that take operands: all but 1 to 5.
fn with_operands() -> impl Iterator<Item = Op> {
    OPS.into_iter().filter(|op| op.code() > Op::Name.code())
}

/// What must occur in a run of many cases.
pub fn names() -> Vec<String> {
    let mut names: Vec<String> = CAME.map(String::from).into();
    for edition in [Edition::First, Edition::Second] {
        names.extend(VERDICTS.map(|verdicts| turned(edition, verdicts)));
    }
    names.extend(with_operands().map(came));
    names
}

/// A table, by its edition, on a notice and on a larger one, each with its fields.
pub struct Step<'a> {
    pub edition: Edition,
    pub table: &'a [u8],
    pub names: &'a [Vec<u8>],
    pub smaller: (&'a [u8], &'a [Field]),
    pub larger: (&'a [u8], &'a [Field]),
}

impl Step<'_> {
    /// What the step met, which gave these verdicts.
    pub fn met(&self, verdicts: (Truth, Truth)) -> Vec<String> {
        let mut found = vec![turned(self.edition, verdicts)];
        found.extend(self.of_fields());
        found.extend(self.of_ops());
        found
    }

    /// What came.
    fn of_fields(&self) -> Vec<String> {
        let (before, after) = (self.smaller.1, self.larger.1);
        let there = |name: &[u8]| before.iter().any(|field| field.name == name);
        let new: Vec<&[u8]> = after.iter().map(|field| &field.name[..]).collect();
        let new: Vec<&[u8]> = new.into_iter().filter(|name| !there(name)).collect();
        let named = new
            .iter()
            .any(|name| self.names.iter().any(|other| other == name));
        let (one, first) = (new.len() == 1, new[0]);
        let below = before
            .iter()
            .filter(|field| field.name[..] < *first)
            .count();
        let among = one && !before.is_empty();
        met([
            (one && named, CAME[0]),
            (one && !named, CAME[1]),
            (!one && named, CAME[2]),
            (before.is_empty(), CAME[3]),
            (among && below == 0, CAME[4]),
            (among && below == before.len(), CAME[5]),
            (among && below > 0 && below < before.len(), CAME[6]),
            (one && after.len() == 64, CAME[7]),
            (
                one && before.iter().any(|field| field.name.starts_with(first)),
                CAME[8],
            ),
            (
                one && before.iter().any(|field| first.starts_with(&field.name)),
                CAME[9],
            ),
        ])
    }

    /// Each op of an entry that is visited in both runs, in the first with bottom among its operands and in
    /// the second without.
    fn of_ops(&self) -> Vec<String> {
        let lacking = self.visits(self.smaller.0);
        let whole = self.visits(self.larger.0);
        let came_to = |op: &Op| {
            let is = |at: &usize| whole.get(at).is_some_and(|(_, bottom)| !bottom);
            lacking
                .iter()
                .any(|(at, (of, bottom))| of == op && *bottom && is(at))
        };
        with_operands().filter(came_to).map(came).collect()
    }

    /// The entries that a run on the notice visits, each with its op and whether bottom is among its operands.
    fn visits(&self, notice: &[u8]) -> BTreeMap<usize, (Op, bool)> {
        let mut visits = BTreeMap::new();
        let mut see = |at: usize, entry: &Entry, stack: &[Slot]| {
            let taken = &stack[stack.len() - operands(entry)..];
            visits.insert(at, (entry.op, taken.iter().any(is_bottom)));
        };
        run_shown(self.table, notice, &mut see);
        visits
    }
}

#[cfg(test)]
mod tests {
    use super::*;
    use crate::notices::rendered;
    use reference::compile::table_of;

    fn field(name: &str) -> Field {
        Field {
            name: name.into(),
            kind: 1,
            value: 1i32.to_le_bytes().to_vec(),
        }
    }

    #[test]
    fn what_came_and_to_which_ops() {
        let table = table_of(2, b"a << 33 == 2 || ab == 1").unwrap();
        let names = [b"a".to_vec(), b"ab".to_vec()];
        let (before, after) = ([field("ab")], [field("a"), field("ab")]);
        let step = Step {
            edition: Edition::Second,
            table: &table,
            names: &names,
            smaller: (&rendered(&before), &before),
            larger: (&rendered(&after), &after),
        };
        assert_eq!(
            step.met((Truth::True, Truth::True)),
            [
                "Second: True to True",
                "one field, which the text names",
                "before the first",
                "a name, and a longer one is there",
                "ShiftLeft: an operand came",
                "Equal: an operand came",
                "SkipTrue: an operand came",
            ]
        );
    }
}
