//! What a run with an undecided entry, or with none, met, and what was told of a table's entries, for the
//! tally (document 02, request 7).

use crate::edges::{met, word};
use crate::operands::{is_number, is_text, is_whole};
use reference::compile::Entry;
use reference::notice::{fields, value_of};
use reference::op::{Op, OPS};
use reference::run::{is_bottom, Running, NO_ENTRY};
use reference::table::{checked, operands, pool_part};
use reference::value::Slot;
use reference::{Described, Truth, MOST_ENTRIES};

const RUNS: [&str; 16] = [
    "none, verdict True",
    "none, verdict False",
    "verdict True",
    "verdict False",
    "verdict Bottom",
    "entry 0",
    "entry 255",
    "entry 256",
    "the last entry",
    "the last of 512 entries",
    "a missing name passed over, none",
    "a missing name passed over, then one behind it",
    "two missing names",
    "a missing name, then an operator by itself",
    "an operator by itself, then a missing name",
    "bottom left the stack and came again",
];

/// Why an entry left bottom though no operand was bottom.
const MISSING: &str = "the name is missing";
const KIND: &str = "a kind that it does not take";
const LATER: &str = "a later operand of a kind that it does not take";
const ZERO: &str = "a zero divisor";
const COUNT: &str = "a count outside the width";
const ILL_FORMED: &str = "an ill-formed string";

/// Whether the op can give bottom from operands of which none is bottom.
fn by_itself(op: Op) -> bool {
    let code = op.code();
    (Op::Name.code()..=Op::GreaterEqual.code()).contains(&code) || code >= Op::Begins.code()
}

fn named(op: Op, cause: &str) -> String {
    format!("{op:?}: {cause}")
}

/// What must occur in a run of many cases.
pub fn names() -> Vec<String> {
    let mut names: Vec<String> = RUNS.map(String::from).into();
    for op in OPS.into_iter().filter(|op| by_itself(*op)) {
        let causes: &[&str] = match op {
            Op::Name => &[MISSING],
            Op::Size => &[KIND, ILL_FORMED],
            Op::ShiftLeft | Op::ShiftRight | Op::ShiftZeros => &[KIND, COUNT],
            Op::Divide | Op::Rest => &[KIND, ZERO],
            Op::Begins | Op::Contains | Op::Ends => &[KIND, LATER],
            _ => &[KIND],
        };
        names.extend(causes.iter().map(|cause| named(op, cause)));
    }
    names
}

/// Why the op gives bottom of these operands, none of which is bottom.
fn cause(op: Op, operands: &[Slot]) -> &'static str {
    let all = |is: fn(&Slot) -> bool| operands.iter().all(is);
    match op {
        Op::Name => MISSING,
        Op::Size if all(is_text) => ILL_FORMED,
        Op::ShiftLeft | Op::ShiftRight | Op::ShiftZeros if all(is_whole) => COUNT,
        Op::Rest if all(is_whole) => ZERO,
        Op::Divide if all(is_number) => ZERO,
        Op::Begins | Op::Contains | Op::Ends if is_text(&operands[0]) => LATER,
        _ => KIND,
    }
}

struct Visit {
    at: usize,
    op: Op,
    /// Bottom is among its operands.
    from_bottom: bool,
    /// Bottom stands on the stack after it; and on top.
    left: bool,
    top: bool,
}

/// The visits of a run, which of them is the first that left bottom on the stack, and its operands.
#[derive(Default)]
pub struct Trace {
    visits: Vec<Visit>,
    first: Option<usize>,
    operands: Vec<Slot>,
}

impl Trace {
    /// An entry and the stack before its visit, which is the one after the visit before it.
    pub fn see(&mut self, at: usize, entry: &Entry, stack: &[Slot]) {
        let top = stack.last().is_some_and(is_bottom);
        self.leave(stack.iter().any(is_bottom), top);
        let taken = &stack[stack.len() - operands(entry)..];
        if self.first.is_none() {
            self.operands = taken.to_vec();
        }
        self.visits.push(Visit {
            at,
            op: entry.op,
            from_bottom: taken.iter().any(is_bottom),
            left: false,
            top: false,
        });
    }

    /// What the last visit left.
    fn leave(&mut self, left: bool, top: bool) {
        let Some(last) = self.visits.last_mut() else {
            return;
        };
        (last.left, last.top) = (left, top);
        if left && self.first.is_none() {
            self.first = Some(self.visits.len() - 1);
        }
    }

    /// What the run, which was not refused, met.
    pub fn met(mut self, table: &[u8], notice: &[u8], answer: &Running) -> Vec<String> {
        let bottom = answer.verdict == Truth::Bottom;
        self.leave(bottom, bottom);
        let mut found = self.of_passed(table, notice, answer.undecided);
        let Some(first) = self.first else {
            found.push(format!("none, verdict {:?}", answer.verdict));
            return found;
        };
        let visit = &self.visits[first];
        found.push(format!("verdict {:?}", answer.verdict));
        found.push(named(visit.op, cause(visit.op, &self.operands)));
        found.extend(of_place(visit.at, word(table, 6)));
        found.extend(self.of_later(first));
        found
    }

    /// Bottom that comes after the first.
    fn of_later(&self, first: usize) -> Vec<String> {
        let later = &self.visits[first + 1..];
        let name = self.visits[first].op == Op::Name;
        let anew = |is_name: bool| {
            let of = |visit: &Visit| (visit.op == Op::Name) == is_name;
            let new = |visit: &Visit| visit.top && !visit.from_bottom;
            later.iter().any(|visit| of(visit) && new(visit))
        };
        let gone = later.iter().position(|visit| !visit.left);
        let again = gone.is_some_and(|gone| later[gone..].iter().any(|visit| visit.left));
        met([
            (name && anew(true), RUNS[12]),
            (name && anew(false), RUNS[13]),
            (!name && anew(true), RUNS[14]),
            (again, RUNS[15]),
        ])
    }

    /// Names that the notice has not, in entries that were not visited.
    fn of_passed(&self, table: &[u8], notice: &[u8], undecided: usize) -> Vec<String> {
        let (Some(table), Ok(fields)) = (checked(table), fields(notice)) else {
            return Vec::new();
        };
        let missing = |entry: &Entry| {
            let name = pool_part(table.pool, entry).unwrap_or_default();
            entry.op == Op::Name && value_of(notice, &fields, name).is_none()
        };
        let visited = |at: usize| {
            self.visits
                .binary_search_by_key(&at, |visit| visit.at)
                .is_ok()
        };
        let count = table.entries.len();
        let first = (0..count).find(|at| !visited(*at) && missing(&table.entries[*at]));
        let none = undecided == NO_ENTRY;
        met([
            (none && first.is_some(), RUNS[10]),
            (!none && first.is_some_and(|at| at < undecided), RUNS[11]),
        ])
    }
}

/// The number among so many entries.
fn of_place(at: usize, count: usize) -> Vec<String> {
    let last = at + 1 == count;
    met([
        (at == 0, RUNS[5]),
        (at == 255, RUNS[6]),
        (at == 256, RUNS[7]),
        (last, RUNS[8]),
        (last && count == MOST_ENTRIES, RUNS[9]),
    ])
}

/// What must be told of entries in a run of many cases, beside one of every op.
pub const TOLD: [&str; 15] = [
    "the first entry",
    "the last entry",
    "entry 256",
    "entry 511",
    "a name of 1 byte",
    "a name of 64 bytes",
    "a string of 0 bytes",
    "a string of 0 bytes at the table's end",
    "bytes up to the table's end",
    "a number with all bits set",
    "17, k is the count",
    "17, k is one more",
    "17, k over 65535, its low bytes right",
    "12, k below the count",
    "12, k past the count",
];

/// What the answer for entry k of the table met.
pub fn of_told(table: &[u8], k: usize, told: &Described) -> Vec<String> {
    let count = word(table, 6);
    if told.number != 0 {
        let (no_entry, no_table) = (told.number == 17, told.number == 12);
        return met([
            (no_entry && k == count, TOLD[10]),
            (no_entry && k == count + 1, TOLD[11]),
            (no_entry && k > 65535 && k % 65536 < count, TOLD[12]),
            (no_table && k < count, TOLD[13]),
            (no_table && k >= count, TOLD[14]),
        ]);
    }
    let (name, text) = (told.op == Op::Name.code(), told.op == Op::Text.code());
    let (size, at_end) = (told.bytes.len(), told.bytes.end == table.len());
    met([
        (k == 0, TOLD[0]),
        (k + 1 == count, TOLD[1]),
        (k == 256, TOLD[2]),
        (k == 511, TOLD[3]),
        (name && size == 1, TOLD[4]),
        (name && size == 64, TOLD[5]),
        (text && size == 0, TOLD[6]),
        (text && size == 0 && at_end, TOLD[7]),
        (size > 0 && at_end, TOLD[8]),
        (told.b == u64::MAX, TOLD[9]),
    ])
}

#[cfg(test)]
mod tests {
    use super::*;
    use crate::notices::{rendered, Field};
    use reference::compile::table_of;
    use reference::run::run_shown;

    /// What the text's run meets on a notice of Op, 42, and s, "ab".
    fn run_of(text: &str) -> Vec<String> {
        let field = |name: &str, kind, value: &[u8]| Field {
            name: name.into(),
            kind,
            value: value.to_vec(),
        };
        let notice = rendered(&[field("Op", 1, &42i32.to_le_bytes()), field("s", 4, b"ab")]);
        let table = table_of(1, text.as_bytes()).unwrap();
        let mut trace = Trace::default();
        let mut show = |at: usize, entry: &Entry, stack: &[Slot]| trace.see(at, entry, stack);
        let answer = run_shown(&table, &notice, &mut show);
        let first = trace.first.map(|first| trace.visits[first].at);
        assert!(first.is_none() || first == Some(answer.undecided), "{text}");
        trace.met(&table, &notice, &answer)
    }

    #[test]
    fn edges_of_runs() {
        let cases: [(&str, &[&str]); 12] = [
            ("Op == 42", &["none, verdict True"]),
            ("Op == 41", &["none, verdict False"]),
            (
                "Op == 41 && gone == 1",
                &["a missing name passed over, none", "none, verdict False"],
            ),
            (
                "Op == 41 && gone == 1 ^^ gone == 2",
                &[
                    "a missing name passed over, then one behind it",
                    "verdict Bottom",
                    "Name: the name is missing",
                ],
            ),
            (
                "gone == 1",
                &["verdict Bottom", "Name: the name is missing", "entry 0"],
            ),
            (
                "1 < s",
                &[
                    "verdict Bottom",
                    "Less: a kind that it does not take",
                    "the last entry",
                ],
            ),
            ("Op / 0 == 1", &["verdict Bottom", "Divide: a zero divisor"]),
            (
                "1L >>> 64 == 1",
                &["verdict Bottom", "ShiftZeros: a count outside the width"],
            ),
            (
                "1 == gone ^^ 1 == other",
                &[
                    "verdict Bottom",
                    "Name: the name is missing",
                    "two missing names",
                ],
            ),
            (
                "1 == gone || ! (s < 1) || Op == 42",
                &[
                    "verdict True",
                    "Name: the name is missing",
                    "a missing name, then an operator by itself",
                ],
            ),
            (
                "1 == 1 && s < gone",
                &["verdict Bottom", "Name: the name is missing"],
            ),
            (
                "s < 1 && Op == 41 || 1 == gone",
                &[
                    "verdict Bottom",
                    "Less: a kind that it does not take",
                    "an operator by itself, then a missing name",
                    "bottom left the stack and came again",
                ],
            ),
        ];
        for (text, edges) in cases {
            assert_eq!(run_of(text), edges, "{text}");
        }
    }

    #[test]
    fn edges_of_told_entries() {
        let table = table_of(1, b"a == '' ^^ 1L == -1L").unwrap();
        let told = |table: &[u8], k: usize| of_told(table, k, &reference::describe(table, k));
        let end = "bytes up to the table's end";
        assert_eq!(
            told(&table, 0),
            ["the first entry", "a name of 1 byte", end]
        );
        assert_eq!(
            told(&table, 1),
            [
                "a string of 0 bytes",
                "a string of 0 bytes at the table's end"
            ]
        );
        assert_eq!(told(&table, 4), ["a number with all bits set"]);
        assert_eq!(told(&table, 6), ["the last entry"]);
        assert_eq!(told(&table, 7), ["17, k is the count"]);
        assert_eq!(told(&table, 8), ["17, k is one more"]);
        let low = ["17, k over 65535, its low bytes right"];
        assert_eq!(told(&table, 65536 + 6), low);
        assert_eq!(
            told(&table[..table.len() - 1], 6),
            ["12, k below the count"]
        );
        assert_eq!(told(&table[..table.len() - 1], 7), ["12, k past the count"]);
    }
}
