//! "The run": a table on a notice, with its skips and steps; and document 02, request 7: "Why was it
//! undecided?"

use crate::compile::Entry;
use crate::notice::{fields, value_of, Field};
use crate::op::Op;
use crate::table::{checked, landing, pool_part, Table};
use crate::value::{binary, logic, many, not, unary, Slot, Truth, Value};

/// Request 7: "or 65535 if none did"
pub const NO_ENTRY: usize = 65535;

/// "Running answers number, place, verdict (bottom if refused) and steps (0 if refused)."; request 7: "the
/// number of the first visited entry that left bottom on the stack, counted from 0, or 65535 if none did",
/// and "A refused run .. give[s] 65535."
#[derive(Clone, Copy, PartialEq, Eq, Debug)]
pub struct Running {
    pub number: u8,
    pub place: usize,
    pub verdict: Truth,
    pub steps: usize,
    pub undecided: usize,
}

/// "Running: 12 before 11."
pub fn run(table: &[u8], notice: &[u8]) -> Running {
    run_shown(table, notice, &mut |_, _, _| ())
}

/// What is shown of an entry before its visit: its number, itself, and the stack, its operands on top.
pub type Show<'a> = dyn FnMut(usize, &Entry, &[Slot]) + 'a;

/// As `run`; each entry is shown before its visit.
pub fn run_shown(table: &[u8], notice: &[u8], show: &mut Show) -> Running {
    let refused = |number, place| Running {
        number,
        place,
        verdict: Truth::Bottom,
        steps: 0,
        undecided: NO_ENTRY,
    };
    let Some(table) = checked(table) else {
        return refused(12, 0);
    };
    let fields = match fields(notice) {
        Ok(fields) => fields,
        Err(place) => return refused(11, place),
    };
    Machine {
        table,
        notice,
        fields,
        stack: Vec::new(),
    }
    .run(show)
}

/// Bottom, as a truth value or in a value's place.
pub fn is_bottom(slot: &Slot) -> bool {
    matches!(slot, Slot::Truth(Truth::Bottom) | Slot::Value(None))
}

struct Machine<'a> {
    table: Table<'a>,
    notice: &'a [u8],
    fields: Vec<Field>,
    stack: Vec<Slot>,
}

impl Machine<'_> {
    /// "The run starts at entry 0 with an empty stack. An entry reached is visited: one step. .. At N
    /// it ends and the one slot is the verdict."
    fn run(mut self, show: &mut Show) -> Running {
        let mut at = 0;
        // the entries visited, in their order, each with whether it left bottom on the stack
        let mut visited: Vec<(usize, bool)> = Vec::new();
        while at < self.table.entries.len() {
            show(at, &self.table.entries[at], &self.stack);
            let next = self.visit(at);
            visited.push((at, self.stack.iter().any(is_bottom)));
            at = next;
        }
        let first = visited.iter().find(|(_, bottom)| *bottom);
        Running {
            number: 0,
            place: 0,
            verdict: self.pop_truth(),
            steps: visited.len(),
            undecided: first.map_or(NO_ENTRY, |(entry, _)| *entry),
        }
    }

    /// Visits one entry; the next one. "44 on a false top and 45 on a true one go a + 1 entries on,
    /// all else one."
    fn visit(&mut self, at: usize) -> usize {
        let entry = self.table.entries[at];
        let skips_on = match entry.op {
            Op::SkipFalse => Truth::False,
            Op::SkipTrue => Truth::True,
            _ => {
                let result = self.result(&entry);
                self.stack.push(result);
                return at + 1;
            }
        };
        // "A skip keeps its operand."
        let top = self.pop_truth();
        self.stack.push(Slot::Truth(top));
        if top == skips_on {
            landing(at, &entry)
        } else {
            at + 1
        }
    }

    fn pop_truth(&mut self) -> Truth {
        match self.stack.pop() {
            Some(Slot::Truth(truth)) => truth,
            _ => unreachable!("the check has passed"),
        }
    }

    fn pop_value(&mut self) -> Option<Value> {
        match self.stack.pop() {
            Some(Slot::Value(value)) => value,
            _ => unreachable!("the check has passed"),
        }
    }

    /// "Ops 1..4 push their value, 5 the field's or bottom. .. The other ops replace their operands, the
    /// first deepest, by their result"
    fn result(&mut self, entry: &Entry) -> Slot {
        match entry.op {
            Op::Int32 => Slot::Value(Some(Value::Int32(entry.b as i32))),
            Op::Int64 => Slot::Value(Some(Value::Int64(entry.b as i64))),
            Op::Real64 => Slot::Value(Some(Value::Real64(f64::from_bits(entry.b)))),
            Op::Text => Slot::Value(Some(Value::Text(self.pooled(entry)))),
            Op::Name => Slot::Value(value_of(self.notice, &self.fields, &self.pooled(entry))),
            Op::Not => Slot::Truth(not(self.pop_truth())),
            Op::And | Op::Xor | Op::Or => {
                let right = self.pop_truth();
                Slot::Truth(logic(entry.op, self.pop_truth(), right))
            }
            Op::Begins | Op::Contains | Op::Ends | Op::Equals | Op::Wildcard | Op::Regex => {
                self.many(entry)
            }
            op if op.code() >= Op::IsInt32.code() || op.code() <= Op::Complement.code() => {
                unary(op, self.pop_value())
            }
            op => {
                let right = self.pop_value();
                binary(self.table.edition, op, self.pop_value(), right)
            }
        }
    }

    fn pooled(&self, entry: &Entry) -> Vec<u8> {
        pool_part(self.table.pool, entry)
            .expect("the check has passed")
            .to_vec()
    }

    /// "taken from the stack with the first"
    fn many(&mut self, entry: &Entry) -> Slot {
        let mut later: Vec<Option<Value>> = (0..entry.a).map(|_| self.pop_value()).collect();
        later.reverse();
        Slot::Truth(many(entry.op, self.pop_value(), later))
    }
}

#[cfg(test)]
mod tests {
    use super::*;
    use crate::compile::table_of;
    use crate::notice::examples::{E, OP42};

    #[test]
    fn the_example_runs() {
        let cases: [(&str, &[u8], Truth, usize, usize); 4] = [
            ("Op == 42", &OP42, Truth::True, 3, 65535),
            ("Op == 42", &E, Truth::Bottom, 3, 0),
            ("Op == 1 && 1 == 2", &E, Truth::False, 8, 0),
            ("1 == 2 && Op == 42", &E, Truth::False, 4, 65535),
        ];
        for (text, notice, verdict, steps, undecided) in cases {
            let answer = run(&table_of(1, text.as_bytes()).unwrap(), notice);
            assert_eq!(
                answer,
                Running {
                    number: 0,
                    place: 0,
                    verdict,
                    steps,
                    undecided
                },
                "{text}"
            );
        }
    }

    #[test]
    fn the_first_undecided_entry() {
        let cases = [
            // a missing name; a kind and a value that the operator does not take
            ("1 == a", 1),
            ("Op > 'x'", 2),
            ("Op / 0 == 1", 2),
            ("Op << 32 == 1", 2),
            ("size (Op) == 1", 1),
            // the first of several
            ("a == b", 0),
            ("Op + a > b", 1),
            // one that is passed over is not visited
            ("Op == 41 && a == 1", 65535),
            ("Op == 41 && a == 1 ^^ b == 1", 8),
            // gone in the end
            ("a == 1 || Op == 42", 0),
            ("a == 1 && Op == 41 || b == 1", 0),
        ];
        for (text, undecided) in cases {
            let answer = run(&table_of(1, text.as_bytes()).unwrap(), &OP42);
            assert_eq!(answer.undecided, undecided, "{text}");
        }
    }

    #[test]
    fn twelve_comes_before_eleven() {
        let table = table_of(1, b"Op == 42").unwrap();
        let refused = |notice: &[u8], table: &[u8]| {
            let answer = run(table, notice);
            (answer.number, answer.undecided)
        };
        assert_eq!(refused(b"", b""), (12, 65535));
        assert_eq!(refused(b"", &table), (11, 65535));
    }
}
