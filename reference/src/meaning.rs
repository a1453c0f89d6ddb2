//! The meaning of a text on a notice, "when every part of the expression is worked out and nothing is
//! skipped" (the letter, number 3).

use crate::compile::accepted;
use crate::edition::Edition;
use crate::grammar::Tree;
use crate::judge::function;
use crate::notice::{fields, value_of, Field};
use crate::op::Op;
use crate::value::{binary, logic, many, not, unary, Slot, Truth, Value};

/// The verdict that the meaning gives, if none of 25, 10, 1, 3, 6, 2, 4, 18, 5 applies to the text and the
/// notice keeps its layout. Document 02, request 9: "demands 2 and 3 read that edition".
pub fn meaning(edition: usize, text: &[u8], notice: &[u8]) -> Option<Truth> {
    let on = On {
        edition: Edition::of_number(edition)?,
        notice,
        fields: fields(notice).ok()?,
    };
    Some(on.truth(&accepted(text).ok()?))
}

/// An edition, and a notice that keeps its layout, with its fields.
struct On<'a> {
    edition: Edition,
    notice: &'a [u8],
    fields: Vec<Field>,
}

impl On<'_> {
    fn truth(&self, tree: &Tree) -> Truth {
        match self.slot(tree) {
            Slot::Truth(truth) => truth,
            Slot::Value(_) => unreachable!("the kinds are right"),
        }
    }

    fn value(&self, tree: &Tree) -> Option<Value> {
        match self.slot(tree) {
            Slot::Value(value) => value,
            Slot::Truth(_) => unreachable!("the kinds are right"),
        }
    }

    fn slot(&self, tree: &Tree) -> Slot {
        match tree {
            Tree::Int32(n) => Slot::Value(Some(Value::Int32(*n))),
            Tree::Int64(n) => Slot::Value(Some(Value::Int64(*n))),
            Tree::Real64(x) => Slot::Value(Some(Value::Real64(*x))),
            Tree::Text(bytes) => Slot::Value(Some(Value::Text(bytes.clone()))),
            // "A missing name is bottom"
            Tree::Name(name) => Slot::Value(value_of(self.notice, &self.fields, name)),
            Tree::Parens(inner) => self.slot(inner),
            Tree::Prefix(Op::Not, inner) => Slot::Truth(not(self.truth(inner))),
            Tree::Prefix(op, inner) => unary(*op, self.value(inner)),
            Tree::Binary(op @ (Op::And | Op::Xor | Op::Or), left, right) => {
                Slot::Truth(logic(*op, self.truth(left), self.truth(right)))
            }
            Tree::Binary(op, left, right) => {
                binary(self.edition, *op, self.value(left), self.value(right))
            }
            Tree::Call(name, escaped, arguments) => {
                self.call(function(name, *escaped).expect("a function"), arguments)
            }
        }
    }

    fn call(&self, op: Op, arguments: &[Tree]) -> Slot {
        let mut values: Vec<Option<Value>> =
            arguments.iter().map(|tree| self.value(tree)).collect();
        let first = values.remove(0);
        match op {
            Op::Begins | Op::Contains | Op::Ends | Op::Equals | Op::Wildcard | Op::Regex => {
                Slot::Truth(many(op, first, values))
            }
            _ => unary(op, first),
        }
    }
}

#[cfg(test)]
mod tests {
    use super::*;
    use crate::notice::examples::{E, OP42};

    #[test]
    fn the_p_cases() {
        let cases: [(&str, &[u8], Truth); 12] = [
            ("Op == 42", &OP42, Truth::True),
            ("Op != 42", &E, Truth::Bottom),
            ("Op == 1 && 1 == 2", &E, Truth::False),
            ("1 == 2 && Op == 42", &E, Truth::False),
            ("1 == 1 ^^ 2 == 2", &E, Truth::False),
            ("2 + 3 * 4 & 6 == 14", &E, Truth::True),
            ("-7 / 2 == -3", &E, Truth::True),
            ("2147483647 + 1 == 2147483648L", &E, Truth::True),
            // document 02, request 6: "The example with 9223372036854775807L turns from bottom to false."
            ("9223372036854775807L + 1 == 0", &E, Truth::False),
            ("-1 >>> 28 == 15", &E, Truth::True),
            ("1 / 0 == 0 || 1 == 1", &E, Truth::True),
            ("Op == 42", &E, Truth::Bottom),
        ];
        for (text, notice, verdict) in cases {
            for edition in [1, 2] {
                let answer = meaning(edition, text.as_bytes(), notice);
                assert_eq!(answer, Some(verdict), "{text}");
            }
        }
    }

    #[test]
    fn shift_counts_by_edition() {
        let cases = [
            // "-1 shifts an int32 by 31"
            ("1 << -1 == -2147483648", Truth::Bottom, Truth::True),
            ("-1 >>> -1 == 1", Truth::Bottom, Truth::True),
            ("Op >> 32 == 42", Truth::Bottom, Truth::True),
            ("Op >> 33L == 21", Truth::Bottom, Truth::True),
            ("1L << -1 == 1", Truth::Bottom, Truth::False),
            ("1L << 32 == 4294967296L", Truth::True, Truth::True),
            ("1 << 1.0 == 2", Truth::Bottom, Truth::Bottom),
            ("1 << a == 2", Truth::Bottom, Truth::Bottom),
            // no other operator
            ("Op / 0 == 1", Truth::Bottom, Truth::Bottom),
        ];
        for (text, first, second) in cases {
            let verdict = |edition| meaning(edition, text.as_bytes(), &OP42);
            assert_eq!(verdict(1), Some(first), "{text}");
            assert_eq!(verdict(2), Some(second), "{text}");
            assert_eq!(verdict(3), None);
        }
    }
}
