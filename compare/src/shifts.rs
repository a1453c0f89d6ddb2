//! The kind of case `shift` (document 02, request 9): shifts by counts within the width and outside it, in
//! tables and in texts of both editions. Which counts they are is told by `shift_edges`, of every run.

use crate::cases::{Case, Outcome};
use crate::editions;
use crate::expressions::{integer, COMPARISONS};
use crate::meters::field;
use crate::notices::rendered;
use crate::operations::{told, whole};
use crate::random::Random;
use crate::shift_edges::SHIFTS;
use reference::op::Op;
use reference::value::{binary, Slot, Value};

/// So many tables are tried in one case, and an eighth as many texts.
const TRIED: usize = 40;

/// Integers whose bits are told by a shift.
const LEFT: [i64; 10] = [
    -1,
    1,
    0,
    42,
    -42,
    i32::MIN as i64,
    i32::MAX as i64,
    i64::MIN,
    i64::MAX,
    0x0123_4567_89ab_cdef,
];
/// Counts at which the rules of the editions turn; others lie near multiples of a width, or anywhere.
const COUNTS: [i64; 25] = [
    0,
    1,
    31,
    32,
    33,
    63,
    64,
    65,
    128,
    -1,
    -31,
    -32,
    -33,
    -63,
    -64,
    -65,
    i32::MAX as i64,
    i32::MIN as i64,
    1 << 31,
    1 << 32,
    (1 << 32) + 5,
    -(1 << 32) - 5,
    i64::MAX,
    i64::MIN,
    i64::MIN + 1,
];

fn left(random: &mut Random) -> Value {
    let n = match random.below(3) {
        0 => random.word() as i64,
        _ => random.pick(&LEFT),
    };
    match random.below(2) {
        0 => Value::Int32(n as i32),
        _ => Value::Int64(n),
    }
}

/// A count of either type, now and then a real.
fn count(random: &mut Random) -> Value {
    let near = (random.word() as i64 >> random.below(64)) & !31;
    let n = match random.below(24) {
        0 => return Value::Real64(random.pick(&[0.0, 1.0, 31.0, -1.0])),
        1..=4 => near.wrapping_add(random.below(5) as i64 - 2),
        5 => random.word() as i64,
        _ => random.pick(&COUNTS),
    };
    whole(random, n)
}

fn shift(random: &mut Random) -> (Op, Value, Value) {
    (random.pick(&SHIFTS), left(random), count(random))
}

/// The value as a literal of its type.
fn literal(random: &mut Random, value: &Value) -> String {
    match value {
        Value::Int32(n) => integer(random, i128::from(*n)),
        Value::Int64(n) => integer(random, i128::from(*n)) + "L",
        Value::Real64(x) => format!("{x:.1}"),
        _ => String::new(),
    }
}

impl Case<'_> {
    pub fn shift(&mut self) -> Outcome {
        (0..TRIED).try_for_each(|_| self.shift_table())?;
        (0..TRIED / 8).try_for_each(|_| self.shift_text())
    }

    /// A table of one shift.
    fn shift_table(&mut self) -> Outcome {
        let edition = editions::any(&mut self.random);
        let (op, left, right) = shift(&mut self.random);
        let table = told(&mut self.random, edition, op, left, right);
        self.checking(&table)?;
        self.running(&table, &virentolex::raw::EMPTY_NOTICE)
            .map(|_| ())
    }

    /// A text of one shift of the field `m` by the field `n` or by a literal, its result beside the field
    /// `r`, which has the value that one of the editions gives.
    fn shift_text(&mut self) -> Outcome {
        let (op, left, right) = shift(&mut self.random);
        let operator = match op {
            Op::ShiftLeft => "<<",
            Op::ShiftRight => ">>",
            _ => ">>>",
        };
        let mut fields = vec![field("m", &left), field("n", &right)];
        let by = match self.random.below(2) {
            0 => "n".to_string(),
            _ => literal(&mut self.random, &right),
        };
        let told = editions::any(&mut self.random);
        if let Slot::Value(Some(value)) = binary(told, op, Some(left), Some(right)) {
            fields.push(field("r", &value));
        }
        fields.retain(|_| !self.random.once_in(40));
        let comparison = self.random.pick(&COMPARISONS);
        let text = format!("m {operator} {by} {comparison} r");
        self.both_editions(text.as_bytes(), &rendered(&fields))
    }
}
