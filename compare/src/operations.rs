//! Tables of one operator, on numbers or strings where its rule turns.

use crate::random::Random;
use crate::shift_edges::SHIFTS;
use crate::tables::{laid_out, Draft};
use crate::words;
use reference::op::{Op, OPS};
use reference::utf8::characters;
use reference::value::{binary, unary, Slot, Value};
use reference::Edition;

/// One operator on numbers near the limits, and what its result is told by: that it is there, its type,
/// or its value by the reference.
pub fn on_numbers(random: &mut Random, edition: Edition) -> Vec<u8> {
    let (op, left, right) = match random.below(2) {
        0 => corner(random),
        _ => (random.pick(&OPS[5..25]), number(random), number(random)),
    };
    told(random, edition, op, left, right)
}

/// The table of the operator on the numbers, with what its result is told by.
pub fn told(random: &mut Random, edition: Edition, op: Op, left: Value, right: Value) -> Vec<u8> {
    let mut entries = vec![pushed(&left)];
    let result = if op.code() <= Op::Complement.code() {
        unary(op, Some(left))
    } else {
        entries.push(pushed(&right));
        binary(edition, op, Some(left), Some(right))
    };
    entries.push((op.code(), 0, 0));
    match result {
        Slot::Value(Some(value)) if !random.once_in(4) => {
            entries.push(pushed(&value));
            entries.push((random.pick(&OPS[19..25]).code(), 0, 0));
        }
        Slot::Value(_) => entries.push((random.pick(&OPS[31..38]).code(), 0, 0)),
        Slot::Truth(_) => (),
    }
    let pool = Vec::new();
    laid_out(edition, &Draft { entries, pool })
}

const DIVISIONS: [Op; 2] = [Op::Divide, Op::Rest];
const REALS: [f64; 11] = [
    f64::NAN,
    f64::INFINITY,
    f64::NEG_INFINITY,
    0.0,
    0.0,
    -0.0,
    -0.0,
    1.0,
    -2.5,
    9007199254740992.0,
    -9007199254740992.0,
];
const ENDS: [i64; 8] = [
    i64::MIN,
    i64::MIN,
    i64::MAX,
    i32::MIN as i64,
    i32::MIN as i64,
    i32::MAX as i64,
    -1,
    1,
];

/// An operator of two numbers where its rule turns.
fn corner(random: &mut Random) -> (Op, Value, Value) {
    let any = random.pick(&OPS[8..25]);
    let on_reals = random.pick(&[&OPS[14..16], &OPS[17..25]].concat());
    let real = Value::Real64(random.pick(&REALS));
    match random.below(6) {
        0 => {
            let left = of_type(random.pick(&ENDS));
            let count = random.pick(&[-1, 0, 1, 31, 32, 63, 64, 1 << 32]);
            (random.pick(&SHIFTS), left, whole(random, count))
        }
        1 => {
            let divisor = random.pick(&[-1, -1, 0, 1, 2, i64::MIN]);
            let left = of_type(random.pick(&ENDS));
            (random.pick(&DIVISIONS), left, whole(random, divisor))
        }
        2 => (on_reals, real, Value::Real64(random.pick(&REALS))),
        3 => {
            let size = (1 << 53) + random.pick(&[-1, 0, 1]);
            let other = random.pick(&[size, -size, size, -size, 0, i64::MIN]);
            turned(random, on_reals, real, Value::Int64(other))
        }
        4 => (
            any,
            of_type(random.pick(&ENDS)),
            of_type(random.pick(&ENDS)),
        ),
        _ => at_end(random),
    }
}

/// The sides in either order.
fn turned(random: &mut Random, op: Op, left: Value, right: Value) -> (Op, Value, Value) {
    match random.below(2) {
        0 => (op, left, right),
        _ => (op, right, left),
    }
}

/// The integer, int32 if it fits.
fn of_type(value: i64) -> Value {
    i32::try_from(value).map_or(Value::Int64(value), Value::Int32)
}

/// The integer of either type, as it fits.
pub fn whole(random: &mut Random, value: i64) -> Value {
    match random.below(2) {
        0 => of_type(value),
        _ => Value::Int64(value),
    }
}

/// A sum, difference or product of two int32 or two int64 at an end of its type, or one over.
fn at_end(random: &mut Random) -> (Op, Value, Value) {
    let long = random.once_in(2);
    let (least, most) = match long {
        true => (i64::MIN, i64::MAX),
        false => (i32::MIN.into(), i32::MAX.into()),
    };
    let few = random.pick(&[1, 2, 3, 16]);
    let (op, left, right) = random.pick(&[
        (Op::Plus, most - few, few),
        (Op::Plus, most - few, few + 1),
        (Op::Plus, least + few, -few),
        (Op::Plus, least + few, -few - 1),
        (Op::Minus, least + few, few),
        (Op::Minus, least + few, few + 1),
        (Op::Minus, most - few, -few),
        (Op::Minus, most - few, -few - 1),
        (Op::Times, least / 2, 2),
        (Op::Times, least / 2, -2),
        (Op::Times, most, 1),
        (Op::Times, most, -1),
        (Op::Times, least, -1),
    ]);
    match long {
        true => (op, Value::Int64(left), Value::Int64(right)),
        false => (op, of_type(left), of_type(right)),
    }
}

/// An op on strings, or a name near its limit.
pub fn on_strings(random: &mut Random, edition: Edition) -> Vec<u8> {
    if random.once_in(20) {
        return long_name(random, edition);
    }
    let first = string(random);
    let mut draft = Draft::default();
    push_string(&mut draft, &first);
    match random.below(6) {
        0 | 1 => sized(random, &mut draft, &first),
        2 => compared(random, &mut draft, &first),
        _ => matched(random, &mut draft, &first),
    }
    laid_out(edition, &draft)
}

/// A test of a name of 63 to 65 bytes; 65 are refused.
fn long_name(random: &mut Random, edition: Edition) -> Vec<u8> {
    let length = random.between(63, 65);
    let test = random.pick(&OPS[31..38]);
    let draft = Draft {
        entries: vec![(Op::Name.code(), length as u16, 0), (test.code(), 0, 0)],
        pool: vec![b'n'; length],
    };
    laid_out(edition, &draft)
}

/// A string of any length that a pool holds beside others.
fn string(random: &mut Random) -> Vec<u8> {
    match random.below(8) {
        0 => words::long(random),
        1 => vec![b'Q'; random.pick(&[1023, 1024, 1025, 4095, 4096])],
        2 => b"@AZ[`az{".to_vec(),
        _ => words::text(random),
    }
}

pub fn push_string(draft: &mut Draft, text: &[u8]) {
    let (a, b) = (text.len() as u16, draft.pool.len() as u64);
    draft.entries.push((Op::Text.code(), a, b));
    draft.pool.extend(text);
}

/// Folds the string now and then, and compares its size with one that is near, or with its bytes if it has none.
fn sized(random: &mut Random, draft: &mut Draft, first: &[u8]) {
    let size = characters(first).unwrap_or(first.len());
    if random.once_in(3) {
        draft.entries.push((Op::FoldCase.code(), 0, 0));
    }
    let beside = size as i32 + random.pick(&[0, 0, 1, -1]);
    draft.entries.push((Op::Size.code(), 0, 0));
    draft.entries.push(pushed(&Value::Int32(beside)));
    draft.entries.push((random.pick(&OPS[19..25]).code(), 0, 0));
}

/// Compares the string, folded or not, with one that is near.
fn compared(random: &mut Random, draft: &mut Draft, first: &[u8]) {
    let mut other = first.to_vec();
    match other.last_mut() {
        Some(last) if random.once_in(3) => *last ^= 1,
        _ => (),
    }
    if random.once_in(2) {
        draft.entries.push((Op::FoldCase.code(), 0, 0));
        other.make_ascii_lowercase();
    }
    push_string(draft, &other);
    draft.entries.push((random.pick(&OPS[19..25]).code(), 0, 0));
}

/// Ops 56..59 with up to 9 later operands, most often with one that fits last; 9 are refused.
fn matched(random: &mut Random, draft: &mut Draft, first: &[u8]) {
    let op = random.pick(&OPS[38..42]);
    let later = random.pick(&[1, 2, 7, 8, 8, 9]);
    for at in 1..=later {
        match random.below(16) {
            0 => draft.entries.push(pushed(&number(random))),
            1 => push_string(draft, b""),
            _ if at == later => push_string(draft, &near_part(random, op, first)),
            _ => push_string(draft, b"no part"),
        }
    }
    draft.entries.push((op.code(), later, 0));
}

/// A part of the string, the whole, or one byte more.
fn near_part(random: &mut Random, op: Op, first: &[u8]) -> Vec<u8> {
    match random.below(4) {
        0 => [first, b"x"].concat(),
        1 if op != Op::Equals => words::part(random, first),
        _ => first.to_vec(),
    }
}

/// A number of any type, near the limits.
fn number(random: &mut Random) -> Value {
    match random.below(3) {
        0 => Value::Int32(words::short_whole(random)),
        1 => Value::Int64(words::whole(random)),
        _ => Value::Real64(f64::from_bits(words::real(random))),
    }
}

/// The entry that pushes a number; a string goes without its bytes.
pub fn pushed(value: &Value) -> (u16, u16, u64) {
    match value {
        Value::Int32(value) => (Op::Int32.code(), 0, i64::from(*value) as u64),
        Value::Int64(value) => (Op::Int64.code(), 0, *value as u64),
        Value::Real64(value) => (Op::Real64.code(), 0, value.to_bits()),
        Value::Text(_) | Value::Opaque(_) => (Op::Text.code(), 0, 0),
    }
}
