//! "Meaning": values, truth values, and what each operator and function gives.

use crate::edition::Edition;
use crate::exact::{beside, nearest};
use crate::op::Op;
use crate::regex::Regex;
use crate::utf8::characters;
use crate::wildcard::Pattern;
use std::cmp::Ordering;

#[derive(Clone, Copy, PartialEq, Eq, Debug)]
pub enum Truth {
    False,
    Bottom,
    True,
}

use Truth::{Bottom, False, True};

#[derive(Clone, Debug)]
pub enum Value {
    Int32(i32),
    Int64(i64),
    Real64(f64),
    Text(Vec<u8>),
    Opaque(Vec<u8>),
}

/// "A slot holds a truth value or a value of some type"; no value is bottom.
#[derive(Clone, Debug)]
pub enum Slot {
    Truth(Truth),
    Value(Option<Value>),
}

fn truth(holds: bool) -> Truth {
    if holds {
        True
    } else {
        False
    }
}

/// The column `!A`.
pub fn not(a: Truth) -> Truth {
    match a {
        True => False,
        Bottom => Bottom,
        False => True,
    }
}

/// "The truth tables are the page's, as printed": A, B, `&&`, or, `^^`.
const ROWS: [(Truth, Truth, Truth, Truth, Truth); 9] = [
    (True, True, True, True, False),
    (True, Bottom, Bottom, True, Bottom),
    (True, False, False, True, True),
    (Bottom, True, Bottom, True, Bottom),
    (Bottom, Bottom, Bottom, Bottom, Bottom),
    (Bottom, False, False, Bottom, Bottom),
    (False, True, False, True, True),
    (False, Bottom, False, Bottom, Bottom),
    (False, False, False, False, False),
];

/// `&&`, `||` or `^^` by the printed row of its operands.
pub fn logic(op: Op, left: Truth, right: Truth) -> Truth {
    let row = ROWS
        .iter()
        .find(|row| (row.0, row.1) == (left, right))
        .expect("a row");
    match op {
        Op::And => row.2,
        Op::Or => row.3,
        _ => row.4,
    }
}

/// A binary operator on values; "bottom in a value makes the enclosing value or comparison bottom". Document
/// 02, request 9: the editions "differ in the three shifts alone".
pub fn binary(edition: Edition, op: Op, left: Option<Value>, right: Option<Value>) -> Slot {
    let sides = left.zip(right);
    match op {
        Op::Equal | Op::Unequal | Op::Less | Op::LessEqual | Op::Greater | Op::GreaterEqual => {
            Slot::Truth(sides.map_or(Bottom, |(left, right)| compare(op, &left, &right)))
        }
        _ => Slot::Value(sides.and_then(|(left, right)| compute(edition, op, &left, &right))),
    }
}

fn compute(edition: Edition, op: Op, left: &Value, right: &Value) -> Option<Value> {
    match op {
        Op::ShiftLeft | Op::ShiftRight | Op::ShiftZeros => shift(edition, op, left, right),
        Op::BitAnd | Op::BitXor | Op::BitOr => bits(op, left, right),
        _ => arithmetic(op, left, right),
    }
}

/// A pair of numbers as arithmetic takes them.
enum Pair {
    /// Two integers, and whether both are int32.
    Whole(i128, i128, bool),
    Real(f64, f64),
}

/// An integer's value, if it is one.
fn whole(value: &Value) -> Option<i64> {
    match value {
        Value::Int32(n) => Some(i64::from(*n)),
        Value::Int64(n) => Some(*n),
        _ => None,
    }
}

/// Document 02, request 6: "In arithmetic with a real the integer is rounded to the nearest f64, ties to
/// even."
fn real(value: &Value) -> Option<f64> {
    match value {
        Value::Real64(x) => Some(*x),
        _ => whole(value).map(|n| nearest(n.into())),
    }
}

/// Two numbers made alike; none if one side is no number.
fn pair(left: &Value, right: &Value) -> Option<Pair> {
    if let (Some(a), Some(b)) = (whole(left), whole(right)) {
        let short = matches!((left, right), (Value::Int32(_), Value::Int32(_)));
        return Some(Pair::Whole(i128::from(a), i128::from(b), short));
    }
    Some(Pair::Real(real(left)?, real(right)?))
}

fn arithmetic(op: Op, left: &Value, right: &Value) -> Option<Value> {
    match pair(left, right)? {
        Pair::Whole(a, b, short) => Some(typed(exact(op, a, b)?, short)),
        Pair::Real(a, b) => real_result(op, a, b).map(Value::Real64),
    }
}

/// "`+ - * /` on integers is exact; `/` cuts toward zero", "`%` .. has the sign of the left side". "A
/// zero divisor .. gives bottom." Both sides are int64 at most, so 128 bits hold every result.
fn exact(op: Op, a: i128, b: i128) -> Option<i128> {
    match op {
        Op::Plus => Some(a + b),
        Op::Minus => Some(a - b),
        Op::Times => Some(a * b),
        Op::Divide => a.checked_div(b),
        _ => a.checked_rem(b),
    }
}

/// "The result is int32 if both are int32 and it fits, else int64", else by document 02, request 6: "An
/// integer result of `+ - * /` outside int64 becomes the nearest f64, ties to even". A rest is never
/// outside.
fn typed(result: i128, short: bool) -> Value {
    match (i32::try_from(result), i64::try_from(result)) {
        (Ok(n), _) if short => Value::Int32(n),
        (_, Ok(n)) => Value::Int64(n),
        _ => Value::Real64(nearest(result)),
    }
}

/// "Real with real is f64's own `+ - * /`"; "A zero divisor, whole or real, gives bottom"; "`%` with a
/// real" gives bottom.
fn real_result(op: Op, a: f64, b: f64) -> Option<f64> {
    match op {
        Op::Plus => Some(a + b),
        Op::Minus => Some(a - b),
        Op::Times => Some(a * b),
        Op::Divide if b != 0.0 => Some(a / b),
        _ => None,
    }
}

/// "`& ^ | ~` and shifts: integers only. Unlike integers are widened by sign."
fn bits(op: Op, left: &Value, right: &Value) -> Option<Value> {
    let (a, b) = (whole(left)?, whole(right)?);
    let result = match op {
        Op::BitAnd => a & b,
        Op::BitXor => a ^ b,
        _ => a | b,
    };
    match (left, right) {
        (Value::Int32(_), Value::Int32(_)) => Some(Value::Int32(result as i32)),
        _ => Some(Value::Int64(result)),
    }
}

/// "A shift has its left side's width and type", the distance being the edition's. "`<<` drops bits, `>>`
/// keeps the sign, `>>>` brings in zeros."
fn shift(edition: Edition, op: Op, left: &Value, right: &Value) -> Option<Value> {
    let count = whole(right)?;
    match left {
        Value::Int32(n) => {
            let by = edition.distance(count, 32)?;
            Some(Value::Int32(match op {
                Op::ShiftLeft => n << by,
                Op::ShiftRight => n >> by,
                _ => (*n as u32 >> by) as i32,
            }))
        }
        Value::Int64(n) => {
            let by = edition.distance(count, 64)?;
            Some(Value::Int64(match op {
                Op::ShiftLeft => n << by,
                Op::ShiftRight => n >> by,
                _ => (*n as u64 >> by) as i64,
            }))
        }
        _ => None,
    }
}

fn compare(op: Op, left: &Value, right: &Value) -> Truth {
    match op {
        Op::Equal => equal(left, right),
        // "`!=` is the negation of `==`"
        Op::Unequal => not(equal(left, right)),
        _ => order(op, left, right),
    }
}

/// How two numbers lie: integers and reals each by their own comparison, in which "NaN equals nothing" and
/// "Zeros of both signs are equal"; document 02, request 6: "An integer and a real are to be compared by
/// exact value". The inner answer is none beside NaN, the outer if one side is no number.
fn ordering(left: &Value, right: &Value) -> Option<Option<Ordering>> {
    match (left, right) {
        (Value::Real64(a), Value::Real64(b)) => Some(a.partial_cmp(b)),
        (Value::Real64(a), _) => Some(beside(whole(right)?, *a).map(Ordering::reverse)),
        (_, Value::Real64(b)) => Some(beside(whole(left)?, *b)),
        _ => Some(Some(whole(left)?.cmp(&whole(right)?))),
    }
}

/// "`== !=`: string with string by bytes, number with number; otherwise bottom."
fn equal(left: &Value, right: &Value) -> Truth {
    if let (Value::Text(a), Value::Text(b)) = (left, right) {
        return truth(a == b);
    }
    ordering(left, right).map_or(Bottom, |known| truth(known == Some(Ordering::Equal)))
}

/// "Order: numbers only. NaN .. orders with nothing (false)."
fn order(op: Op, left: &Value, right: &Value) -> Truth {
    let Some(known) = ordering(left, right) else {
        return Bottom;
    };
    truth(known.is_some_and(|ordering| match op {
        Op::Less => ordering.is_lt(),
        Op::LessEqual => ordering.is_le(),
        Op::Greater => ordering.is_gt(),
        _ => ordering.is_ge(),
    }))
}

/// The ops on one value: 6..8 and "48..54 take any value, bottom as missing".
pub fn unary(op: Op, operand: Option<Value>) -> Slot {
    match op {
        Op::FoldCase => Slot::Value(operand.and_then(fold_case)),
        Op::Size => Slot::Value(operand.and_then(size)),
        Op::Complement => Slot::Value(operand.and_then(complement)),
        _ => Slot::Truth(operand.map_or(Bottom, |value| truth(test(op, &value)))),
    }
}

/// "`fold-case` turns A..Z to a..z and keeps other bytes; bottom for a non-string."
fn fold_case(value: Value) -> Option<Value> {
    match value {
        Value::Text(bytes) => Some(Value::Text(bytes.to_ascii_lowercase())),
        _ => None,
    }
}

/// "`size` is the length in bytes of a string or opaque, as int32; else bottom."; document 02, request 2:
/// "For a string, `size` is to be the number of UTF-8 characters, and bottom if the bytes are not
/// well-formed UTF-8 (RFC 3629). Opaque values keep their byte count."
fn size(value: Value) -> Option<Value> {
    let size = match value {
        Value::Text(bytes) => characters(&bytes)?,
        Value::Opaque(bytes) => bytes.len(),
        _ => return None,
    };
    i32::try_from(size).ok().map(Value::Int32)
}

fn complement(value: Value) -> Option<Value> {
    match value {
        Value::Int32(n) => Some(Value::Int32(!n)),
        Value::Int64(n) => Some(Value::Int64(!n)),
        _ => None,
    }
}

/// "Type tests: bottom if missing. `nan`: false for other present values. `require`: true or bottom.",
/// of a value that is present.
fn test(op: Op, value: &Value) -> bool {
    match op {
        Op::IsInt32 => matches!(value, Value::Int32(_)),
        Op::IsInt64 => matches!(value, Value::Int64(_)),
        Op::IsReal64 => matches!(value, Value::Real64(_)),
        Op::IsText => matches!(value, Value::Text(_)),
        Op::IsOpaque => matches!(value, Value::Opaque(_)),
        Op::IsNan => matches!(value, Value::Real64(x) if x.is_nan()),
        _ => true,
    }
}

/// Ops 56..61 on the first operand and the later ones.
pub fn many(op: Op, first: Option<Value>, later: Vec<Option<Value>>) -> Truth {
    if op == Op::Equals {
        return equals(first, later);
    }
    let Some(Value::Text(text)) = first else {
        // "bottom if the first is no string"
        return Bottom;
    };
    let literals: Option<Vec<Vec<u8>>> = later.into_iter().map(text_of).collect();
    match literals {
        // "In 56..58 a later operand that is no string gives bottom."; those of 60 and 61 are op 4
        // entries
        None => Bottom,
        // "true if any literal fits, else false"
        Some(literals) => truth(literals.iter().any(|literal| fits(op, &text, literal))),
    }
}

fn text_of(value: Option<Value>) -> Option<Vec<u8>> {
    match value {
        Some(Value::Text(bytes)) => Some(bytes),
        _ => None,
    }
}

/// "An empty literal always fits."; document 02, request 1: "the whole value must fit a pattern";
/// request 13: "True if some stretch of the value fits."
fn fits(op: Op, text: &[u8], literal: &[u8]) -> bool {
    match op {
        Op::Begins => text.starts_with(literal),
        Op::Ends => text.ends_with(literal),
        Op::Wildcard => Pattern::of(literal).is_ok_and(|pattern| pattern.fits(text)),
        Op::Regex => Regex::of(literal).is_ok_and(|regex| regex.fits(text)),
        _ => literal.is_empty() || text.windows(literal.len()).any(|part| part == literal),
    }
}

/// "`equals` is `==` with each, joined by `||`."
fn equals(first: Option<Value>, later: Vec<Option<Value>>) -> Truth {
    let one = |value: Option<Value>| match (&first, value) {
        (Some(first), Some(value)) => equal(first, &value),
        _ => Bottom,
    };
    later
        .into_iter()
        .map(one)
        .fold(False, |so_far, next| logic(Op::Or, so_far, next))
}

#[cfg(test)]
mod tests {
    use super::*;

    #[test]
    fn ends_of_the_integer_ranges() {
        let least = |op, left, right| format!("{:?}", arithmetic(op, &left, &right));
        let (short, long) = (Value::Int32(i32::MIN), Value::Int64(i64::MIN));
        let minus = || Value::Int32(-1);
        assert_eq!(
            least(Op::Divide, short.clone(), minus()),
            "Some(Int64(2147483648))"
        );
        assert_eq!(least(Op::Rest, short, minus()), "Some(Int32(0))");
        let over = "Some(Real64(9.223372036854776e18))";
        assert_eq!(least(Op::Divide, long.clone(), minus()), over);
        assert_eq!(least(Op::Times, minus(), long.clone()), over);
        assert_eq!(least(Op::Minus, Value::Int32(0), long.clone()), over);
        assert_eq!(least(Op::Rest, long, minus()), "Some(Int64(0))");
    }

    #[test]
    fn the_rest_has_the_sign_of_the_left_side() {
        let rest = |a, b| {
            format!(
                "{:?}",
                arithmetic(Op::Rest, &Value::Int32(a), &Value::Int32(b))
            )
        };
        assert_eq!(rest(-7, 2), "Some(Int32(-1))");
        assert_eq!(rest(7, -2), "Some(Int32(1))");
    }

    #[test]
    fn large_integers_beside_reals_are_compared_exactly() {
        let beside = |n: i64| equal(&Value::Int64(n), &Value::Real64(9007199254740992.0));
        assert_eq!(beside(1 << 53), True);
        assert_eq!(beside((1 << 53) - 1), False);
        assert_eq!(beside((1 << 53) + 1), False);
        let most = Value::Int64(i64::MAX);
        let over = Value::Real64(9223372036854775808.0);
        assert_eq!(equal(&most, &over), False);
        assert_eq!(compare(Op::Unequal, &over, &most), True);
        assert_eq!(order(Op::Less, &most, &over), True);
        assert_eq!(order(Op::LessEqual, &over, &most), False);
        assert_eq!(order(Op::Greater, &most, &Value::Real64(1.5)), True);
        let nan = Value::Real64(f64::NAN);
        assert_eq!(equal(&most, &nan), False);
        assert_eq!(order(Op::GreaterEqual, &nan, &most), False);
        assert_eq!(
            many(Op::Equals, Some(most), vec![Some(over), Some(nan)]),
            False
        );
    }

    #[test]
    fn size_counts_characters() {
        let text = |s: &[u8]| Value::Text(s.to_vec());
        let told = |value| format!("{:?}", unary(Op::Size, value));
        // 20 letters, two of them with accents
        let name = "Ren\u{e9} Desch\u{ea}nes-Oliva".as_bytes();
        assert_eq!(name.len(), 22);
        assert_eq!(told(Some(text(name))), "Value(Some(Int32(20)))");
        assert_eq!(told(Some(text(&name[..21]))), "Value(Some(Int32(19)))");
        assert_eq!(told(Some(text(&name[..4]))), "Value(None)");
        let opaque = |s: &[u8]| Some(Value::Opaque(s.to_vec()));
        assert_eq!(told(opaque(name)), "Value(Some(Int32(22)))");
        assert_eq!(told(opaque(&name[..4])), "Value(Some(Int32(4)))");
        assert_eq!(told(Some(text(b""))), "Value(Some(Int32(0)))");
        assert_eq!(told(Some(Value::Int32(7))), "Value(None)");
        assert_eq!(told(None), "Value(None)");
    }

    #[test]
    fn a_folded_string_has_the_size_of_the_unfolded_one() {
        for bytes in [&b"\xc3\x89A\xe2\x82\xacZ"[..], b"A\xc3", b"\xc1\x81"] {
            let text = Value::Text(bytes.to_vec());
            let told = |value| format!("{:?}", size(value));
            let folded = fold_case(text.clone()).unwrap();
            assert_eq!(told(folded), told(text));
        }
    }

    #[test]
    fn a_result_beyond_int64_is_the_nearest_real() {
        let gives = |op, a: i64, b: i64| match arithmetic(op, &Value::Int64(a), &Value::Int64(b)) {
            Some(Value::Real64(x)) => x,
            other => panic!("{other:?}"),
        };
        // 2^63 + 1024 is half way to the next, 2^63 + 2048
        assert_eq!(gives(Op::Plus, i64::MAX, 1025), 9223372036854775808.0);
        assert_eq!(gives(Op::Plus, i64::MAX, 1026), 9223372036854777856.0);
        assert_eq!(gives(Op::Minus, i64::MIN, 1024), -9223372036854775808.0);
        assert_eq!(gives(Op::Minus, i64::MIN, 3072), -9223372036854779904.0);
        // 2^126 - 2^64 + 1 and 2^126
        assert_eq!(gives(Op::Times, i64::MAX, i64::MAX), 2f64.powi(126));
        assert_eq!(gives(Op::Times, i64::MIN, i64::MIN), 2f64.powi(126));
        assert_eq!(gives(Op::Times, i64::MIN, i64::MAX), -(2f64.powi(126)));
    }

    #[test]
    fn beside_a_real_the_integer_is_rounded_first() {
        let sum = |n: i64, x: f64| arithmetic(Op::Plus, &Value::Int64(n), &Value::Real64(x));
        // 2^53 + 1 lies half way and goes down; the exact sum 2^53 + 2 is never formed
        let Some(Value::Real64(x)) = sum((1 << 53) + 1, 1.0) else {
            panic!("no real");
        };
        assert_eq!(x, 9007199254740992.0);
    }

    #[test]
    fn a_later_operand_that_is_no_string_gives_bottom() {
        let text = |s: &str| Some(Value::Text(s.as_bytes().to_vec()));
        let later = vec![text("a"), Some(Value::Int32(1))];
        assert_eq!(many(Op::Begins, text("abc"), later.clone()), Bottom);
        assert_eq!(many(Op::Equals, text("a"), later), True);
        assert_eq!(
            many(Op::Ends, text("abc"), vec![text("x"), text("bc")]),
            True
        );
        assert_eq!(many(Op::Contains, text("abc"), vec![text("")]), True);
        assert_eq!(many(Op::Contains, text("abc"), vec![text("abcd")]), False);
    }
}
