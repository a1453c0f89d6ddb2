//! Corners of integers beside reals and of integer results beyond int64 (document 02, request 6).

use crate::corners::{Corner, Visit};
use crate::operands::{is_int32, is_int64, real, whole};
use reference::exact::{beside, nearest};
use reference::op::Op;
use std::cmp::Ordering::{self, Equal, Greater, Less};

/// Those that compare numbers.
const MIXED: &[Op] = &[
    Op::Equal,
    Op::Unequal,
    Op::Less,
    Op::LessEqual,
    Op::Greater,
    Op::GreaterEqual,
    Op::Equals,
];
/// Those that round an integer beside a real.
const ROUNDED: &[Op] = &[Op::Times, Op::Divide, Op::Plus, Op::Minus];
/// Those whose result may lie beyond int64; one quotient does, and is a corner by itself.
const BEYOND: &[Op] = &[Op::Times, Op::Plus, Op::Minus];
const TIMES: &[Op] = &[Op::Times];
const PLUS: &[Op] = &[Op::Plus];
const MINUS: &[Op] = &[Op::Minus];

const EXACT: u64 = 1 << 53;
/// 2^63.
const END: f64 = 9223372036854775808.0;

/// Whether the first operand and a later one are an integer and a real, in either order, of which this
/// holds.
fn of(v: &Visit, holds: fn(i64, f64) -> bool) -> bool {
    let first = &v.operands[0];
    v.operands[1..].iter().any(|other| {
        match (whole(first), real(other), real(first), whole(other)) {
            (Some(n), Some(x), _, _) | (_, _, Some(x), Some(n)) => holds(n, x),
            _ => false,
        }
    })
}

fn is_large(n: i64) -> bool {
    n.unsigned_abs() > EXACT
}

/// A large integer whose nearest real is this one, and that lies so to it.
fn rounds(n: i64, x: f64, lies: Ordering) -> bool {
    is_large(n) && nearest(n.into()) == x && beside(n, x) == Some(lies)
}

fn is_tiny(x: f64) -> bool {
    x.is_subnormal()
}

/// An integer's first 53 digits; those after them; half of what these count up to, 0 if there are none.
fn cut(n: i128) -> (u128, u128, u128) {
    let size = n.unsigned_abs();
    let count = (128 - size.leading_zeros()).saturating_sub(53);
    let unit = 1u128 << count;
    (size >> count, size & (unit - 1), unit >> 1)
}

/// How an integer is rounded, by its size.
#[derive(Clone, Copy, PartialEq)]
enum Way {
    Exact,
    Down,
    Up,
    TieDown,
    TieUp,
}

fn way(n: i128) -> Way {
    let (kept, rest, half) = cut(n);
    match rest.cmp(&half) {
        _ if rest == 0 => Way::Exact,
        Less => Way::Down,
        Greater => Way::Up,
        Equal if kept % 2 == 0 => Way::TieDown,
        Equal => Way::TieUp,
    }
}

/// One to three over half way between two reals, by its size, or under it.
fn near_half(n: i128, over: bool) -> bool {
    let (_, rest, half) = cut(n);
    half > 3
        && match over {
            true => (half + 1..=half + 3).contains(&rest),
            false => (half - 3..half).contains(&rest),
        }
}

/// The exact result of the op on two integers, if it lies beyond int64.
fn result(v: &Visit) -> Option<i128> {
    let (a, b) = (whole(&v.operands[0])?, whole(&v.operands[1])?);
    let (a, b) = (i128::from(a), i128::from(b));
    let result = match v.op {
        Op::Plus => a + b,
        Op::Minus => a - b,
        _ => a * b,
    };
    Some(result).filter(|result| i64::try_from(*result).is_err())
}

fn beyond(v: &Visit, holds: fn(i128) -> bool) -> bool {
    result(v).is_some_and(holds)
}

/// The two integers in this order.
fn are(v: &Visit, left: i64, right: i64) -> bool {
    (whole(&v.operands[0]), whole(&v.operands[1])) == (Some(left), Some(right))
}

/// An integer beside a real that is a number but 0.
fn rounded(v: &Visit, how: Way) -> bool {
    let first = &v.operands[0];
    let second = &v.operands[1];
    let (Some(n), Some(x)) = (whole(first).or(whole(second)), real(first).or(real(second))) else {
        return false;
    };
    x.is_finite() && x != 0.0 && way(n.into()) == how
}

pub const METERS: [Corner; 72] = [
    ("over 2^53 and its own value", MIXED, |v| {
        of(v, |n, x| rounds(n, x, Equal))
    }),
    ("+ rounded to a greater real", MIXED, |v| {
        of(v, |n, x| n > 0 && rounds(n, x, Less))
    }),
    ("+ rounded to a lesser real", MIXED, |v| {
        of(v, |n, x| n > 0 && rounds(n, x, Greater))
    }),
    ("- rounded to a greater real", MIXED, |v| {
        of(v, |n, x| n < 0 && rounds(n, x, Less))
    }),
    ("- rounded to a lesser real", MIXED, |v| {
        of(v, |n, x| n < 0 && rounds(n, x, Greater))
    }),
    ("half way and the even real", MIXED, |v| {
        of(v, |n, x| is_half_way(n) && x == nearest(n.into()))
    }),
    ("half way and the odd real", MIXED, |v| {
        of(v, |n, x| is_half_way(n) && is_other_neighbour(n, x))
    }),
    ("2^53 - 1 and 2^53", MIXED, |v| {
        of(v, |n, x| (n, x) == ((1 << 53) - 1, 9007199254740992.0))
    }),
    ("2^53 and 2^53", MIXED, |v| {
        of(v, |n, x| (n, x) == (1 << 53, 9007199254740992.0))
    }),
    ("2^53 + 1 and 2^53", MIXED, |v| {
        of(v, |n, x| (n, x) == ((1 << 53) + 1, 9007199254740992.0))
    }),
    ("-2^53 + 1 and -2^53", MIXED, |v| {
        of(v, |n, x| (n, x) == (1 - (1 << 53), -9007199254740992.0))
    }),
    ("-2^53 and -2^53", MIXED, |v| {
        of(v, |n, x| (n, x) == (-(1 << 53), -9007199254740992.0))
    }),
    ("-2^53 - 1 and -2^53", MIXED, |v| {
        of(v, |n, x| (n, x) == (-(1 << 53) - 1, -9007199254740992.0))
    }),
    ("most int64 and 2^63", MIXED, |v| {
        of(v, |n, x| (n, x) == (i64::MAX, END))
    }),
    ("most int64 and the real below 2^63", MIXED, |v| {
        of(v, |n, x| (n, x) == (i64::MAX, END.next_down()))
    }),
    ("most int64 and the real above 2^63", MIXED, |v| {
        of(v, |n, x| (n, x) == (i64::MAX, END.next_up()))
    }),
    ("least int64 and -2^63", MIXED, |v| {
        of(v, |n, x| (n, x) == (i64::MIN, -END))
    }),
    ("least int64 + 1 and -2^63", MIXED, |v| {
        of(v, |n, x| (n, x) == (i64::MIN + 1, -END))
    }),
    ("least int64 and the real above -2^63", MIXED, |v| {
        of(v, |n, x| (n, x) == (i64::MIN, (-END).next_up()))
    }),
    ("least int64 and the real below -2^63", MIXED, |v| {
        of(v, |n, x| (n, x) == (i64::MIN, (-END).next_down()))
    }),
    ("over 2^53 and +infinity", MIXED, |v| {
        of(v, |n, x| is_large(n) && x == f64::INFINITY)
    }),
    ("over 2^53 and -infinity", MIXED, |v| {
        of(v, |n, x| is_large(n) && x == f64::NEG_INFINITY)
    }),
    ("over 2^53 and NaN", MIXED, |v| {
        of(v, |n, x| is_large(n) && x.is_nan())
    }),
    ("over 2^53 and the greatest real", MIXED, |v| {
        of(v, |n, x| is_large(n) && x == f64::MAX)
    }),
    ("over 2^53 and the least real", MIXED, |v| {
        of(v, |n, x| is_large(n) && x == f64::MIN)
    }),
    ("over 2^53 and 1.5", MIXED, |v| {
        of(v, |n, x| is_large(n) && x == 1.5)
    }),
    ("from 0 on and half above", MIXED, |v| {
        of(v, |n, x| n >= 0 && x == n as f64 + 0.5)
    }),
    ("over 0 and half below", MIXED, |v| {
        of(v, |n, x| n > 0 && !is_large(n) && x == n as f64 - 0.5)
    }),
    ("below 0 and half above", MIXED, |v| {
        of(v, |n, x| n < 0 && !is_large(n) && x == n as f64 + 0.5)
    }),
    ("up to 0 and half below", MIXED, |v| {
        of(v, |n, x| n <= 0 && !is_large(n) && x == n as f64 - 0.5)
    }),
    ("2^51 and half above", MIXED, |v| {
        of(v, |n, x| n == 1 << 51 && x == 2251799813685248.5)
    }),
    ("-2^51 and half below", MIXED, |v| {
        of(v, |n, x| n == -(1 << 51) && x == -2251799813685248.5)
    }),
    ("0 and subnormal", MIXED, |v| {
        of(v, |n, x| n == 0 && is_tiny(x) && x > 0.0)
    }),
    ("0 and subnormal below 0", MIXED, |v| {
        of(v, |n, x| n == 0 && is_tiny(x) && x < 0.0)
    }),
    ("0 and the least subnormal", MIXED, |v| {
        of(v, |n, x| n == 0 && x.to_bits() == 1)
    }),
    ("1 and subnormal", MIXED, |v| {
        of(v, |n, x| n == 1 && is_tiny(x))
    }),
    ("-1 and subnormal", MIXED, |v| {
        of(v, |n, x| n == -1 && is_tiny(x))
    }),
    ("int32 and 2^63", MIXED, |v| {
        v.is(is_int32) && of(v, |_, x| x == END)
    }),
    ("rounded down beside a real", ROUNDED, |v| {
        rounded(v, Way::Down)
    }),
    ("rounded up beside a real", ROUNDED, |v| rounded(v, Way::Up)),
    ("tie down beside a real", ROUNDED, |v| {
        rounded(v, Way::TieDown)
    }),
    ("tie up beside a real", ROUNDED, |v| rounded(v, Way::TieUp)),
    ("over 2^53 and infinite", ROUNDED, |v| {
        of(v, |n, x| is_large(n) && x.is_infinite())
    }),
    ("over 2^53 and NaN", ROUNDED, |v| {
        of(v, |n, x| is_large(n) && x.is_nan())
    }),
    ("most int64 and a real", ROUNDED, |v| {
        of(v, |n, x| n == i64::MAX && x.is_finite())
    }),
    ("over 2^53 by a zero", &[Op::Divide], |v| {
        whole(&v.operands[0]).is_some_and(is_large) && real(&v.operands[1]) == Some(0.0)
    }),
    ("over 2^53 and a real", &[Op::Rest], |v| {
        of(v, |n, _| is_large(n))
    }),
    ("+ beyond, exact", BEYOND, |v| {
        beyond(v, |n| n > 0 && way(n) == Way::Exact)
    }),
    ("- beyond, exact", BEYOND, |v| {
        beyond(v, |n| n < 0 && way(n) == Way::Exact)
    }),
    ("+ beyond, down", BEYOND, |v| {
        beyond(v, |n| n > 0 && way(n) == Way::Down)
    }),
    ("- beyond, down", BEYOND, |v| {
        beyond(v, |n| n < 0 && way(n) == Way::Down)
    }),
    ("+ beyond, up", BEYOND, |v| {
        beyond(v, |n| n > 0 && way(n) == Way::Up)
    }),
    ("- beyond, up", BEYOND, |v| {
        beyond(v, |n| n < 0 && way(n) == Way::Up)
    }),
    ("+ beyond, tie down", BEYOND, |v| {
        beyond(v, |n| n > 0 && way(n) == Way::TieDown)
    }),
    ("- beyond, tie down", BEYOND, |v| {
        beyond(v, |n| n < 0 && way(n) == Way::TieDown)
    }),
    ("+ beyond, tie up", BEYOND, |v| {
        beyond(v, |n| n > 0 && way(n) == Way::TieUp)
    }),
    ("- beyond, tie up", BEYOND, |v| {
        beyond(v, |n| n < 0 && way(n) == Way::TieUp)
    }),
    ("beyond, just over a tie", BEYOND, |v| {
        beyond(v, |n| near_half(n, true))
    }),
    ("beyond, just under a tie", BEYOND, |v| {
        beyond(v, |n| near_half(n, false))
    }),
    ("int64 and int32, beyond", BEYOND, |v| {
        v.either(is_int32, is_int64) && beyond(v, |_| true)
    }),
    ("100 digits, just over a tie", TIMES, |v| {
        beyond(v, |n| n.unsigned_abs() >> 99 > 0 && near_half(n, true))
    }),
    ("100 digits, just under a tie", TIMES, |v| {
        beyond(v, |n| n.unsigned_abs() >> 99 > 0 && near_half(n, false))
    }),
    ("126 digits", TIMES, |v| {
        beyond(v, |n| n.unsigned_abs() >> 125 == 1)
    }),
    ("127 digits: least int64 by itself", TIMES, |v| {
        are(v, i64::MIN, i64::MIN)
    }),
    ("most int64 by itself", TIMES, |v| {
        are(v, i64::MAX, i64::MAX)
    }),
    ("least int64 by most", TIMES, |v| are(v, i64::MIN, i64::MAX)),
    ("least int64 by -1", TIMES, |v| are(v, i64::MIN, -1)),
    ("-1 by least int64", TIMES, |v| are(v, -1, i64::MIN)),
    ("most int64 twice", PLUS, |v| are(v, i64::MAX, i64::MAX)),
    ("least int64 twice", PLUS, |v| are(v, i64::MIN, i64::MIN)),
    ("least int64 less most", MINUS, |v| {
        are(v, i64::MIN, i64::MAX)
    }),
    ("0 less least int64", MINUS, |v| are(v, 0, i64::MIN)),
];

fn is_half_way(n: i64) -> bool {
    matches!(way(n.into()), Way::TieDown | Way::TieUp)
}

/// The real on the integer's other side than its nearest one.
fn is_other_neighbour(n: i64, x: f64) -> bool {
    let nearest = nearest(n.into());
    match beside(n, nearest) {
        Some(Less) => x == nearest.next_down(),
        _ => x == nearest.next_up(),
    }
}

#[cfg(test)]
mod tests {
    use super::*;

    #[test]
    fn ways_of_rounding() {
        let tie = (1i128 << 63) + 1024;
        assert!(way(1 << 100) == Way::Exact && way(7) == Way::Exact);
        assert!(way(tie) == Way::TieDown && way(-tie) == Way::TieDown);
        assert!(way(tie + 2048) == Way::TieUp);
        assert!(way(tie - 1) == Way::Down && way(-tie - 1) == Way::Up);
        assert!(near_half(tie + 1, true) && near_half(-tie - 3, true));
        assert!(near_half(tie - 1, false) && near_half(3 - tie, false));
        assert!(!near_half(tie, true) && !near_half(tie, false) && !near_half(tie + 4, true));
    }

    #[test]
    fn neighbours_of_an_integer_half_way() {
        let n = (1 << 53) + 1;
        assert!(is_half_way(n) && is_half_way(-n) && !is_half_way(n + 1));
        assert!(is_other_neighbour(n, 9007199254740994.0));
        assert!(is_other_neighbour(-n, -9007199254740994.0));
        assert!(!is_other_neighbour(n, 9007199254740992.0));
    }
}
