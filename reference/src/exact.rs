//! Integers beside reals, document 02, request 6: by exact value in comparisons, and the nearest f64 of an
//! integer in arithmetic.

use std::cmp::Ordering;

/// "An integer and a real are to be compared by exact value, an infinity lying beyond every integer on
/// its side; NaN stays unequal and unordered": how the integer lies to the real; none beside NaN.
pub fn beside(n: i64, x: f64) -> Option<Ordering> {
    if !x.is_finite() {
        // each infinity lies to every integer as to 0
        return 0.0.partial_cmp(&x);
    }
    let (digits, power) = dyadic(x);
    // A power beyond 64 either way tells no more than 64 does: the digits are below 2^53 in size, and
    // with a power over 0 at least 2^52.
    let scaled = |value: i128, power: i32| value << power.clamp(0, 64);
    Some(scaled(n.into(), -power).cmp(&scaled(digits, power)))
}

/// A finite real as whole digits, with its sign, times a power of two, by f64's layout: a sign, 11 bits of
/// exponent, 52 of fraction.
fn dyadic(x: f64) -> (i128, i32) {
    let bits = x.to_bits();
    let fraction = i128::from(bits & ((1 << 52) - 1));
    let exponent = (bits >> 52 & 0x7ff) as i32;
    let (size, power) = match exponent {
        0 => (fraction, -1074),
        _ => (fraction + (1 << 52), exponent - 1075),
    };
    (if bits >> 63 == 0 { size } else { -size }, power)
}

/// "the nearest f64, ties to even", which is how Rust converts an integer.
pub fn nearest(n: i128) -> f64 {
    n as f64
}

#[cfg(test)]
mod tests {
    use super::*;
    use Ordering::{Equal, Greater, Less};

    #[test]
    fn an_integer_lies_by_its_exact_value() {
        let most = 9223372036854775808.0;
        let cases = [
            (0, 0.0, Equal),
            (0, -0.0, Equal),
            (1, 1.0, Equal),
            (1, 1.0 - f64::EPSILON / 2.0, Greater),
            (1, 1.0 + f64::EPSILON, Less),
            (-1, -1.5, Greater),
            (-2, -1.5, Less),
            (0, f64::from_bits(1), Less),
            (0, -f64::from_bits(1), Greater),
            (-1, -f64::from_bits(1), Less),
            (1, f64::MIN_POSITIVE, Greater),
            ((1 << 53) + 1, 9007199254740992.0, Greater),
            ((1 << 53) + 1, 9007199254740994.0, Less),
            (-(1 << 53) - 1, -9007199254740992.0, Less),
            (i64::MAX, most, Less),
            (i64::MAX, 9223372036854774784.0, Greater),
            (i64::MIN, -most, Equal),
            (i64::MIN + 1, -most, Greater),
            (i64::MIN, -9223372036854777856.0, Greater),
            (i64::MAX, f64::MAX, Less),
            (i64::MIN, f64::MIN, Greater),
            (i64::MAX, f64::INFINITY, Less),
            (i64::MIN, f64::NEG_INFINITY, Greater),
        ];
        for (n, x, lies) in cases {
            assert_eq!(beside(n, x), Some(lies), "{n} {x:e}");
        }
        assert_eq!(beside(0, f64::NAN), None);
        assert_eq!(beside(i64::MIN, -f64::NAN), None);
    }

    /// The whole value of a real of at least 2^53 in size or without a fraction.
    fn whole(x: f64) -> i128 {
        let (digits, power) = dyadic(x);
        match power {
            0.. => digits << power,
            _ => {
                let value = digits >> -power;
                assert_eq!(value << -power, digits, "{x:e}");
                value
            }
        }
    }

    /// No neighbour is nearer, and one that is as near ends in a one bit.
    fn check_nearest(n: i128) {
        let x = nearest(n);
        let off = |x: f64| (whole(x) - n).unsigned_abs();
        if n.unsigned_abs() < 1 << 53 {
            return assert_eq!(off(x), 0, "{n}");
        }
        for other in [x.to_bits() - 1, x.to_bits() + 1].map(f64::from_bits) {
            let as_near = off(x) == off(other);
            assert!(
                off(x) < off(other) || as_near && x.to_bits() % 2 == 0,
                "{n}"
            );
        }
    }

    #[test]
    fn the_nearest_is_nearest_and_a_tie_is_even() {
        let mut ties = 0;
        for width in 52..126 {
            for odd in [0, 1, 2, 3, 5, (1 << 20) + 1] {
                let unit = 1i128 << (width as u32).saturating_sub(53);
                let n = (1i128 << width) + odd * unit / 2;
                for near in [n - 1, n, n + 1] {
                    check_nearest(near);
                    check_nearest(-near);
                }
                ties += i32::from(nearest(n) as i128 != n);
            }
        }
        assert!(ties > 100);
        for n in [
            i64::MIN.into(),
            i64::MAX.into(),
            i128::MIN >> 1,
            i128::MAX >> 1,
        ] {
            check_nearest(n);
        }
        assert_eq!(nearest((1 << 53) + 1), 9007199254740992.0);
        assert_eq!(nearest((1 << 53) + 3), 9007199254740996.0);
        assert_eq!(nearest((1 << 53) + 5), 9007199254740996.0);
    }
}
