//! The numbers of the text form: integers as a subscription spells them, reals with as many digits as they need.
use crate::Value;

/// The number that a word is, or what is wrong with it.
pub(super) fn number(word: &[u8]) -> Result<Value<'static>, &'static str> {
    let word = core::str::from_utf8(word).map_err(|_| NO_NUMBER)?;
    if word.contains('.') {
        return real(word);
    }
    let (digits, wide) = match word.strip_suffix(['l', 'L']) {
        Some(digits) => (digits, true),
        None => (word, false),
    };
    let value = integer(digits).ok_or(NO_NUMBER)?;
    match wide {
        true => i64::try_from(value)
            .map(Value::Int64)
            .map_err(|_| BEYOND_INT64),
        false => i32::try_from(value)
            .map(Value::Int32)
            .map_err(|_| BEYOND_INT32),
    }
}

const NO_NUMBER: &str =
    "no number; a string takes quotes, a real a point: 42, 42L, -0x2a, 1.5, 1.0e6";
const BEYOND_INT32: &str = "outside int32, -2147483648 to 2147483647; an int64 ends in L";
const BEYOND_INT64: &str = "outside int64, -9223372036854775808 to 9223372036854775807";

/// A whole number: decimal, octal after `0`, hex after `0x`. One that no type holds is given as the greatest.
fn integer(digits: &str) -> Option<i128> {
    let (negative, digits) = match digits.strip_prefix('-') {
        Some(digits) => (true, digits),
        None => (false, digits),
    };
    let (radix, digits) = match (digits.strip_prefix("0x"), digits.strip_prefix('0')) {
        (Some(hex), _) => (16, hex),
        (None, Some(octal)) if !octal.is_empty() => (8, octal),
        _ => (10, digits),
    };
    if digits.is_empty() {
        return None;
    }
    let mut value: i128 = 0;
    for c in digits.chars() {
        let digit = c.to_digit(radix)?;
        value = value
            .saturating_mul(radix.into())
            .saturating_add(digit.into());
    }
    Some(if negative { -value } else { value })
}

/// A real: digits, a point, digits, perhaps an exponent; rounded to the nearest.
fn real(word: &str) -> Result<Value<'static>, &'static str> {
    let digits = |part: &str| !part.is_empty() && part.bytes().all(|b| b.is_ascii_digit());
    let (mantissa, exponent) = match word.split_once(['e', 'E']) {
        Some((mantissa, exponent)) => (
            mantissa,
            exponent.strip_prefix(['+', '-']).unwrap_or(exponent),
        ),
        None => (word, "0"),
    };
    let mantissa = mantissa.strip_prefix('-').unwrap_or(mantissa);
    let whole = mantissa
        .split_once('.')
        .is_some_and(|(a, b)| digits(a) && digits(b));
    match word.parse::<f64>() {
        Ok(x) if whole && digits(exponent) && x.is_finite() => Ok(Value::Real64(x)),
        Ok(x) if whole && digits(exponent) && x.is_infinite() => {
            Err("beyond the greatest real64; an infinity is `inf` or `-inf`")
        }
        _ => Err(NO_NUMBER),
    }
}

#[cfg(test)]
mod tests {
    use super::*;

    #[test]
    fn integers_as_in_a_subscription() {
        for (word, value) in [
            ("42", Value::Int32(42)),
            ("052", Value::Int32(42)),
            ("-0x2a", Value::Int32(-42)),
            ("0", Value::Int32(0)),
            ("-0", Value::Int32(0)),
            ("2147483647", Value::Int32(i32::MAX)),
            ("-2147483648", Value::Int32(i32::MIN)),
            ("0l", Value::Int64(0)),
            ("42L", Value::Int64(42)),
            ("-9223372036854775808L", Value::Int64(i64::MIN)),
        ] {
            assert_eq!(number(word.as_bytes()), Ok(value), "{word}");
        }
    }

    #[test]
    fn reals() {
        for (word, value) in [
            ("1.5", 1.5),
            ("-0.0", -0.0),
            ("6.02e23", 6.02e23),
            ("1.0E-3", 0.001),
            ("0.30000000000000004", 0.1 + 0.2),
        ] {
            match number(word.as_bytes()) {
                Ok(Value::Real64(x)) => assert_eq!(x.to_bits(), f64::to_bits(value), "{word}"),
                other => panic!("{word}: {other:?}"),
            }
        }
    }

    #[test]
    fn what_is_no_number() {
        for word in [
            "", "-", "x", "09", "0x", "1.", ".5", "1.5L", "1e5", "1.0e", "--1", "1.0e+-1", "4 2",
            "\u{e9}", "+1", "0xg", "1.0e5x", "L",
        ] {
            assert_eq!(number(word.as_bytes()), Err(NO_NUMBER), "{word}");
        }
        assert_eq!(number(b"2147483648"), Err(BEYOND_INT32));
        assert_eq!(number(b"9223372036854775808L"), Err(BEYOND_INT64));
        assert_eq!(number("9".repeat(200).as_bytes()), Err(BEYOND_INT32));
        assert_eq!(
            number(format!("-0x{}L", "F".repeat(99)).as_bytes()),
            Err(BEYOND_INT64)
        );
        assert!(number(b"1.0e999").unwrap_err().contains("infinity"));
    }
}
