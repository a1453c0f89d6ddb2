//! "Tokens": a text cut into tokens, or refusal 1 or 3 at the first bad one.

use crate::op::Op;

#[derive(Clone, Debug, PartialEq)]
pub enum Token {
    Int32(i32),
    Int64(i64),
    Real64(f64),
    Text(Vec<u8>),
    /// A name without its escapes, and whether it had any.
    Name(Vec<u8>, bool),
    Operator(Op),
    Open,
    Close,
    Comma,
}

/// A token and its start in the text.
#[derive(Clone, Debug, PartialEq)]
pub struct Placed {
    pub start: usize,
    pub token: Token,
}

/// "1: a token has no legal form"
const NO_FORM: u8 = 1;
/// "3: legal form, but number or name outside its limits"
const OVER_LIMIT: u8 = 3;

/// "Operators take the longest match", longer ones first.
const OPERATORS: [(&[u8], Op); 22] = [
    (b">>>", Op::ShiftZeros),
    (b"!=", Op::Unequal),
    (b"&&", Op::And),
    (b"^^", Op::Xor),
    (b"||", Op::Or),
    (b"==", Op::Equal),
    (b"<=", Op::LessEqual),
    (b">=", Op::GreaterEqual),
    (b"<<", Op::ShiftLeft),
    (b">>", Op::ShiftRight),
    (b"!", Op::Not),
    (b"<", Op::Less),
    (b">", Op::Greater),
    (b"*", Op::Times),
    (b"/", Op::Divide),
    (b"%", Op::Rest),
    (b"+", Op::Plus),
    (b"-", Op::Minus),
    (b"&", Op::BitAnd),
    (b"^", Op::BitXor),
    (b"|", Op::BitOr),
    (b"~", Op::Complement),
];

/// "Whitespace is space, tab, LF, CR."
fn is_space(byte: u8) -> bool {
    matches!(byte, b' ' | b'\t' | b'\n' | b'\r')
}

/// What a name or a number runs to: "whitespace, end, `(`, `)` or `,`".
fn is_delimiter(byte: u8) -> bool {
    is_space(byte) || matches!(byte, b'(' | b')' | b',')
}

/// All tokens of the text, or "1 or 3 at the first bad token" with "the token's start".
pub fn tokens(text: &[u8]) -> Result<Vec<Placed>, (u8, usize)> {
    let mut all = Vec::new();
    let mut at = 0;
    while at < text.len() {
        if is_space(text[at]) {
            at += 1;
            continue;
        }
        let (token, length) = token(&text[at..]).map_err(|number| (number, at))?;
        all.push(Placed { start: at, token });
        at += length;
    }
    Ok(all)
}

/// The token at the start of `rest`, and its length.
fn token(rest: &[u8]) -> Result<(Token, usize), u8> {
    match rest[0] {
        b'(' => Ok((Token::Open, 1)),
        b')' => Ok((Token::Close, 1)),
        b',' => Ok((Token::Comma, 1)),
        b'"' | b'\'' => string(rest),
        b'a'..=b'z' | b'A'..=b'Z' | b'_' | b'\\' => name(rest),
        b'0'..=b'9' => number(rest),
        // "A `-` before a digit always starts a literal"
        b'-' if rest.get(1).is_some_and(u8::is_ascii_digit) => number(rest),
        _ => operator(rest),
    }
}

fn operator(rest: &[u8]) -> Result<(Token, usize), u8> {
    let found = OPERATORS
        .iter()
        .find(|(spelling, _)| rest.starts_with(spelling));
    let (spelling, op) = found.ok_or(NO_FORM)?;
    Ok((Token::Operator(*op), spelling.len()))
}

/// "Strings stand in single or double quotes; a backslash takes the next byte as it is; all byte
/// values may occur."
fn string(rest: &[u8]) -> Result<(Token, usize), u8> {
    let mut bytes = Vec::new();
    let mut at = 1;
    loop {
        match (rest.get(at), rest.get(at + 1)) {
            (None, _) | (Some(b'\\'), None) => return Err(NO_FORM),
            (Some(b'\\'), Some(next)) => {
                bytes.push(*next);
                at += 2;
            }
            (Some(byte), _) if *byte == rest[0] => return Ok((Token::Text(bytes), at + 1)),
            (Some(byte), _) => {
                bytes.push(*byte);
                at += 1;
            }
        }
    }
}

/// "A backslash takes the next byte, which must be 32..126. Unescaped bytes must be 33..126 and none
/// of `[ ] ' "`. After removing escapes 1..64 bytes."
fn name(rest: &[u8]) -> Result<(Token, usize), u8> {
    let mut bytes = Vec::new();
    let mut escaped = false;
    let mut at = 0;
    while at < rest.len() && !is_delimiter(rest[at]) {
        if rest[at] == b'\\' {
            escaped = true;
            at += 1;
            let next = rest.get(at).filter(|next| (32..=126).contains(*next));
            bytes.push(*next.ok_or(NO_FORM)?);
        } else if (33..=126).contains(&rest[at]) && !b"[]'\"".contains(&rest[at]) {
            bytes.push(rest[at]);
        } else {
            return Err(NO_FORM);
        }
        at += 1;
    }
    match bytes.len() {
        1..=64 => Ok((Token::Name(bytes, escaped), at)),
        _ => Err(OVER_LIMIT),
    }
}

/// "A number must be followed by whitespace, end, `(`, `)` or `,`.": the whole run has the form.
fn number(rest: &[u8]) -> Result<(Token, usize), u8> {
    let length = rest
        .iter()
        .position(|byte| is_delimiter(*byte))
        .unwrap_or(rest.len());
    let run = &rest[..length];
    let (negative, run) = match run {
        [b'-', digits @ ..] => (true, digits),
        _ => (false, run),
    };
    let token = if let Some(form) = integer_form(run) {
        integer(negative, form)
    } else if let Some(form) = real_form(run) {
        real(negative, form)
    } else {
        return Err(NO_FORM);
    };
    Ok((token.ok_or(OVER_LIMIT)?, length))
}

/// An integer's digits, their base, and whether `l` or `L` follows.
struct IntegerForm<'a> {
    digits: &'a [u8],
    base: u32,
    long: bool,
}

/// "decimal (`0` or no leading zero), octal (`0` and digits 0..7) or `0x` and hex digits; then
/// optional `l` or `L` for int64"
fn integer_form(run: &[u8]) -> Option<IntegerForm<'_>> {
    let (body, long) = match run {
        [body @ .., b'l' | b'L'] => (body, true),
        _ => (run, false),
    };
    let (digits, base) = match body {
        [b'0'] => (body, 10),
        [b'0', b'x', digits @ ..] => (digits, 16),
        [b'0', digits @ ..] => (digits, 8),
        _ => (body, 10),
    };
    let right = |byte: &u8| char::from(*byte).is_digit(base);
    (!digits.is_empty() && digits.iter().all(right)).then_some(IntegerForm { digits, base, long })
}

/// "The signed value must fit its type."
fn integer(negative: bool, form: IntegerForm) -> Option<Token> {
    let digit = |byte: &u8| char::from(*byte).to_digit(form.base).map(i128::from);
    let add = |sum: i128, byte: &u8| sum.checked_mul(form.base.into())?.checked_add(digit(byte)?);
    let size = form.digits.iter().try_fold(0, add)?;
    let value = if negative { -size } else { size };
    if form.long {
        i64::try_from(value).ok().map(Token::Int64)
    } else {
        i32::try_from(value).ok().map(Token::Int32)
    }
}

/// The digits before and after a real's point, and its exponent with its sign.
struct RealForm<'a> {
    whole: &'a [u8],
    fraction: &'a [u8],
    exponent: Option<(bool, &'a [u8])>,
}

fn all_digits(bytes: &[u8]) -> bool {
    !bytes.is_empty() && bytes.iter().all(u8::is_ascii_digit)
}

/// "digits, `.`, digits, optional `e` or `E` with optional sign and digits"
fn real_form(run: &[u8]) -> Option<RealForm<'_>> {
    let point = run.iter().position(|byte| *byte == b'.')?;
    let (whole, rest) = (&run[..point], &run[point + 1..]);
    let (fraction, exponent) = match rest.iter().position(|byte| matches!(byte, b'e' | b'E')) {
        None => (rest, None),
        Some(at) => (&rest[..at], Some(signed(&rest[at + 1..]))),
    };
    let exponent_right = exponent.is_none_or(|(_, digits)| all_digits(digits));
    let right = all_digits(whole) && all_digits(fraction) && exponent_right;
    right.then_some(RealForm {
        whole,
        fraction,
        exponent,
    })
}

/// An "optional sign", true for `-`, and what follows it.
fn signed(bytes: &[u8]) -> (bool, &[u8]) {
    match bytes {
        [b'-', rest @ ..] => (true, rest),
        [b'+', rest @ ..] => (false, rest),
        _ => (false, bytes),
    }
}

/// "an exponent has at most three digits"
fn exponent(form: &RealForm) -> Option<i64> {
    let (negative, digits) = form.exponent.unwrap_or((false, b"0"));
    if digits.len() > 3 {
        return None;
    }
    let size = digits
        .iter()
        .fold(0, |sum, byte| sum * 10 + i64::from(byte - b'0'));
    Some(if negative { -size } else { size })
}

/// "Without leading zeros the digits, point dropped, number at most 15 and form a whole number D. E,
/// the exponent less the count of fraction digits, must be -22..22"
fn real(negative: bool, form: RealForm) -> Option<Token> {
    let digits = [form.whole, form.fraction].concat();
    let digits: Vec<u8> = digits
        .into_iter()
        .skip_while(|byte| *byte == b'0')
        .collect();
    let scale = exponent(&form)? - form.fraction.len() as i64;
    if digits.len() > 15 || !(-22..=22).contains(&scale) {
        return None;
    }
    let whole = digits
        .iter()
        .fold(0u64, |sum, byte| sum * 10 + u64::from(byte - b'0'));
    let value = scaled(whole as f64, scale);
    Some(Token::Real64(if negative { -value } else { value }))
}

/// 10^0 to 10^22, each exact in f64.
const POWERS: [f64; 23] = [
    1e0, 1e1, 1e2, 1e3, 1e4, 1e5, 1e6, 1e7, 1e8, 1e9, 1e10, 1e11, 1e12, 1e13, 1e14, 1e15, 1e16,
    1e17, 1e18, 1e19, 1e20, 1e21, 1e22,
];

/// "The value is D times 10^E or D divided by 10^-E in f64, both operands exact, rounded once"
fn scaled(whole: f64, scale: i64) -> f64 {
    let power = POWERS[scale.unsigned_abs() as usize];
    if scale >= 0 {
        whole * power
    } else {
        whole / power
    }
}

#[cfg(test)]
mod tests {
    use super::*;

    fn one(text: &str) -> Result<Token, (u8, usize)> {
        let mut all = tokens(text.as_bytes())?;
        assert_eq!(all.len(), 1, "{text}");
        Ok(all.remove(0).token)
    }

    #[test]
    fn reals_have_limits() {
        assert_eq!(one("1.0e23"), Ok(Token::Real64(1e23)));
        assert_eq!(one("1.0e24"), Err((3, 0)));
        assert_eq!(one("123456789012345.6"), Err((3, 0)));
        assert_eq!(one("0.0e24"), Err((3, 0)));
        assert_eq!(one("1.0e0001"), Err((3, 0)));
        assert_eq!(one("-3.14"), Ok(Token::Real64(-3.14)));
        assert_eq!(one("6.67e-11"), Ok(Token::Real64(6.67e-11)));
    }

    #[test]
    fn numbers_have_forms() {
        for text in [
            "09",
            "0x",
            "0X1",
            "1.",
            "1e5",
            "1.0e",
            "1.0L",
            "99999999999x",
            "=",
        ] {
            assert_eq!(one(text), Err((1, 0)), "{text}");
        }
        assert_eq!(one("052"), Ok(Token::Int32(42)));
        assert_eq!(one("-0x2a"), Ok(Token::Int32(-42)));
        assert_eq!(one("0l"), Ok(Token::Int64(0)));
        assert_eq!(one("0x80000000"), Err((3, 0)));
        assert_eq!(one("-2147483648"), Ok(Token::Int32(i32::MIN)));
        assert_eq!(one("08.5"), Ok(Token::Real64(8.5)));
    }

    #[test]
    fn a_minus_before_a_digit_starts_a_literal() {
        let kinds = |text: &str| tokens(text.as_bytes()).map(|all| all.len());
        assert_eq!(kinds("a - 5"), Ok(3));
        assert_eq!(kinds("a -5"), Ok(2));
        assert_eq!(kinds("--5"), Ok(2));
        assert_eq!(kinds("a==b"), Ok(1));
        assert_eq!(kinds("\"a\"==\"b\""), Ok(3));
    }

    #[test]
    fn names_lose_their_escapes() {
        assert_eq!(
            one("the\\ pipe"),
            Ok(Token::Name(b"the pipe".to_vec(), true))
        );
        assert_eq!(one("pipe="), Ok(Token::Name(b"pipe=".to_vec(), false)));
        assert_eq!(one("a\\"), Err((1, 0)));
        assert_eq!(one(&"a".repeat(65)), Err((3, 0)));
        assert_eq!(one(&("a".repeat(69) + "[")), Err((1, 0)));
    }
}
