//! Which limits the tokens and the calls of a text stand at, just inside or just over.

use reference::compile::accepted;
use reference::grammar::{fault, tree, Tree};
use reference::judge::calls_right;
use reference::tokens::{tokens, Placed, Token};

const FUNCTIONS: [&str; 6] = [
    "begins-with",
    "contains",
    "ends-with",
    "equals",
    "wildcard",
    "regex",
];

/// What must occur in a run of many cases.
pub fn names() -> Vec<String> {
    let mut names: Vec<String> = ["name of 64", "name of 65", "real of 15 digits"]
        .map(String::from)
        .to_vec();
    names.extend(
        [
            "real of 16 digits",
            "exponent of 3 digits",
            "exponent of 4 digits",
        ]
        .map(String::from),
    );
    names.extend([-23, -22, 22, 23].map(|scale| format!("real of scale {scale}")));
    for width in [32, 64] {
        let half = 1i128 << (width - 1);
        names.extend([-half - 1, -half, half - 1, half].map(|n| format!("int{width} {n}")));
    }
    for function in FUNCTIONS {
        names.extend([8, 9].map(|count| format!("{function} of {count}")));
    }
    names.push("empty string".into());
    names
}

/// The limits of a text whose answer has been compared.
pub fn of_text(text: &[u8]) -> Vec<String> {
    if text.len() > reference::MOST_TEXT {
        return Vec::new();
    }
    match tokens(text) {
        Ok(tokens) => {
            let mut found = of_call(text, &tokens);
            found.extend(tokens.iter().flat_map(|token| of_token(text, token)));
            found
        }
        Err((3, place)) => of_refused(&text[place..]),
        Err(_) => Vec::new(),
    }
}

fn is_delimiter(byte: &u8) -> bool {
    b" \t\n\r(),".contains(byte)
}

/// The run of a number at the start.
fn run(rest: &[u8]) -> String {
    let length = rest.iter().position(is_delimiter).unwrap_or(rest.len());
    String::from_utf8_lossy(&rest[..length]).into_owned()
}

/// A real's digits without leading zeros, its scale (document 01's E), and its exponent's digits.
fn real_sizes(run: &str) -> Option<(usize, i64, usize)> {
    let (whole, rest) = run.trim_start_matches('-').split_once('.')?;
    let (fraction, exponent) = rest.split_once(['e', 'E']).unwrap_or((rest, ""));
    let digits = [whole, fraction].concat();
    let size: i64 = format!("0{}", exponent.trim_start_matches(['+', '-']))
        .parse()
        .ok()?;
    let exponent_value = if exponent.starts_with('-') {
        -size
    } else {
        size
    };
    Some((
        digits.trim_start_matches('0').len(),
        exponent_value - fraction.len() as i64,
        exponent.trim_start_matches(['+', '-']).len(),
    ))
}

/// An integer's value and width.
fn integer(run: &str) -> Option<(i128, u32)> {
    let body = run.trim_end_matches(['l', 'L']);
    let width = if body.len() < run.len() { 64 } else { 32 };
    let digits = body.trim_start_matches('-');
    let size = match digits.strip_prefix("0x") {
        Some(hex) => i128::from_str_radix(hex, 16),
        None if digits.len() > 1 && digits.starts_with('0') => i128::from_str_radix(digits, 8),
        None => digits.parse(),
    };
    let size = size.ok()?;
    Some((if body.starts_with('-') { -size } else { size }, width))
}

/// The limits that a token keeps just so.
fn of_token(text: &[u8], placed: &Placed) -> Vec<String> {
    match &placed.token {
        Token::Name(name, _) if name.len() == 64 => vec!["name of 64".into()],
        Token::Text(bytes) if bytes.is_empty() => vec!["empty string".into()],
        Token::Int32(n) if [i32::MIN, i32::MAX].contains(n) => vec![format!("int32 {n}")],
        Token::Int64(n) if [i64::MIN, i64::MAX].contains(n) => vec![format!("int64 {n}")],
        Token::Real64(_) => of_real(&run(&text[placed.start..])),
        _ => Vec::new(),
    }
}

fn of_real(run: &str) -> Vec<String> {
    let Some((digits, scale, exponent)) = real_sizes(run) else {
        return Vec::new();
    };
    let limits = [
        (digits == 15, "real of 15 digits".to_string()),
        (scale.abs() == 22, format!("real of scale {scale}")),
        (exponent == 3, "exponent of 3 digits".to_string()),
    ];
    let kept = limits.into_iter().filter(|(at, _)| *at);
    kept.map(|(_, name)| name).collect()
}

/// The one limit that a token refused by 3 breaks by one.
fn of_refused(rest: &[u8]) -> Vec<String> {
    let run = run(rest);
    let number = rest.starts_with(b"-") || rest[0].is_ascii_digit();
    let name = match (real_sizes(&run), integer(&run)) {
        _ if !number => (name_length(rest) == 65).then(|| "name of 65".into()),
        (Some((16, -22..=22, ..=3)), _) => Some("real of 16 digits".into()),
        (Some((..=15, scale @ (-23 | 23), ..=3)), _) => Some(format!("real of scale {scale}")),
        (Some((..=15, -22..=22, 4)), _) => Some("exponent of 4 digits".into()),
        (_, Some((n, width))) => {
            let half = 1i128 << (width - 1);
            (n == half || n == -half - 1).then(|| format!("int{width} {n}"))
        }
        _ => None,
    };
    name.into_iter().collect()
}

/// The bytes of the name at the start, without its escapes.
fn name_length(rest: &[u8]) -> usize {
    let (mut at, mut length) = (0, 0);
    while at < rest.len() && !is_delimiter(&rest[at]) {
        at += if rest[at] == b'\\' { 2 } else { 1 };
        length += 1;
    }
    length
}

/// A call with 8 literals or values that is accepted, or one with 9 that is right but for the last.
fn of_call(text: &[u8], tokens: &[Placed]) -> Vec<String> {
    if fault(tokens, text.len()).is_some() {
        return Vec::new();
    }
    let Tree::Call(name, escaped, arguments) = tree(tokens) else {
        return Vec::new();
    };
    let later = arguments.len().saturating_sub(1);
    let right = match later {
        8 => accepted(text).is_ok(),
        9 => calls_right(&Tree::Call(name.clone(), escaped, arguments[..9].to_vec())),
        _ => false,
    };
    let function = FUNCTIONS
        .iter()
        .find(|function| function.as_bytes() == name);
    let found = function.filter(|_| right);
    found
        .map(|function| format!("{function} of {later}"))
        .into_iter()
        .collect()
}

#[cfg(test)]
mod tests {
    use super::*;

    #[test]
    fn limits_of_tokens() {
        let limits = [
            ("12345678901234.5 == 1", "real of 15 digits"),
            ("123456789012345.6", "real of 16 digits"),
            ("1.0e23", "real of scale 22"),
            ("1.0e24", "real of scale 23"),
            ("-1.5e-21", "real of scale -22"),
            ("-01.5e-22", "real of scale -23"),
            ("1.0e001", "exponent of 3 digits"),
            ("1.0e0001", "exponent of 4 digits"),
            ("-0x80000000", "int32 -2147483648"),
            ("a == 020000000000", "int32 2147483648"),
            ("9223372036854775808L", "int64 9223372036854775808"),
            ("''", "empty string"),
        ];
        for (text, limit) in limits {
            assert_eq!(of_text(text.as_bytes()), [limit], "{text}");
        }
        assert_eq!(of_text(&[b'n'; 64]), ["name of 64"]);
        assert_eq!(of_text(&b"\\n".repeat(65)), ["name of 65"]);
        let none: [&str; 5] = [
            "1.0e25",
            "1234567890123456.7",
            "3000000000",
            "a == 1",
            "1.5x",
        ];
        none.iter()
            .for_each(|text| assert!(of_text(text.as_bytes()).is_empty(), "{text}"));
    }

    #[test]
    fn limits_of_calls() {
        let call = |count: usize| format!("equals(a{})", ",1".repeat(count));
        assert_eq!(of_text(call(8).as_bytes()), ["equals of 8"]);
        assert_eq!(of_text(call(9).as_bytes()), ["equals of 9"]);
        assert!(of_text(call(7).as_bytes()).is_empty());
        assert!(of_text(b"contains(a,1,'2','3','4','5','6','7','8','9')").is_empty());
    }
}
