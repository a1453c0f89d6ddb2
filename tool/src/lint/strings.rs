//! Backslashes of string literals, and what other languages' expressions have.
use crate::hint::pattern::unescaped;

/// The ops of `wildcard` and `regex`.
const WILDCARD: u16 = 60;
const REGEX: u16 = 61;

/// The first backslash of a literal that is lost, by its place in the literal. The op takes the string.
pub fn lost(literal: &[u8], op: u16) -> Option<(usize, String)> {
    let bytes = unescaped(literal);
    let pattern = matches!(op, WILDCARD | REGEX);
    let (mut escaped, mut in_set) = (false, false);
    for (byte, place) in bytes {
        let from_backslash = literal[place] == b'\\';
        let plain = std::mem::take(&mut escaped);
        let character = char::from(byte);
        if pattern && plain {
            if let Some(class) = class(byte).filter(|_| op == REGEX) {
                return Some((
                    place,
                    format!("a backslash makes {character} plain here; {class}"),
                ));
            }
            continue;
        }
        if from_backslash && byte.is_ascii_alphanumeric() {
            return Some((place, letter(byte, op)));
        }
        if pattern && from_backslash && is_special(byte, op, in_set) {
            let why = format!("the string literal takes this backslash away, so {character} is not plain in the pattern: write \\\\{character}");
            return Some((place, why));
        }
        match byte {
            b'\\' => escaped = true,
            b'[' => in_set = true,
            b']' => in_set = false,
            _ => (),
        }
    }
    None
}

/// Whether a byte that no backslash makes plain does something in the pattern.
fn is_special(byte: u8, op: u16, in_set: bool) -> bool {
    let special: &[u8] = match (in_set, op) {
        (true, WILDCARD) => b"]-!",
        (true, _) => b"]-^",
        (false, WILDCARD) => b"*?[",
        (false, _) => b".*+?|()[^$",
    };
    special.contains(&byte)
}

/// What is said of a backslash before a letter or a digit.
fn letter(byte: u8, op: u16) -> String {
    let character = char::from(byte);
    let cure = match byte {
        b'n' | b'r' | b't' | b'x' | b'0' if op != REGEX => {
            "; a literal has no such escapes, so put the byte itself into it".into()
        }
        _ if op == REGEX => class(byte).map_or(String::new(), |class| format!("; {class}")),
        _ => String::new(),
    };
    format!("the string literal takes this backslash away: \\{character} is {character}{cure}")
}

/// What stands here for a class of other languages' expressions.
fn class(byte: u8) -> Option<&'static str> {
    match byte {
        b'd' => Some("a digit is [0-9]"),
        b'D' => Some("no digit is [^0-9]"),
        b'w' => Some("a letter, a digit or _ is [A-Za-z0-9_]"),
        b'W' => Some("none of letters, digits and _ is [^A-Za-z0-9_]"),
        b's' => Some("a blank is [ ], with other blanks as they are"),
        b'S' => Some("no blank is [^ ]"),
        b'b' | b'B' => Some("there is no mark for the edge of a word"),
        b'n' | b'r' | b't' | b'x' => Some("put the byte itself into the literal"),
        b'1'..=b'9' => Some("there are no references to groups"),
        _ => None,
    }
}

/// What an expression has that means something elsewhere and is plain here.
pub fn foreign(pattern: &[u8]) -> Option<&'static str> {
    let classed =
        pattern.windows(3).any(|w| w == b"[[:") || pattern.windows(4).any(|w| w == b"[^[:");
    if classed {
        return Some("there are no classes such as [:digit:] here; write the set itself, [0-9]");
    }
    counted(pattern)
        .then_some("braces are plain here and no count: write the part as often as it is to stand")
}

/// Whether a count in braces stands behind something.
fn counted(pattern: &[u8]) -> bool {
    let opens = (1..pattern.len()).filter(|k| pattern[*k] == b'{' && pattern[*k - 1] != b'\\');
    opens.into_iter().any(|k| {
        let inside = pattern[k + 1..]
            .split(|b| *b == b'}')
            .next()
            .unwrap_or_default();
        let closed = k + 1 + inside.len() < pattern.len();
        let count = |b: &u8| b.is_ascii_digit() || *b == b',';
        closed && inside.first().is_some_and(u8::is_ascii_digit) && inside.iter().all(count)
    })
}
