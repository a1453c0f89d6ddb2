//! Where a refused subscription is wrong, and what may be meant.
//!
//! The library names a place for 1, 2 and 3. For 4 to 8 and 18 the text's tokens are legal, and for all but 6 its
//! grammar is kept, so that the place is found here by a walk over them.
pub mod cures;
mod kinds;
pub mod pattern;
mod tokens;

use crate::caret::Excerpt;
use crate::spell;
pub use kinds::{parts, GLUED};
pub use tokens::is_operator;
use tokens::{tokens, Token, What};
use virentolex::Refusal;

/// What is wrong at a place of the text.
#[derive(Debug, Clone, PartialEq, Eq)]
pub struct Hint {
    pub place: usize,
    pub why: String,
}

impl Hint {
    fn new(place: usize, why: impl Into<String>) -> Option<Hint> {
        Some(Hint {
            place,
            why: why.into(),
        })
    }

    /// The line, the caret and what is wrong there.
    pub fn told(&self, text: &[u8]) -> String {
        let excerpt = Excerpt::of(text, self.place);
        format!(
            "{}: {}\n{}",
            excerpt.whereabouts(),
            self.why,
            excerpt.picture()
        )
    }
}

/// The line, the caret and what is wrong there, if a place is known.
pub fn of(text: &[u8], refusal: Refusal) -> Option<String> {
    hint(text, refusal).map(|hint| hint.told(text))
}

fn hint(text: &[u8], refusal: Refusal) -> Option<Hint> {
    let rest = |place: usize| text.get(place..).unwrap_or_default();
    match refusal {
        Refusal::Token { place } => Hint::new(place, token(rest(place), &text[..place])),
        Refusal::Limit { place } => Hint::new(place, limit(rest(place))),
        Refusal::Grammar { place } => grammar(text, place),
        Refusal::Depth => depth(&tokens(text)?),
        _ => kinds::fault(text, refusal),
    }
}

/// What may be meant by a token that has no legal form.
fn token(rest: &[u8], before: &[u8]) -> &'static str {
    match rest {
        _ if before.is_empty() && rest.starts_with(spell::BYTE_ORDER_MARK) => spell::WITHOUT_MARK,
        _ if before.is_empty() && spell::is_utf_16(rest) => spell::NO_UTF_16,
        [b'=', b'~', ..] => "= is no operator; an expression is written regex (a, \"^T-[0-9]+$\")",
        [b'=', b'>', ..] => "=> is no operator; at least is written >=",
        [b'=', b'<', ..] => "=< is no operator; at most is written <=",
        [b'=', ..] if before.ends_with(b"=") => "one = too many; equality is == and unequal !=",
        [b'=', ..] => "= is no operator; equality is ==",
        [b'"' | b'\'', ..] => "the string has no closing quote",
        [b'#', ..] => "a subscription has no comments",
        [0xe2, 0x89, 0xa0, ..] => "unequal is written !=",
        [0xe2, 0x89, 0xa4, ..] => "at most is written <=",
        [0xe2, 0x89, 0xa5, ..] => "at least is written >=",
        [b'0', b'0'..=b'9', ..] => {
            "after a leading 0 a number is octal, and a real needs a point; digits 8 and 9 do not fit"
        }
        [b'0'..=b'9' | b'-', ..] => {
            "a number is 42, 052, 0x2a, 42L, 1.5 or 1.5e3, and a blank, ( ) or , follows it"
        }
        [b'.', ..] => "a real starts with a digit: 0.5",
        [b';', ..] => "a subscription is one condition, and ; is no part of it; join conditions by && or ||",
        [0xe2, 0x80, 0x98..=0x9f, ..] => "a string stands in plain quotes, \" or '; these are typographic ones",
        _ if word(rest).iter().any(|b| !(32..=126).contains(b)) => {
            "a name has printing ASCII characters only; others stand in strings"
        }
        [b'a'..=b'z' | b'A'..=b'Z' | b'_' | b'\\', ..] => {
            "a name runs to a blank, ( ) or ,; a backslash goes before [ ] ' \" and a blank in it"
        }
        _ => "no name, number, string or operator starts so; a name may start with a backslash",
    }
}

/// The bytes up to what ends a name or a number.
fn word(rest: &[u8]) -> &[u8] {
    rest.split(|b| b" \t\n\r(),".contains(b))
        .next()
        .unwrap_or_default()
}

/// What may be meant by a number or a name outside its limits.
fn limit(rest: &[u8]) -> &'static str {
    let word = word(rest);
    match word {
        [b'0'..=b'9' | b'-', ..] if word.contains(&b'.') => {
            "a real has at most 15 digits, and with them an exponent of -22 to 22"
        }
        [b'0'..=b'9' | b'-', .., b'l' | b'L'] => "the number does not fit an int64",
        [b'0'..=b'9' | b'-', ..] => "the number does not fit an int32; an int64 ends in L",
        _ => "a name has at most 64 characters",
    }
}

/// What may be meant where the grammar is not kept.
fn grammar(text: &[u8], place: usize) -> Option<Hint> {
    let tokens = tokens(text).unwrap_or_default();
    let (before, after) = tokens.split_at(tokens.partition_point(|t| t.end <= place));
    let (last, next) = (before.last(), after.first());
    let wants_operand = last.is_none_or(|t| t.wants_operand());
    if !wants_operand {
        if let Some(hint) = elsewhere(last, next) {
            return Some(hint);
        }
    }
    let why = match text.get(place..).unwrap_or_default() {
        [] if last.is_none() => "the text is empty",
        [] if wants_operand => "the text ends where a name, a literal or ( is expected",
        [] => "the text ends before a ) that is open",
        [b'-', b'0'..=b'9', ..] if !wants_operand => {
            "- before a digit makes a negative number; to subtract write a blank: a - 5"
        }
        [b'>', ..] if last.is_some_and(|t| t.bytes == b"<" && t.end == place) => {
            "<> is no operator; unequal is written !="
        }
        [b'/', ..] if last.is_some_and(|t| t.bytes == b"/" && t.end == place) => {
            "a subscription has no comments"
        }
        [b'+', ..] if wants_operand => "a number has no + before it",
        [b'-', ..] if wants_operand => "the - of a negative number stands directly before it: -5",
        [b'~', ..] if !wants_operand => {
            "~ stands before one value, whose bits it turns; an expression is written regex (a, \"^T-[0-9]+$\")"
        }
        [b')', ..] if wants_operand => "a name, a literal or ( is expected here",
        [b')', ..] => "no ( is open here",
        [b',', ..] if !wants_operand => {
            "a , stands between the arguments of a function alone; join conditions by && or ||"
        }
        _ if wants_operand => "a name, a literal or ( is expected here",
        _ => "an operator is expected here",
    };
    Hint::new(place, why)
}

/// A word of another language where an operator is expected: the next token, or the one before it.
fn elsewhere(last: Option<&Token>, next: Option<&Token>) -> Option<Hint> {
    let name = |token: &&Token| token.what == What::Name;
    let not = |token: &&Token| token.bytes.eq_ignore_ascii_case(b"not");
    let operator = |token: &Token| Hint::new(token.start, cures::operator(token.bytes)?);
    let function = |token: &Token| Hint::new(token.start, cures::without_parentheses(token.bytes)?);
    let (last, next) = (last.filter(name), next.filter(|t| !t.is_close()));
    let word = next.filter(name);
    word.and_then(operator)
        .or_else(|| word.and_then(function))
        .or_else(|| last.filter(not).and_then(operator))
        .or_else(|| last.filter(|_| next.is_some()).and_then(function))
}

/// The token at which too much is open, or too many prefix operators are in a row.
fn depth(tokens: &[Token]) -> Option<Hint> {
    let (mut open, mut row) = (0u32, 0u32);
    for token in tokens {
        row = if token.is_prefix() { row + 1 } else { 0 };
        match token.what {
            What::Open => open += 1,
            What::Close => open = open.saturating_sub(1),
            _ => (),
        }
        if row > 24 {
            return Hint::new(token.start, "the 25th of ! and ~ in a row");
        }
        if open > 24 {
            return Hint::new(token.start, "the 25th ( that is open");
        }
    }
    None
}

#[cfg(test)]
mod tests;
