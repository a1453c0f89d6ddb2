//! The tokens of a subscription, where all have a legal form.

/// What a token is.
#[derive(Debug, Clone, Copy, PartialEq, Eq)]
pub enum What {
    Name,
    Number,
    String,
    Operator,
    Open,
    Close,
    Comma,
}

/// A token, by its place in the text.
#[derive(Debug, Clone, Copy, PartialEq, Eq)]
pub struct Token<'a> {
    pub what: What,
    pub start: usize,
    pub end: usize,
    pub bytes: &'a [u8],
}

impl Token<'_> {
    pub fn is_prefix(&self) -> bool {
        self.what == What::Operator && (self.bytes == b"!" || self.bytes == b"~")
    }

    pub fn is_close(&self) -> bool {
        matches!(self.what, What::Close | What::Comma)
    }

    /// Whether a name, a literal or ( is expected behind it.
    pub fn wants_operand(&self) -> bool {
        matches!(self.what, What::Operator | What::Open | What::Comma)
    }
}

/// The operators, the longer before those that they begin with.
const OPERATORS: [&str; 22] = [
    ">>>", "!=", "&&", "^^", "||", "==", "<=", ">=", "<<", ">>", "!", "<", ">", "*", "/", "%", "+",
    "-", "&", "^", "|", "~",
];

/// Whether a word is an operator, or the = that is often written for one.
pub fn is_operator(word: &[u8]) -> bool {
    word == b"=" || OPERATORS.iter().any(|operator| operator.as_bytes() == word)
}

/// The tokens of a text; none if one has no legal form that is seen by its first bytes.
pub fn tokens(text: &[u8]) -> Option<Vec<Token<'_>>> {
    let mut tokens = Vec::new();
    let mut start = 0;
    while let Some(rest) = text.get(start..).filter(|rest| !rest.is_empty()) {
        if b" \t\n\r".contains(&rest[0]) {
            start += 1;
            continue;
        }
        let (what, length) = token(rest)?;
        let end = start + length;
        tokens.push(Token {
            what,
            start,
            end,
            bytes: text.get(start..end)?,
        });
        start = end;
    }
    Some(tokens)
}

/// What the bytes start with, and how long it is.
fn token(rest: &[u8]) -> Option<(What, usize)> {
    match rest {
        [b'(', ..] => Some((What::Open, 1)),
        [b')', ..] => Some((What::Close, 1)),
        [b',', ..] => Some((What::Comma, 1)),
        [quote @ (b'"' | b'\''), ..] => Some((What::String, string(rest, *quote)?)),
        [b'0'..=b'9', ..] | [b'-', b'0'..=b'9', ..] => Some((What::Number, word(rest))),
        [b'a'..=b'z' | b'A'..=b'Z' | b'_' | b'\\', ..] => Some((What::Name, word(rest))),
        _ => {
            let operator = OPERATORS.iter().find(|o| rest.starts_with(o.as_bytes()))?;
            Some((What::Operator, operator.len()))
        }
    }
}

/// The length of a string with its quotes.
fn string(rest: &[u8], quote: u8) -> Option<usize> {
    let mut k = 1;
    loop {
        match rest.get(k)? {
            b'\\' => k += 2,
            byte if *byte == quote => return Some(k + 1),
            _ => k += 1,
        }
    }
}

/// The length of a name or a number: up to whitespace, a parenthesis or a comma; a backslash takes the next byte.
fn word(rest: &[u8]) -> usize {
    let mut k = 0;
    while let Some(byte) = rest.get(k) {
        match byte {
            b' ' | b'\t' | b'\n' | b'\r' | b'(' | b')' | b',' => break,
            b'\\' => k += 2,
            _ => k += 1,
        }
    }
    k.min(rest.len())
}

#[cfg(test)]
mod tests {
    use super::*;

    fn spelled(text: &str) -> Vec<&str> {
        let tokens = tokens(text.as_bytes()).unwrap();
        tokens
            .iter()
            .map(|t| std::str::from_utf8(t.bytes).unwrap())
            .collect()
    }

    #[test]
    fn operators_take_the_longest_match() {
        assert_eq!(spelled("a >>>b"), ["a", ">>>", "b"]);
        assert_eq!(spelled("!~!a"), ["!", "~", "!", "a"]);
        assert_eq!(spelled("a <<< b"), ["a", "<<", "<", "b"]);
    }

    #[test]
    fn names_numbers_and_strings() {
        assert_eq!(
            spelled("size(Name)<=-20L"),
            ["size", "(", "Name", ")", "<=", "-20L"]
        );
        assert_eq!(
            spelled("the\\ pipe,'a\\'b'\"c\""),
            ["the\\ pipe", ",", "'a\\'b'", "\"c\""]
        );
        assert_eq!(spelled("pipe=>20"), ["pipe=>20"]);
        assert_eq!(spelled("a -5"), ["a", "-5"]);
        assert_eq!(spelled("a - 5"), ["a", "-", "5"]);
    }

    #[test]
    fn what_has_no_form() {
        for text in ["= 1", "\"a", "'a\\'", "a == .5", "[a]"] {
            assert_eq!(tokens(text.as_bytes()), None, "{text}");
        }
    }
}
