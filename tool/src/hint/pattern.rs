//! The one cause for which a pattern is ill-formed, in the words of requests 1 and 13, at its byte.
use super::Hint;

/// The most groups that are open at once.
const DEEPEST: usize = 8;

/// A byte of a pattern, whether a backslash of the pattern makes it plain, and its place in the text.
#[derive(Debug, Clone, Copy)]
struct Member {
    byte: u8,
    plain: bool,
    place: usize,
}

/// What makes the pattern of a string literal ill-formed; the literal starts at `start` in the text.
pub fn fault(function: &str, literal: &[u8], start: usize) -> Option<Hint> {
    let bytes = unescaped(literal);
    let (members, last) = members(&bytes);
    let found = match function {
        "wildcard" => wildcard(&members),
        _ => expression(&members, last.is_some()),
    };
    let end = || last.map(|place| (place, "a backslash at the end"));
    let (place, why) = found.or_else(end)?;
    let lost = match literal.get(place) {
        Some(b'\\') if literal.get(place + 1) != Some(&b'\\') => {
            "; the string literal takes the backslash away, so write two"
        }
        _ => "",
    };
    Some(Hint {
        place: start + place,
        why: format!("the pattern is ill-formed: {why}{lost}"),
    })
}

/// The bytes of a string literal without its quotes and backslashes, each with where it starts in the literal.
pub fn unescaped(literal: &[u8]) -> Vec<(u8, usize)> {
    let mut bytes = Vec::new();
    let mut k = 1;
    while k + 1 < literal.len() {
        let escaped = usize::from(literal[k] == b'\\');
        bytes.push((literal[k + escaped], k));
        k += 1 + escaped;
    }
    bytes
}

/// The members of a pattern, and the place of a backslash at its end.
fn members(bytes: &[(u8, usize)]) -> (Vec<Member>, Option<usize>) {
    let mut members = Vec::new();
    let mut rest = bytes.iter();
    while let Some((byte, place)) = rest.next() {
        let (byte, plain) = match (byte, rest.as_slice()) {
            (b'\\', []) => return (members, Some(*place)),
            (b'\\', [(next, _), ..]) => {
                rest.next();
                (*next, true)
            }
            _ => (*byte, false),
        };
        members.push(Member {
            byte,
            plain,
            place: *place,
        });
    }
    (members, None)
}

fn wildcard(members: &[Member]) -> Option<(usize, &'static str)> {
    let mut at = 0;
    while let Some(member) = members.get(at) {
        at = match (member.byte, member.plain) {
            (b'[', false) => match set(members, at, b'!') {
                Ok(next) => next,
                Err(fault) => return Some(fault),
            },
            _ => at + 1,
        };
    }
    None
}

/// The member behind a set, or what is wrong with the set.
fn set(members: &[Member], open: usize, not: u8) -> Result<usize, (usize, &'static str)> {
    let start = members[open].place;
    let close = |m: &Member| m.byte == b']' && !m.plain;
    let inside = &members[open + 1..];
    let end = inside.iter().position(close);
    let end = end.ok_or((start, "an unclosed set"))?;
    let inside = &inside[..end];
    let complement = inside.first().is_some_and(|m| m.byte == not && !m.plain);
    let mut rest = &inside[usize::from(complement)..];
    if rest.is_empty() {
        return Err((start, "an empty set"));
    }
    while let [from, after @ ..] = rest {
        rest = match after {
            [dash, to, next @ ..] if dash.byte == b'-' && !dash.plain => {
                if from.byte > to.byte {
                    return Err((from.place, "a range that falls"));
                }
                next
            }
            _ => after,
        };
    }
    Ok(open + end + 2)
}

/// An open group, or the whole: whether its branch has parts yet, and where the group starts.
struct Open {
    place: usize,
    parts: bool,
}

/// An expression as far as it is read from the left.
struct Reader<'a> {
    members: &'a [Member],
    at: usize,
    opened: Vec<Open>,
    /// Whether the branch that is read has an anchor.
    anchored: bool,
}

type Fault = (usize, &'static str);

fn expression(members: &[Member], backslash: bool) -> Option<Fault> {
    let mut reader = Reader {
        members,
        at: 0,
        opened: vec![Open {
            place: 0,
            parts: false,
        }],
        anchored: false,
    };
    while reader.at < members.len() {
        if let Err(fault) = reader.member(backslash) {
            return Some(fault);
        }
    }
    if backslash {
        return None;
    }
    reader.whole().err()
}

impl Reader<'_> {
    fn member(&mut self, backslash: bool) -> Result<(), Fault> {
        let Member { byte, plain, place } = self.members[self.at];
        let last = self.at + 1 == self.members.len() && !backslash;
        match byte {
            _ if plain => self.part(),
            b'^' if self.at == 0 => self.anchored = true,
            b'^' => return Err((place, "`^` elsewhere than first")),
            b'$' if last => self.anchored = true,
            b'$' => return Err((place, "`$` elsewhere than last")),
            b'(' => self.open(place)?,
            b')' => self.close(place)?,
            b'|' => self.bar(place)?,
            b'*' | b'+' | b'?' => self.mark(place)?,
            b'[' => {
                self.at = set(self.members, self.at, b'^')? - 1;
                self.part();
            }
            _ => self.part(),
        }
        self.at += 1;
        Ok(())
    }

    fn group(&mut self) -> &mut Open {
        let last = self.opened.len() - 1;
        &mut self.opened[last]
    }

    fn part(&mut self) {
        self.group().parts = true;
    }

    fn open(&mut self, place: usize) -> Result<(), Fault> {
        if self.opened.len() > DEEPEST {
            return Err((place, "depth over 8"));
        }
        self.opened.push(Open {
            place,
            parts: false,
        });
        Ok(())
    }

    fn close(&mut self, place: usize) -> Result<(), Fault> {
        if self.opened.len() == 1 {
            return Err((place, "unmatched parentheses, no ( is open"));
        }
        let before = self.members[self.at - 1];
        if before.byte == b'(' && !before.plain {
            return Err((before.place, "an empty group"));
        }
        if !self.group().parts {
            return Err((place, "an empty branch"));
        }
        self.opened.pop();
        self.part();
        Ok(())
    }

    fn bar(&mut self, place: usize) -> Result<(), Fault> {
        let anchored = self.opened.len() == 1 && std::mem::take(&mut self.anchored);
        if !self.group().parts && !anchored {
            return Err((place, "an empty branch"));
        }
        self.group().parts = false;
        Ok(())
    }

    fn mark(&mut self, place: usize) -> Result<(), Fault> {
        if self.group().parts {
            return Ok(());
        }
        Err((
            place,
            match self.at.checked_sub(1).map(|k| self.members[k].byte) {
                None => "a repeat mark first",
                Some(b'^') => "a repeat mark after `^`",
                Some(b'(') => "a repeat mark after `(`",
                Some(_) => "a repeat mark after `|`",
            },
        ))
    }

    fn whole(&mut self) -> Result<(), Fault> {
        if let [_, .., open] = &self.opened[..] {
            return Err((open.place, "unmatched parentheses, this ( is not closed"));
        }
        let end = self.members.last().map_or(1, |m| m.place);
        match self.group().parts || self.anchored {
            true => Ok(()),
            false => Err((end, "an empty branch")),
        }
    }
}

#[cfg(test)]
mod tests {
    use super::*;
    use crate::vectors;

    /// A pattern as a string literal.
    fn literal(pattern: &[u8]) -> Vec<u8> {
        let mut literal = vec![b'"'];
        for byte in pattern {
            if matches!(byte, b'"' | b'\\') {
                literal.push(b'\\');
            }
            literal.push(*byte);
        }
        literal.push(b'"');
        literal
    }

    /// A cause is found in the patterns that are ill-formed, and in no other.
    #[test]
    fn the_patterns_of_the_vectors() {
        for (function, file) in [
            ("wildcard", "01-patterns.txt"),
            ("regex", "13-patterns.txt"),
        ] {
            let mut ill_formed = 0;
            for (pattern, right) in vectors::patterns(file) {
                let literal = literal(&pattern);
                let fault = fault(function, &literal, 0);
                assert_eq!(
                    fault.is_none(),
                    right,
                    "{}",
                    String::from_utf8_lossy(&pattern)
                );
                assert!(fault.is_none_or(|f| f.place < literal.len()));
                ill_formed += usize::from(!right);
            }
            assert!(ill_formed > 50, "{function}: {ill_formed}");
        }
    }

    /// The byte of the pattern that is named, from 0, and the cause.
    #[test]
    fn places_and_causes() {
        for (function, pattern, place, cause) in [
            ("wildcard", "T-[4", 2, "an unclosed set"),
            ("wildcard", "a[]b", 1, "an empty set"),
            ("wildcard", "a[!]", 1, "an empty set"),
            ("wildcard", "[a-cz-x]", 4, "a range that falls"),
            ("regex", "a[^]", 1, "an empty set"),
            ("regex", "a||b", 2, "an empty branch"),
            ("regex", "a|", 1, "an empty branch"),
            ("regex", "", 0, "an empty branch"),
            ("regex", "a()b", 1, "an empty group"),
            ("regex", "*a", 0, "a repeat mark first"),
            ("regex", "^*", 1, "a repeat mark after `^`"),
            ("regex", "(+a)", 1, "a repeat mark after `(`"),
            ("regex", "a|?", 2, "a repeat mark after `|`"),
            ("regex", "a)", 1, "unmatched parentheses, no ( is open"),
            (
                "regex",
                "(a(b)",
                0,
                "unmatched parentheses, this ( is not closed",
            ),
            ("regex", "a^b", 1, "`^` elsewhere than first"),
            ("regex", "a$b", 1, "`$` elsewhere than last"),
            ("regex", "(((((((((a)))))))))", 8, "depth over 8"),
        ] {
            let found = fault(function, &literal(pattern.as_bytes()), 0).unwrap();
            let wanted = (place + 1, format!("the pattern is ill-formed: {cause}"));
            assert_eq!((found.place, found.why), wanted, "{pattern}");
        }
    }

    #[test]
    fn backslashes() {
        let found = fault("regex", b"\"a\\(\"", 10).unwrap();
        assert_eq!(found.place, 12);
        assert!(
            found
                .why
                .ends_with("takes the backslash away, so write two"),
            "{}",
            found.why
        );
        let found = fault("wildcard", b"'ab\\\\'", 0).unwrap();
        assert_eq!(found.place, 3);
        assert!(
            found.why.ends_with("a backslash at the end"),
            "{}",
            found.why
        );
    }
}
