//! Document 02, request 1: wildcard patterns. Words in quotes are that request's.

/// One part of a pattern.
#[derive(Clone, PartialEq, Eq, Debug)]
pub enum Part {
    /// "`*` fits any run of bytes"
    Run,
    /// "`?` one byte"
    Any,
    Byte(u8),
    /// "`[..]` one byte of a set with ranges and a leading `!` for the complement": the ranges, a member
    /// alone from itself to itself.
    Set {
        complement: bool,
        ranges: Vec<(u8, u8)>,
    },
}

/// A pattern that is well-formed.
#[derive(Clone, PartialEq, Eq, Debug)]
pub struct Pattern {
    pub parts: Vec<Part>,
}

/// What makes a pattern ill-formed.
#[derive(Clone, Copy, PartialEq, Eq, Debug)]
pub enum Fault {
    Unclosed,
    Empty,
    Falls,
    LastBackslash,
}

/// A byte of a pattern, and whether a backslash made it plain.
pub(crate) type Member = (u8, bool);

/// "a backslash makes the next byte plain": the bytes with their backslashes taken off, and whether the
/// last byte is a backslash that makes none plain.
pub(crate) fn members(pattern: &[u8]) -> (Vec<Member>, bool) {
    let mut all = Vec::new();
    let mut bytes = pattern.iter();
    while let Some(byte) = bytes.next() {
        match (byte, bytes.as_slice().first()) {
            (b'\\', Some(next)) => {
                bytes.next();
                all.push((*next, true));
            }
            (b'\\', None) => return (all, true),
            _ => all.push((*byte, false)),
        }
    }
    (all, false)
}

impl Pattern {
    /// "An unclosed or empty set (`[!]` too), a range that falls and a backslash at the end are
    /// ill-formed, nothing else."
    pub fn of(pattern: &[u8]) -> Result<Pattern, Fault> {
        let (mut rest, last_backslash) = members(pattern);
        rest.reverse();
        let mut parts = Vec::new();
        while let Some(member) = rest.pop() {
            parts.push(match member {
                (b'*', false) => Part::Run,
                (b'?', false) => Part::Any,
                (b'[', false) => set(&taken_to_close(&mut rest)?, b'!')?,
                (byte, _) => Part::Byte(byte),
            });
        }
        match last_backslash {
            true => Err(Fault::LastBackslash),
            false => Ok(Pattern { parts }),
        }
    }

    /// "the whole value must fit a pattern": which starts of the value the parts so far fit.
    pub fn fits(&self, value: &[u8]) -> bool {
        let mut fitted = vec![false; value.len() + 1];
        fitted[0] = true;
        for part in &self.parts {
            fitted = match part {
                Part::Run => {
                    let first = fitted.iter().position(|fits| *fits);
                    (0..=value.len())
                        .map(|end| first.is_some_and(|first| first <= end))
                        .collect()
                }
                one => {
                    let after = (0..value.len()).map(|at| fitted[at] && one.takes(value[at]));
                    std::iter::once(false).chain(after).collect()
                }
            };
        }
        fitted[value.len()]
    }
}

/// "In a set the first unescaped `]` closes": what stands before it, which is taken with it off the
/// reversed rest.
pub(crate) fn taken_to_close(rest: &mut Vec<Member>) -> Result<Vec<Member>, Fault> {
    let mut taken = Vec::new();
    loop {
        match rest.pop() {
            None => return Err(Fault::Unclosed),
            Some((b']', false)) => return Ok(taken),
            Some(member) => taken.push(member),
        }
    }
}

/// "a leading `!` for the complement", the mark; "a member, `-` and a member is a range, read from the left;
/// other bytes are plain".
pub(crate) fn set(inside: &[Member], mark: u8) -> Result<Part, Fault> {
    let complement = inside.first() == Some(&(mark, false));
    let mut rest = &inside[usize::from(complement)..];
    let mut ranges = Vec::new();
    while let [(from, _), after @ ..] = rest {
        let (to, next) = match after {
            [(b'-', false), (to, _), next @ ..] => (to, next),
            _ => (from, after),
        };
        if to < from {
            return Err(Fault::Falls);
        }
        ranges.push((*from, *to));
        rest = next;
    }
    if ranges.is_empty() {
        return Err(Fault::Empty);
    }
    Ok(Part::Set { complement, ranges })
}

impl Part {
    /// Whether the part, which is no run, fits the one byte.
    pub fn takes(&self, byte: u8) -> bool {
        match self {
            Part::Run | Part::Any => true,
            Part::Byte(plain) => *plain == byte,
            Part::Set { complement, ranges } => {
                let held = ranges.iter().any(|(from, to)| (from..=to).contains(&&byte));
                held != *complement
            }
        }
    }
}

#[cfg(test)]
mod tests {
    use super::*;

    fn fits(pattern: &str, value: &str) -> Option<bool> {
        let pattern = Pattern::of(pattern.as_bytes()).ok()?;
        Some(pattern.fits(value.as_bytes()))
    }

    #[test]
    fn the_example() {
        for (value, right) in [("T-41", true), ("T-4", false), ("T-412", false)] {
            assert_eq!(fits("T-4?", value), Some(right), "{value}");
        }
        for (value, right) in [("V", true), ("V12", true), ("v", false), ("", false)] {
            assert_eq!(fits("V*", value), Some(right), "{value}");
        }
    }

    #[test]
    fn runs_and_single_bytes() {
        assert_eq!(fits("", ""), Some(true));
        assert_eq!(fits("", "a"), Some(false));
        assert_eq!(fits("***", ""), Some(true));
        assert_eq!(fits("*a*b", "xaxxab"), Some(true));
        assert_eq!(fits("*a*b", "xaxxaba"), Some(false));
        assert_eq!(fits("?*?", "a"), Some(false));
        assert_eq!(fits("\\*\\?\\[\\]\\\\", "*?[]\\"), Some(true));
        assert_eq!(fits("]-!^", "]-!^"), Some(true));
    }

    /// The bytes from 33 to 126 that the set takes.
    fn taken(set: &str) -> String {
        let set = Pattern::of(set.as_bytes()).unwrap();
        let taken = (33..127u8).filter(|byte| set.fits(&[*byte]));
        taken.map(char::from).collect()
    }

    #[test]
    fn sets_are_read_from_the_left() {
        assert_eq!(taken("[a-c]"), "abc");
        assert_eq!(taken("[a-b-c]"), "-abc");
        assert_eq!(taken("[a-]"), "-a");
        assert_eq!(taken("[-a]"), "-a");
        assert_eq!(taken("[+--]"), "+,-");
        assert_eq!(taken("[--0]"), "-./0");
        assert_eq!(taken("[a\\-c]"), "-ac");
        assert_eq!(taken("[\\a-\\c]"), "abc");
        assert_eq!(taken("[\\]\\!-#]"), "!\"#]");
        assert_eq!(taken("[[*?]"), "*?[");
        assert_eq!(taken("[!!-~]"), "");
        assert_eq!(taken("[!-a]").len(), 92);
        assert_eq!(fits("[!a]", ""), Some(false));
    }

    #[test]
    fn each_cause_of_an_ill_formed_pattern() {
        let faults = [
            ("[", Fault::Unclosed),
            ("[a", Fault::Unclosed),
            ("[a\\]", Fault::Unclosed),
            ("[!", Fault::Unclosed),
            ("[\\", Fault::Unclosed),
            ("[]", Fault::Empty),
            ("[!]", Fault::Empty),
            ("[]a]", Fault::Empty),
            ("[!]]", Fault::Empty),
            ("[b-a]", Fault::Falls),
            ("[a--]", Fault::Falls),
            ("[\\b-\\a]", Fault::Falls),
            ("a\\", Fault::LastBackslash),
            ("\\\\\\", Fault::LastBackslash),
        ];
        for (pattern, fault) in faults {
            assert_eq!(Pattern::of(pattern.as_bytes()), Err(fault), "{pattern}");
        }
    }
}
