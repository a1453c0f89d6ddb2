//! Where the rule of `regex` turns, for the corners of op 61. What is said of a pattern is said of one that
//! stands alone beside a string; what a part of it does is found by changing that part alone.

use crate::corners::Visit;
use crate::edges::met as those;
use crate::operands::{is_bottom, is_text, text};
use reference::regex::{Node, Regex};
use reference::wildcard::Part;

const CORNERS: [&str; 64] = [
    "fits",
    "misses",
    "the empty value, fits",
    "the empty value, missed",
    "a stretch within",
    "an empty stretch of another value",
    ". fits",
    "plain byte fits",
    "set fits",
    "complement fits",
    "plain byte alone unlike",
    "set alone unlike",
    "complement alone unlike",
    ". on LF",
    ". on 0",
    ". on 255",
    ". on empty",
    "* of no round",
    "* of more rounds",
    "+ of more rounds",
    "+ without a round",
    "? of no round",
    "? with two rounds",
    "rounds over what fits the empty string, more than one",
    "rounds over what fits the empty string, none",
    "rounds over what fits the empty string, missed",
    "the first branch of a group alone",
    "a later branch of a group alone",
    "the first branch of the whole alone",
    "a later branch of the whole alone",
    "a way that is not the first",
    "^ that keeps it from fitting",
    "$ that keeps it from fitting",
    "^ and $ on a part",
    "^ of its own branch, another within",
    "$ of its own branch, another within",
    "$ before a last LF",
    "^ alone",
    "$ alone",
    "^$ on empty",
    "^$ on another",
    "^ as a branch",
    "$ as a branch",
    "depth 8, fits",
    "depth 8, missed",
    "first of a range",
    "last of a range",
    "one before a range",
    "one after a range",
    "range from 0 to 255",
    "0 beside a complement",
    "255 beside a complement",
    "! first in a set",
    "value of 1024, fits",
    "value of 1024, missed",
    "1000 of one byte, rounds over what fits the empty string, missed",
    "pattern of 1000 and more, fits",
    "pattern of 1000 and more, missed",
    "empty first",
    "first bottom",
    "first no string",
    "8 patterns, the last fits alone",
    "8 patterns, none fits",
    "8 patterns, the first fits",
];
/// Lengths of patterns: the longest that a pool holds, and powers of two with the next.
pub const LENGTHS: [usize; 12] = [32, 33, 64, 65, 128, 129, 256, 257, 1024, 1025, 4095, 4096];
const MARKS: &[u8] = b"*+?";
/// Bytes that are plain behind a backslash, or as they are.
const PLAIN: &[u8] = b".*+?|()[]^$\\{}-!";
const MEMBERS: &[u8] = b"][-^\\!";

fn named(before: &str, bytes: &[u8]) -> String {
    format!("{before}{}", String::from_utf8_lossy(bytes))
}

fn of_length(length: usize, fits: bool) -> String {
    let told = if fits { "fits" } else { "missed" };
    format!("pattern of {length}, {told}")
}

/// What must occur in a run of many cases.
pub fn names() -> Vec<String> {
    let mut names: Vec<String> = CORNERS.map(String::from).into();
    for first in MARKS {
        names.extend(MARKS.iter().map(|then| named("marks ", &[*first, *then])));
    }
    for length in LENGTHS {
        names.extend([true, false].map(|fits| of_length(length, fits)));
    }
    names.extend(PLAIN.iter().map(|byte| named("plain ", &[*byte])));
    names.extend(MEMBERS.iter().map(|byte| named("member ", &[*byte])));
    names
}

/// The corners that a visit of op 61 meets.
pub fn met(v: &Visit) -> Vec<String> {
    let mut found = those([
        (v.is(crate::operands::is_empty), CORNERS[58]),
        (v.is(is_bottom), CORNERS[59]),
        (!v.is(is_text) && !v.is(is_bottom), CORNERS[60]),
        (v.last_of_8(), CORNERS[61]),
        (v.none_of_8(), CORNERS[62]),
        (v.first_of_8(), CORNERS[63]),
    ]);
    if let Some(tried) = Tried::of(v) {
        found.extend(tried.whole());
        if LENGTHS.contains(&tried.bytes.len()) {
            found.push(of_length(tried.bytes.len(), tried.fits));
        }
        found.extend(tried.sets());
        found.extend(tried.bytes_fit());
        if tried.value.len() <= 40 && tried.regex.nodes.len() <= 60 {
            found.extend(tried.parts());
            found.extend(tried.rounds());
            found.extend(tried.branches());
        }
    }
    found
}

/// A pattern that stands alone, its bytes, and the value.
struct Tried<'a> {
    regex: Regex,
    bytes: &'a [u8],
    value: &'a [u8],
    fits: bool,
}

impl<'a> Tried<'a> {
    fn of(v: &'a Visit) -> Option<Tried<'a>> {
        let [value, bytes] = v.operands else {
            return None;
        };
        let (value, bytes) = (text(value)?, text(bytes)?);
        let regex = Regex::of(bytes).ok()?;
        let fits = regex.fits(value);
        Some(Tried {
            regex,
            bytes,
            value,
            fits,
        })
    }

    fn whole(&self) -> Vec<String> {
        let (fits, missed) = (self.fits, !self.fits);
        let (value, bytes) = (self.value, self.bytes);
        let over_empty = self.over_empty();
        let row = value.len() >= 1000 && value.iter().all(|byte| *byte == value[0]);
        let free = self
            .regex
            .branches
            .iter()
            .any(|branch| !branch.at_start && !branch.at_end && self.regex.empty(branch.root));
        let is = |pattern: &[u8], on: &[u8]| bytes == pattern && value == on;
        let at_end = self.regex.branches.iter().any(|branch| branch.at_end);
        let cut = &value[..value.len().saturating_sub(1)];
        let before_lf = missed && at_end && value.ends_with(b"\n") && self.regex.fits(cut);
        those([
            (fits, CORNERS[0]),
            (missed, CORNERS[1]),
            (fits && value.is_empty(), CORNERS[2]),
            (missed && value.is_empty(), CORNERS[3]),
            (free && !value.is_empty(), CORNERS[5]),
            (is(b".", b"\n"), CORNERS[13]),
            (is(b".", b"\0"), CORNERS[14]),
            (is(b".", b"\xff"), CORNERS[15]),
            (is(b".", b""), CORNERS[16]),
            (missed && over_empty, CORNERS[25]),
            (before_lf, CORNERS[36]),
            (bytes == b"^", CORNERS[37]),
            (bytes == b"$", CORNERS[38]),
            (is(b"^$", b""), CORNERS[39]),
            (bytes == b"^$" && !value.is_empty(), CORNERS[40]),
            (bytes.starts_with(b"^|") && fits, CORNERS[41]),
            (bytes.ends_with(b"|$") && fits, CORNERS[42]),
            (fits && self.regex.depth == 8, CORNERS[43]),
            (missed && self.regex.depth == 8, CORNERS[44]),
            (fits && value.len() == 1024, CORNERS[53]),
            (missed && value.len() == 1024, CORNERS[54]),
            (missed && row && over_empty, CORNERS[55]),
            (fits && bytes.len() >= 1000, CORNERS[56]),
            (missed && bytes.len() >= 1000, CORNERS[57]),
        ])
    }

    /// More than one round is allowed of a part that fits the empty string.
    fn over_empty(&self) -> bool {
        self.regex.nodes.iter().any(|node| match node {
            Node::Rounds { inner, more, .. } => more.is_some() && self.regex.empty(*inner),
            _ => false,
        })
    }

    /// A set alone on one byte.
    fn sets(&self) -> Vec<String> {
        let ([Node::One(Part::Set { complement, ranges }), Node::All(_)], [byte]) =
            (&self.regex.nodes[..], self.value)
        else {
            return Vec::new();
        };
        let wide: Vec<_> = ranges.iter().filter(|(from, to)| from < to).collect();
        let is = |is: fn(u8, u8, u8) -> bool| {
            !complement && wide.iter().any(|(from, to)| is(*byte, *from, *to))
        };
        those([
            (is(|byte, from, _| byte == from), CORNERS[45]),
            (is(|byte, _, to| byte == to), CORNERS[46]),
            (
                !self.fits && is(|byte, from, _| byte.checked_add(1) == Some(from)),
                CORNERS[47],
            ),
            (
                !self.fits && is(|byte, _, to| to.checked_add(1) == Some(byte)),
                CORNERS[48],
            ),
            (is(|_, from, to| (from, to) == (0, 255)), CORNERS[49]),
            (*complement && *byte == 0, CORNERS[50]),
            (*complement && *byte == 255, CORNERS[51]),
            (self.bytes.starts_with(b"[!") && self.fits, CORNERS[52]),
        ])
    }

    /// Bytes that could mean something, and marks in a row, in a pattern that fits.
    fn bytes_fit(&self) -> Vec<String> {
        if !self.fits {
            return Vec::new();
        }
        let has = |part: &Part| self.regex.nodes.contains(&Node::One(part.clone()));
        let member = |byte: u8| {
            self.regex.nodes.iter().any(|node| match node {
                Node::One(Part::Set { ranges, .. }) => ranges.contains(&(byte, byte)),
                _ => false,
            })
        };
        let plain = PLAIN.iter().filter(|byte| has(&Part::Byte(**byte)));
        let members = MEMBERS.iter().filter(|byte| member(**byte));
        // a backslash anywhere, or a set, leaves marks uncounted
        let clear = !self.bytes.iter().any(|byte| b"\\[".contains(byte));
        let rows = self.bytes.windows(2);
        let rows = rows.filter(|two| clear && two.iter().all(|byte| MARKS.contains(byte)));
        let mut found: Vec<String> = plain.map(|byte| named("plain ", &[*byte])).collect();
        found.extend(members.map(|byte| named("member ", &[*byte])));
        found.extend(rows.map(|two| named("marks ", two)));
        found
    }

    /// Whether the answer is the other one with some one node changed; a change that leaves a node as it is
    /// gives none.
    fn turns(&self, fits: bool, change: impl Fn(&Regex, usize) -> Option<Node>) -> bool {
        let turned = |id: usize| {
            let Some(node) = change(&self.regex, id) else {
                return false;
            };
            let mut other = self.regex.clone();
            other.nodes[id] = node;
            other.fits(self.value) != fits
        };
        self.fits == fits && (0..self.regex.nodes.len()).any(turned)
    }

    /// Whether it fits by some such byte, or misses by it.
    fn by_one(&self, fits: bool, is: fn(&Part) -> bool) -> bool {
        let never = Part::Set {
            complement: true,
            ranges: vec![(0, 255)],
        };
        self.turns(fits, |regex, id| match &regex.nodes[id] {
            Node::One(part) if is(part) => Some(Node::One(match fits {
                true => never.clone(),
                false => Part::Any,
            })),
            _ => None,
        })
    }

    fn parts(&self) -> Vec<String> {
        let byte = |part: &Part| matches!(part, Part::Byte(_));
        those([
            (self.by_one(true, |part| *part == Part::Any), CORNERS[6]),
            (self.by_one(true, byte), CORNERS[7]),
            (self.by_one(true, |part| is_set(part, false)), CORNERS[8]),
            (self.by_one(true, |part| is_set(part, true)), CORNERS[9]),
            (self.by_one(false, byte), CORNERS[10]),
            (self.by_one(false, |part| is_set(part, false)), CORNERS[11]),
            (self.by_one(false, |part| is_set(part, true)), CORNERS[12]),
        ])
    }

    /// Whether the answer turns if a part with these rounds, none allowed and more than one, has others.
    fn by_rounds(&self, fits: bool, of: (bool, bool), to: (bool, bool)) -> bool {
        self.turns(fits, |regex, id| match &regex.nodes[id] {
            Node::Rounds { inner, none, more }
                if *more != Some(id) && (*none, more.is_some()) == of =>
            {
                Some(Node::Rounds {
                    inner: *inner,
                    none: to.0,
                    more: more.filter(|_| to.1),
                })
            }
            _ => None,
        })
    }

    fn rounds(&self) -> Vec<String> {
        let (star, plus, once) = ((true, true), (false, true), (true, false));
        let over_empty = |fits: bool, none: bool, many: bool| {
            self.turns(fits, |regex, id| match &regex.nodes[id] {
                Node::Rounds { inner, more, .. }
                    if more.is_some() && *more != Some(id) && regex.empty(*inner) =>
                {
                    Some(Node::Rounds {
                        inner: *inner,
                        none,
                        more: if many { *more } else { None },
                    })
                }
                _ => None,
            })
        };
        those([
            (self.by_rounds(true, star, plus), CORNERS[17]),
            (self.by_rounds(true, star, once), CORNERS[18]),
            (self.by_rounds(true, plus, (false, false)), CORNERS[19]),
            (self.by_rounds(false, plus, star), CORNERS[20]),
            (self.by_rounds(true, once, (false, false)), CORNERS[21]),
            (self.two_rounds(), CORNERS[22]),
            (over_empty(true, true, false), CORNERS[23]),
            (
                self.fits && self.over_empty() && self.value.is_empty(),
                CORNERS[24],
            ),
        ])
    }

    /// It misses, and would fit if some part under `?` came twice.
    fn two_rounds(&self) -> bool {
        self.turns(false, |regex, id| match &regex.nodes[id] {
            Node::Rounds {
                inner, more: None, ..
            } => Some(twice(*inner)),
            _ => None,
        })
    }

    fn branches(&self) -> Vec<String> {
        let group = |first: bool| {
            self.turns(true, |regex, id| match &regex.nodes[id] {
                Node::Any(branches) if branches.len() > 1 => Some(Node::Any(match first {
                    true => branches[1..].to_vec(),
                    false => branches[..1].to_vec(),
                })),
                _ => None,
            })
        };
        let whole = |change: &dyn Fn(&mut Regex)| {
            let mut other = self.regex.clone();
            change(&mut other);
            other.fits(self.value)
        };
        let several = self.fits && self.regex.branches.len() > 1;
        let (start, end) = (
            self.regex.branches[0].at_start,
            self.regex.branches[self.regex.branches.len() - 1].at_end,
        );
        let all_at = |at_start: bool, at_end: bool| {
            whole(&|other| {
                for branch in &mut other.branches {
                    branch.at_start |= at_start;
                    branch.at_end |= at_end;
                }
            })
        };
        let none_at = |starts: bool, ends: bool| {
            whole(&|other| {
                for branch in &mut other.branches {
                    branch.at_start &= !starts;
                    branch.at_end &= !ends;
                }
            })
        };
        let missed = !self.fits;
        those([
            (
                self.fits && !all_at(true, false) && !all_at(false, true),
                CORNERS[4],
            ),
            (group(true), CORNERS[26]),
            (group(false), CORNERS[27]),
            (
                several && !whole(&|other| other.branches = other.branches.split_off(1)),
                CORNERS[28],
            ),
            (
                several && !whole(&|other| other.branches.truncate(1)),
                CORNERS[29],
            ),
            (self.fits && !self.committed(), CORNERS[30]),
            (missed && start && none_at(true, false), CORNERS[31]),
            (missed && end && none_at(false, true), CORNERS[32]),
            (
                missed && start && end && none_at(true, true) && self.regex.branches.len() == 1,
                CORNERS[33],
            ),
            (several && start && !all_at(true, false), CORNERS[34]),
            (several && end && !all_at(false, true), CORNERS[35]),
        ])
    }

    /// Whether it fits if each part takes the first way that it finds, and as many rounds as it can.
    fn committed(&self) -> bool {
        self.regex.branches.iter().any(|branch| {
            let last = if branch.at_start { 0 } else { self.value.len() };
            (0..=last).any(|from| {
                let end = self.first_way(branch.root, from);
                end.is_some_and(|end| !branch.at_end || end == self.value.len())
            })
        })
    }

    /// Where the first way through the node ends.
    fn first_way(&self, id: usize, from: usize) -> Option<usize> {
        match &self.regex.nodes[id] {
            Node::One(part) => part.takes(*self.value.get(from)?).then_some(from + 1),
            Node::All(parts) => parts
                .iter()
                .try_fold(from, |at, part| self.first_way(*part, at)),
            Node::Any(branches) => branches.iter().find_map(|one| self.first_way(*one, from)),
            Node::Rounds { inner, none, more } => match self.first_way(*inner, from) {
                Some(end) if end > from => more.map_or(Some(end), |more| self.first_way(more, end)),
                Some(end) => Some(end),
                None => none.then_some(from),
            },
        }
    }
}

fn is_set(part: &Part, complement: bool) -> bool {
    matches!(part, Part::Set { complement: c, .. } if *c == complement)
}

/// The part two times.
fn twice(inner: usize) -> Node {
    Node::All(vec![inner, inner])
}

#[cfg(test)]
mod tests {
    use super::*;
    use reference::op::Op;
    use reference::value::{Slot, Value};

    /// Whether the pattern on the value meets the corner.
    fn meets(pattern: &str, value: &str, corner: &str) -> bool {
        let slot = |text: &str| Slot::Value(Some(Value::Text(text.into())));
        let visit = Visit {
            op: Op::Regex,
            operands: &[slot(value), slot(pattern)],
            name: &[],
            place: Err(0),
            names: &[],
        };
        assert!(names().contains(&corner.to_string()), "{corner}");
        met(&visit).contains(&corner.to_string())
    }

    #[test]
    fn corners_of_patterns() {
        for (pattern, value, corner) in [
            ("b", "abc", "a stretch within"),
            ("b*", "abc", "an empty stretch of another value"),
            ("^ab*c$", "ac", "* of no round"),
            ("^ab*c$", "abbc", "* of more rounds"),
            ("^ab+c$", "abbc", "+ of more rounds"),
            ("^ab+c$", "ac", "+ without a round"),
            ("^ab?c$", "ac", "? of no round"),
            ("^ab?c$", "abbc", "? with two rounds"),
            (
                "^(a?)*$",
                "aa",
                "rounds over what fits the empty string, more than one",
            ),
            (
                "^(a?)+$",
                "",
                "rounds over what fits the empty string, none",
            ),
            (
                "(a*)*b",
                "aa",
                "rounds over what fits the empty string, missed",
            ),
            ("(a|b)c", "ac", "the first branch of a group alone"),
            ("(a|b)c", "bc", "a later branch of a group alone"),
            ("a|b", "xa", "the first branch of the whole alone"),
            ("a|b", "xb", "a later branch of the whole alone"),
            ("^(a|ab)c", "abc", "a way that is not the first"),
            ("^a*a$", "aa", "a way that is not the first"),
            ("^a", "ba", "^ that keeps it from fitting"),
            ("a$", "ab", "$ that keeps it from fitting"),
            ("^a$", "bab", "^ and $ on a part"),
            ("^a|b", "xb", "^ of its own branch, another within"),
            ("a|b$", "ax", "$ of its own branch, another within"),
            ("a$", "a\n", "$ before a last LF"),
            ("^|b", "x", "^ as a branch"),
            ("((((((((a))))))))", "a", "depth 8, fits"),
            ("[!a]", "a", "! first in a set"),
            ("a+?b", "b", "marks +?"),
            ("a\\{", "a{", "plain {"),
            ("[a^]", "^", "member ^"),
            ("[a-c]", "c", "last of a range"),
            ("[a-c]", "d", "one after a range"),
        ] {
            assert!(
                meets(pattern, value, corner),
                "{pattern} on {value}: {corner}"
            );
        }
        for (pattern, value, corner) in [
            ("b", "bc", "a stretch within"),
            ("ab*c", "abc", "* of more rounds"),
            ("(a|ab)c", "ac", "a way that is not the first"),
            ("a*b", "aab", "a way that is not the first"),
            ("^a|b", "ab", "^ that keeps it from fitting"),
        ] {
            assert!(
                !meets(pattern, value, corner),
                "{pattern} on {value}: {corner}"
            );
        }
    }
}
