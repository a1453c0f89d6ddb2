//! Patterns of `regex` and the values that they are tried on (document 02, request 13): patterns by the grammar,
//! such that fit a stretch of a value or nearly do, and ill-formed ones of each cause.

use crate::patterns::{escaped, marked_set};
use crate::random::Random;
use crate::{texts, words};

type Parts = Vec<Vec<u8>>;

/// Bytes that mean something outside sets.
const MARKED: &[u8] = b".*+?|()[^$\\";
/// "groups to depth 8"
const DEEPEST: usize = 8;

/// Values of few letters, so that parts of them come again, and of the bytes that patterns use.
pub fn value(random: &mut Random) -> Vec<u8> {
    let length = random.pick(&[0, 1, 1, 1, 2, 3, 4, 6, 9, 14]);
    let from: &[u8] = random.pick(&[
        b"ab".as_slice(),
        b"aab",
        b"abc",
        b".*+?|()",
        b"[]^$\\{}-!",
        b"a\n",
        b"aA\0\xff",
        b"\x01\xfe\0\xff",
    ]);
    match random.below(14) {
        0 => random
            .pick(&[b"Segall".as_slice(), b"segal", b"Bill Segall\n", b"Sega"])
            .to_vec(),
        1 => words::text(random),
        2 => random.bytes(length),
        3 if random.once_in(6) => long(random),
        4 | 5 => row(random, length),
        _ => (0..length).map(|_| random.pick(from)).collect(),
    }
}

/// One byte many times, with or without another at its end.
fn row(random: &mut Random, length: usize) -> Vec<u8> {
    let mut row = vec![b'a'; length];
    match random.below(4) {
        0 => row.push(b'b'),
        1 => row.push(b'\n'),
        _ => (),
    }
    row
}

/// A value of about 1,024 bytes.
fn long(random: &mut Random) -> Vec<u8> {
    let length = random.pick(&[1000, 1022, 1023, 1024, 1024]);
    match random.below(3) {
        0 => [&vec![b'a'; length - 1][..], b"b"].concat(),
        1 => vec![b'a'; length],
        _ => (0..length).map(|_| random.pick(b"aaaab")).collect(),
    }
}

/// Any pattern, most often a well-formed one that has to do with the value.
pub fn pattern(random: &mut Random, value: &[u8]) -> Vec<u8> {
    match random.below(12) {
        0 => raw(random),
        1 => {
            let pattern = well_formed(random, value);
            texts::damaged(random, pattern)
        }
        2 => ill_formed(random, value),
        _ => well_formed(random, value),
    }
}

/// Bytes that mean something in patterns, in no order.
fn raw(random: &mut Random) -> Vec<u8> {
    let length = random.between(0, 9);
    (0..length)
        .map(|_| random.pick(b"aaabb(())||*+?.^$[]-\\{}"))
        .collect()
}

/// A pattern that a stretch of the value fits, or one changed in a place; or one by the grammar alone.
pub fn well_formed(random: &mut Random, value: &[u8]) -> Vec<u8> {
    if random.once_in(30) {
        let anchors: [&[u8]; 4] = [b"^", b"$", b"^$", b"^|$"];
        return random.pick(&anchors).to_vec();
    }
    let (from, to) = stretch(random, value);
    let mut parts = match random.below(14) {
        0 => free(random, value, 3),
        1 => vec![set(random, value.first().copied().unwrap_or(b'm'))],
        2 => vec![single(random, value.first().copied().unwrap_or(b'm'))],
        3 | 4 => vec![hard(random, value)],
        5 => vec![deep(random, &value[from..to], DEEPEST)],
        6 if random.once_in(8) => vec![wide(random, value)],
        _ => fitting(random, &value[from..to], 3),
    };
    if random.once_in(3) {
        change(random, &mut parts, value);
    }
    anchored(random, parts.concat(), value, (from, to))
}

/// The pattern with other branches now and then, and with anchors where the stretch begins or ends, seldom
/// elsewhere.
fn anchored(
    random: &mut Random,
    mut pattern: Vec<u8>,
    value: &[u8],
    ends: (usize, usize),
) -> Vec<u8> {
    for _ in 0..random.pick(&[0, 0, 0, 1, 1, 2]) {
        let other = free(random, value, 2).concat();
        pattern = match random.below(2) {
            0 => [&other[..], b"|", &pattern].concat(),
            _ => [&pattern[..], b"|", &other].concat(),
        };
    }
    let (start, end) = (ends.0 == 0, ends.1 == value.len());
    if random.once_in(if start { 3 } else { 8 }) {
        let anchor: &[u8] = random.pick(&[b"^".as_slice(), b"^", b"^", b"^|"]);
        pattern = [anchor, &pattern].concat();
    }
    if random.once_in(if end { 3 } else { 8 }) {
        pattern.extend(random.pick(&[b"$".as_slice(), b"$", b"$", b"|$"]));
    }
    pattern
}

/// A value and a pattern of which every part tells: the whole value fits, or would but for one part.
pub fn tight(random: &mut Random) -> (Vec<u8>, Vec<u8>) {
    let mut value = value(random);
    value.truncate(12);
    match random.below(12) {
        10 if random.once_in(4) => {
            let long = long(random);
            let pattern = hard(random, &long);
            (long, pattern)
        }
        11 => {
            let value = random
                .pick(&[b"".as_slice(), b"\n", b"\0", b"\xff"])
                .to_vec();
            let anchors: [&[u8]; 4] = [b".", b".", b"^$", b"^.$"];
            (value, random.pick(&anchors).to_vec())
        }
        0 | 1 => {
            value.truncate(1);
            let byte = value.first().copied().unwrap_or(b'm');
            (value, set(random, byte))
        }
        2 => {
            let rounds = random.below(4);
            let (byte, marks) = (plain(random, b'a'), [mark(random), mark(random)]);
            (vec![b'a'; rounds], whole(&[byte, marks.to_vec()].concat()))
        }
        3 => {
            let value = [b"x".repeat(random.below(3)), vec![random.pick(b"ab")]].concat();
            let shape: &[u8] = random.pick(&[
                b"^a|b".as_slice(),
                b"a|b$",
                b"^a|b|x$",
                b"^(a|b)",
                b"(x|xa)b?$",
                b"a$",
            ]);
            (
                [&value[..], random.pick(&[b"".as_slice(), b"x", b"\n"])].concat(),
                shape.to_vec(),
            )
        }
        4 => {
            let pattern = hard(random, &value);
            (value, whole(&pattern))
        }
        _ => {
            let mut parts = fitting(random, &value, 3);
            if random.once_in(2) {
                change(random, &mut parts, &value);
            }
            (value, whole(&parts.concat()))
        }
    }
}

/// The pattern on the whole value.
fn whole(pattern: &[u8]) -> Vec<u8> {
    [b"^", pattern, b"$"].concat()
}

/// Where a stretch begins and ends; it is short, so that patterns do not fill a pool.
fn stretch(random: &mut Random, value: &[u8]) -> (usize, usize) {
    let at = random.below(value.len() + 1);
    let from = random.pick(&[0, 0, at]);
    let most = (value.len() - from).min(14);
    let length = random.below(most + 1);
    (from, from + random.pick(&[most, length]))
}

/// One part left out, put in, or in another's place.
fn change(random: &mut Random, parts: &mut Parts, value: &[u8]) {
    let at = random.below(parts.len());
    let other = part(random, value, 1);
    match random.below(3) {
        0 if parts.len() > 1 => drop(parts.remove(at)),
        1 => parts[at] = other,
        _ => parts.insert(at, other),
    }
}

/// Parts that the whole stretch fits, most often; groups are at most so deep.
fn fitting(random: &mut Random, stretch: &[u8], deep: usize) -> Parts {
    let mut parts = Vec::new();
    let mut rest = stretch;
    while let Some(byte) = rest.first() {
        let some = random.between(1, rest.len().min(6));
        let (part, taken) = match random.below(14) {
            0 => (none(random, *byte), 0),
            1 | 2 if deep > 0 => {
                let taken = random.pick(&[0, some, some]);
                (group(random, &rest[..taken], deep - 1), taken)
            }
            3 if deep > 0 => (each(random, &rest[..some]), some),
            4 | 5 => {
                let same = rest.iter().take_while(|other| *other == byte).count();
                let mark = random.pick(&[b"*".as_slice(), b"+", b"*+", b"+?", b"?+"]);
                let part = [&single(random, *byte)[..], mark].concat();
                (part, random.between(1, same))
            }
            6 => ([single(random, *byte), b"?".to_vec()].concat(), 1),
            _ => (single(random, *byte), 1),
        };
        parts.push(part);
        rest = &rest[taken..];
    }
    if parts.is_empty() {
        parts.push(none(random, b'a'));
    }
    parts
}

/// A part for one byte, which most often fits it.
fn single(random: &mut Random, byte: u8) -> Vec<u8> {
    match random.below(8) {
        0 => b".".to_vec(),
        1 | 2 => set(random, byte),
        _ => plain(random, byte),
    }
}

/// A byte outside a set, with a backslash where it needs one, and now and then another.
fn plain(random: &mut Random, byte: u8) -> Vec<u8> {
    escaped(byte, MARKED.contains(&byte) || random.once_in(10))
}

/// A set about the byte; `!` is plain in it, first too.
fn set(random: &mut Random, byte: u8) -> Vec<u8> {
    let set = marked_set(random, byte, b'^');
    match random.below(6) {
        0 if !b"^-".contains(&set[1]) => [b"[!", &set[1..]].concat(),
        _ => set,
    }
}

fn mark(random: &mut Random) -> u8 {
    random.pick(b"*+?")
}

/// Marks in a row, or none.
fn marks(random: &mut Random) -> Vec<u8> {
    let count = random.pick(&[0, 0, 0, 1, 1, 1, 2, 3]);
    (0..count).map(|_| mark(random)).collect()
}

/// A part that may take nothing.
fn none(random: &mut Random, byte: u8) -> Vec<u8> {
    let first = random.pick(b"*?");
    let byte = random.pick(&[byte, b'a', b'b']);
    [single(random, byte), vec![first], marks(random)].concat()
}

/// A group that the stretch fits, with other branches, and marks.
fn group(random: &mut Random, stretch: &[u8], deep: usize) -> Vec<u8> {
    let mut branches = vec![fitting(random, stretch, deep).concat()];
    for _ in 0..random.pick(&[0, 0, 1, 1, 2]) {
        // a start of the stretch is the branch that is taken too early
        let less = stretch.len().saturating_sub(1);
        let other = match random.below(2) {
            0 => fitting(random, &stretch[..less], 0).concat(),
            _ => free(random, stretch, deep).concat(),
        };
        branches.insert(random.below(branches.len() + 1), other);
    }
    [b"(", &branches.join(&b'|')[..], b")", &marks(random)].concat()
}

/// Rounds of a group of single bytes, of two at a time, or of nothing, that the bytes fit.
fn each(random: &mut Random, bytes: &[u8]) -> Vec<u8> {
    let mut branches: Parts = bytes.iter().map(|byte| plain(random, *byte)).collect();
    branches.push(match random.below(3) {
        0 => bytes
            .iter()
            .take(2)
            .flat_map(|byte| plain(random, *byte))
            .collect(),
        1 => none(random, bytes[0]),
        _ => b"x".to_vec(),
    });
    branches.sort();
    branches.dedup();
    random.shuffle(&mut branches);
    let mark = random.pick(&[b"*".as_slice(), b"+", b"**", b"?*"]);
    [b"(", &branches.join(&b'|')[..], b")", mark].concat()
}

/// Parts by the grammar alone, of letters that the value has.
fn free(random: &mut Random, value: &[u8], deep: usize) -> Parts {
    let count = random.between(1, 3);
    (0..count).map(|_| part(random, value, deep)).collect()
}

fn part(random: &mut Random, value: &[u8], deep: usize) -> Vec<u8> {
    let mut byte = random.pick(b"aabc");
    if !value.is_empty() && random.once_in(2) {
        byte = random.pick(value);
    }
    let atom = match random.below(6) {
        0 if deep > 0 => {
            let count = random.between(1, 3);
            let branches: Parts = (0..count)
                .map(|_| free(random, value, deep - 1).concat())
                .collect();
            [b"(", &branches.join(&b'|')[..], b")"].concat()
        }
        _ => single(random, byte),
    };
    [atom, marks(random)].concat()
}

/// Patterns for which a matcher that goes back tries every way, and rounds over what fits the empty string.
fn hard(random: &mut Random, value: &[u8]) -> Vec<u8> {
    let pick = |random: &mut Random, other: u8| match value {
        [] => other,
        _ if random.once_in(2) => random.pick(value),
        _ => other,
    };
    let (x, y) = (pick(random, b'a'), pick(random, b'b'));
    let (x, y) = (plain(random, x), plain(random, y));
    let shape = random.pick(&[
        "(x*)*y",
        "(x|xx)*y",
        "((x?)+)*y",
        "(x*|y?)+z",
        "(x*x*)*y",
        "(((x*)*)*)*y",
        "(x?y?)*",
        "(x*)+y",
        "(x?)*",
        "(x+)+y",
        "(xy|x)*y",
        "(x|xy)y",
        "(x|x?y)*",
        "(y*x)*y",
    ]);
    let mut pattern = Vec::new();
    for letter in shape.bytes() {
        match letter {
            b'x' => pattern.extend(&x),
            b'y' => pattern.extend(&y),
            other => pattern.push(other),
        }
    }
    pattern
}

/// The stretch in so many groups, each with marks or none.
fn deep(random: &mut Random, stretch: &[u8], depth: usize) -> Vec<u8> {
    let inner = fitting(random, stretch, 0).concat();
    (0..depth).fold(inner, |inner, _| {
        let mark = if random.once_in(3) {
            vec![mark(random)]
        } else {
            Vec::new()
        };
        [b"(", &inner[..], b")", &mark].concat()
    })
}

/// A pattern of about 1,000 bytes.
fn wide(random: &mut Random, value: &[u8]) -> Vec<u8> {
    let mut parts = free(random, value, 2);
    let between: &[u8] = random.pick(&[b"|".as_slice(), b"", b""]);
    while parts.iter().map(Vec::len).sum::<usize>() < 1000 {
        let more = match between.len() {
            0 => none(random, b'c'),
            _ => part(random, b"xyz", 1),
        };
        parts.push(more);
    }
    parts.join(between)
}

/// A pattern that is ill-formed, by one cause most often.
pub fn ill_formed(random: &mut Random, value: &[u8]) -> Vec<u8> {
    let (from, to) = stretch(random, value);
    let mut parts = fitting(random, &value[from..to], 2);
    let at = random.below(parts.len() + 1);
    let high = random.between(1, 255) as u8;
    let (mark, low) = (mark(random), random.below(usize::from(high)) as u8);
    let falls = [b'[', b'\\', high, b'-', b'\\', low, b']'];
    let after = |before: &[u8]| [before, &[mark]].concat();
    let ends = parts.len();
    let (at, bad): (usize, Vec<u8>) = match random.below(18) {
        0 => (ends, b"\\".to_vec()),
        1 => {
            let open: [&[u8]; 7] = [b"[", b"[^", b"[a", b"[a-", b"[a\\]", b"[^\\]*", b"[["];
            (ends, random.pick(&open).to_vec())
        }
        2 => {
            let empty: [&[u8]; 3] = [b"[]", b"[^]", b"[]a]"];
            (at, random.pick(&empty).to_vec())
        }
        3 | 4 => (at, falls.to_vec()),
        5 => (0, b"|".to_vec()),
        6 => {
            let last: [&[u8]; 2] = [b"|", b"||$"];
            (ends, random.pick(&last).to_vec())
        }
        7 => {
            let empty: [&[u8]; 4] = [b"(a|)", b"(|a)", b"(a||b)", b"(|)"];
            (at, random.pick(&empty).to_vec())
        }
        8 => (at, b"()".to_vec()),
        9 => (0, vec![mark]),
        10 => (0, after(b"^")),
        11 => (at, [&after(b"(")[..], b"a)"].concat()),
        12 => (ends, after(b"|")),
        13 => (at, b")".to_vec()),
        14 => (at, b"(".to_vec()),
        15 => {
            let elsewhere: [&[u8]; 4] = [b"^", b"a^", b"(^a)", b"|^a"];
            (at.max(1), random.pick(&elsewhere).to_vec())
        }
        16 => {
            let elsewhere: [&[u8]; 3] = [b"$", b"(a$)", b"$|a"];
            (at.min(ends - 1), random.pick(&elsewhere).to_vec())
        }
        _ => (at, deep(random, b"a", DEEPEST + 1)),
    };
    parts.insert(at, bad);
    match random.below(40) {
        0 => Vec::new(),
        _ => parts.concat(),
    }
}

/// A pattern of just so many bytes, which is over 20, and a part of it that may fit.
pub fn of_length(random: &mut Random, length: usize) -> (Vec<u8>, Vec<u8>) {
    let letters: Vec<u8> = (0..random.between(1, 9))
        .map(|_| random.pick(b"ab"))
        .collect();
    let (start, fill, end): (&[u8], u8, &[u8]) = match random.below(5) {
        0 => (&[&letters[..], b"*"].concat(), b'*', b""),
        1 => (&[b"^", &letters[..], b"(x|"].concat(), b'y', b")*$"),
        2 => (&[b"x|", &letters[..], b"[x"].concat(), b'y', b"]"),
        3 => (&[b"[", &letters[..], b"]+|"].concat(), b'x', b"*$"),
        _ => (&[b"^", &letters[..], b"(x|"].concat(), b'y', b")$"),
    };
    let mut pattern = start.to_vec();
    pattern.resize(length - end.len(), fill);
    pattern.extend(end);
    (pattern, letters)
}

#[cfg(test)]
mod tests {
    use super::*;
    use crate::regex::FAULTS;
    use reference::regex::{Fault, Regex};

    /// Many patterns, each with its value.
    fn many(of: fn(&mut Random, &[u8]) -> Vec<u8>) -> Vec<(Vec<u8>, Vec<u8>)> {
        (0..6000)
            .map(|case| {
                let mut random = Random::of_case(1, case);
                let value = value(&mut random);
                (of(&mut random, &value), value)
            })
            .collect()
    }

    #[test]
    fn well_formed_ones_are_and_fit_often() {
        let patterns = many(well_formed);
        let fits = |(pattern, value): &(Vec<u8>, Vec<u8>)| match Regex::of(pattern) {
            Ok(regex) => regex.fits(value),
            Err(fault) => panic!("{fault:?}: {}", String::from_utf8_lossy(pattern)),
        };
        let fitting = patterns.iter().filter(|one| fits(one)).count();
        assert!((2000..5200).contains(&fitting), "{fitting}");
    }

    #[test]
    fn ill_formed_ones_are_by_each_cause() {
        let faults: Vec<Fault> = many(ill_formed)
            .iter()
            .map(|(pattern, _)| {
                let fault = Regex::of(pattern).err();
                fault.unwrap_or_else(|| panic!("{}", String::from_utf8_lossy(pattern)))
            })
            .collect();
        for fault in FAULTS {
            let count = faults.iter().filter(|one| **one == fault).count();
            assert!(count > 80, "{fault:?}: {count}");
        }
    }

    #[test]
    fn lengths_are_as_asked_for() {
        for case in 0..200 {
            let mut random = Random::of_case(2, case);
            let length = random.pick(&[32, 4096]);
            let (pattern, _) = of_length(&mut random, length);
            assert_eq!(pattern.len(), length);
            assert!(Regex::of(&pattern).is_ok(), "{case}");
        }
    }
}
