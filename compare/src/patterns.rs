//! Wildcard patterns and the values that they are tried on (document 02, request 1): patterns that fit
//! a value or nearly do, and ill-formed ones of each cause.

use crate::random::Random;
use crate::words;

/// Values of few letters, so that parts of them come again, and of the bytes that patterns use.
pub fn value(random: &mut Random) -> Vec<u8> {
    let length = random.pick(&[0, 1, 1, 1, 2, 3, 5, 8, 13]);
    let from: &[u8] = random.pick(&[
        b"ab".as_slice(),
        b"aab-",
        b"*?[]\\!-",
        b"aA\0\xff",
        b"\x01\xfe\0\xff",
    ]);
    match random.below(12) {
        0 => random
            .pick(&[b"T-41".as_slice(), b"T-4", b"T-412", b"V", b"V-17", b"v"])
            .to_vec(),
        1 => words::text(random),
        2 => random.bytes(length),
        3 if random.once_in(8) => long(random),
        _ => (0..length).map(|_| random.pick(from)).collect(),
    }
}

/// A value of about 1,024 bytes of few letters.
fn long(random: &mut Random) -> Vec<u8> {
    let length = random.pick(&[1000, 1023, 1024, 1024]);
    (0..length).map(|_| random.pick(b"aaaab")).collect()
}

/// Any pattern, most often a well-formed one that has to do with the value.
pub fn pattern(random: &mut Random, value: &[u8]) -> Vec<u8> {
    match random.below(16) {
        0 => raw(random),
        1 => ill_formed(random, value),
        _ => well_formed(random, value),
    }
}

/// A pattern that fits the value, or is changed in one place.
pub fn well_formed(random: &mut Random, value: &[u8]) -> Vec<u8> {
    let mut parts = match random.below(12) {
        0 => (0..random.below(4)).map(|_| part(random, b'a')).collect(),
        1 | 2 => vec![set(random, value.first().copied().unwrap_or(b'm'))],
        _ => fitting(random, value),
    };
    if random.once_in(3) {
        let at = random.below(parts.len() + 1);
        match random.below(4) {
            0 if at < parts.len() => drop(parts.remove(at)),
            1 if at < parts.len() => {
                let byte = random.byte();
                parts[at] = part(random, byte);
            }
            2 => parts.insert(at, b"?".to_vec()),
            _ => parts.insert(at, b"*".to_vec()),
        }
    }
    parts.concat()
}

/// Parts that the whole value fits.
fn fitting(random: &mut Random, value: &[u8]) -> Vec<Vec<u8>> {
    // a long value has long runs, so that patterns do not fill a pool
    let longest = if value.len() > 100 { value.len() } else { 4 };
    let mut parts = Vec::new();
    let mut at = 0;
    while at < value.len() {
        if random.once_in(4) {
            parts.push(b"*".to_vec());
            at += random.below(longest);
        } else {
            parts.push(part(random, value[at]));
            at += 1;
        }
    }
    if random.once_in(6) {
        parts.push(b"*".to_vec());
    }
    parts
}

/// A part for one byte, which most often fits it.
fn part(random: &mut Random, byte: u8) -> Vec<u8> {
    match random.below(8) {
        0 | 1 => b"?".to_vec(),
        2..=4 => set(random, byte),
        _ => plain(random, byte),
    }
}

/// A byte outside a set, with a backslash where it needs one, and now and then another.
fn plain(random: &mut Random, byte: u8) -> Vec<u8> {
    let needed = b"*?[\\".contains(&byte);
    escaped(byte, needed || random.once_in(8))
}

pub fn escaped(byte: u8, escape: bool) -> Vec<u8> {
    match escape {
        true => vec![b'\\', byte],
        false => vec![byte],
    }
}

fn set(random: &mut Random, byte: u8) -> Vec<u8> {
    marked_set(random, byte, b'!')
}

/// A set about the byte, with a mark of the complement: members and ranges that hold the byte, end beside it or
/// have nothing to do with it.
pub fn marked_set(random: &mut Random, byte: u8, mark: u8) -> Vec<u8> {
    let complement = random.once_in(3);
    let mut members = vec![about(random, byte)];
    for _ in 0..random.pick(&[0, 0, 1, 1, 2, 3]) {
        let other = random.pick(&[
            b'a', b'b', b'-', b']', mark, b'[', b'\\', b'*', b'?', b'Z', 0, 255,
        ]);
        let more = about(random, other);
        members.insert(random.below(members.len() + 1), more);
    }
    // an unescaped `-` at either end is plain, and so is a mark that is not the first
    match random.below(8) {
        0 => members.insert(0, b"-".to_vec()),
        1 => members.push(b"-".to_vec()),
        2 => members.push(vec![mark]),
        _ => (),
    }
    if !complement && members[0][0] == mark {
        members[0].insert(0, b'\\');
    }
    let mark: &[u8] = if complement { &[mark] } else { b"" };
    [b"[", mark, &members.concat(), b"]"].concat()
}

/// The byte as a member of a set, or a range that begins, ends or lies at it, or just beside it.
fn about(random: &mut Random, byte: u8) -> Vec<u8> {
    let far = random.pick(&[1, 1, 2, 25, 255]);
    let (from, to) = match random.below(8) {
        0 => (byte, byte.saturating_add(far)),
        1 => (byte.saturating_sub(far), byte),
        2 => (byte.saturating_sub(far), byte.saturating_add(far)),
        3 => (
            byte.saturating_add(1),
            byte.saturating_add(1).saturating_add(far),
        ),
        4 => (
            byte.saturating_sub(1).saturating_sub(far),
            byte.saturating_sub(1),
        ),
        5 => (byte, byte),
        _ => return member(random, byte),
    };
    [member(random, from), b"-".to_vec(), member(random, to)].concat()
}

/// A byte within a set, with a backslash where it needs one, and now and then another.
fn member(random: &mut Random, byte: u8) -> Vec<u8> {
    let needed = b"]\\-".contains(&byte);
    escaped(byte, needed || random.once_in(8))
}

/// Bytes that mean something in patterns, in no order.
fn raw(random: &mut Random) -> Vec<u8> {
    let length = random.between(0, 9);
    (0..length)
        .map(|_| random.pick(b"[[]]!--\\*?abz"))
        .collect()
}

/// A pattern that is ill-formed, by one cause most often.
pub fn ill_formed(random: &mut Random, value: &[u8]) -> Vec<u8> {
    let mut pattern = fitting(random, value).concat();
    let (from, to) = (random.byte(), random.byte());
    let falls = [
        b"[".to_vec(),
        match from.max(to).max(1) {
            b'!' => b"\\!".to_vec(),
            high => member(random, high),
        },
        b"-".to_vec(),
        member(random, from.min(to).min(from.max(to).max(1) - 1)),
        b"]".to_vec(),
    ]
    .concat();
    let tail: &[u8] = match random.below(6) {
        0 => b"\\",
        1 => random.pick(&[
            b"[".as_slice(),
            b"[!",
            b"[a",
            b"[a-",
            b"[a\\]",
            b"[!\\]*",
            b"[[",
            b"[\\",
        ]),
        2 => random.pick(&[b"[]".as_slice(), b"[!]", b"[]a]", b"[!]]", b"[]*"]),
        3 => random.pick(&[
            b"[b-a]".as_slice(),
            b"[a--]",
            b"[a-cb-a]",
            b"[!\\b-\\a]",
            b"[\xff-\0]",
        ]),
        _ => &falls,
    };
    pattern.extend(tail);
    pattern
}

#[cfg(test)]
mod tests {
    use super::*;
    use reference::wildcard::{Fault, Pattern};

    /// Many patterns, each with its value.
    fn many(of: fn(&mut Random, &[u8]) -> Vec<u8>) -> Vec<(Vec<u8>, Vec<u8>)> {
        (0..4000)
            .map(|case| {
                let mut random = Random::of_case(1, case);
                let value = value(&mut random);
                (of(&mut random, &value), value)
            })
            .collect()
    }

    #[test]
    fn well_formed_ones_are_and_fit_often() {
        let patterns = many(well_formed);
        let fits = |(pattern, value): &(Vec<u8>, Vec<u8>)| match Pattern::of(pattern) {
            Ok(pattern) => pattern.fits(value),
            Err(fault) => panic!("{fault:?}: {}", String::from_utf8_lossy(pattern)),
        };
        let fitting = patterns.iter().filter(|one| fits(one)).count();
        assert!((1000..3500).contains(&fitting), "{fitting}");
    }

    #[test]
    fn ill_formed_ones_are_by_each_cause() {
        let faults: Vec<Fault> = many(ill_formed)
            .iter()
            .map(|(pattern, _)| Pattern::of(pattern).expect_err("ill-formed"))
            .collect();
        let of = |fault: Fault| faults.iter().filter(|one| **one == fault).count();
        for fault in [
            Fault::Unclosed,
            Fault::Empty,
            Fault::Falls,
            Fault::LastBackslash,
        ] {
            assert!(of(fault) > 300, "{fault:?}");
        }
    }
}
