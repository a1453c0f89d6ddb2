//! Where `size` of a string turns (document 02, request 2), for the corners of op 7. What the bytes are is
//! told by Rust's own library.

use crate::corners::{Corner, Visit};
use crate::operands::{opaque_bytes, text};
use reference::op::Op;
use std::str::from_utf8;

const SIZE: &[Op] = &[Op::Size];

/// The operand as characters and, from the first fault on, the rest; no characters if it is no string.
fn split<'a>(v: &'a Visit) -> Option<(&'a str, &'a [u8])> {
    let bytes = text(&v.operands[0])?;
    let end = from_utf8(bytes).map_or_else(|fault| fault.valid_up_to(), str::len);
    let (characters, rest) = bytes.split_at(end);
    Some((from_utf8(characters).ok()?, rest))
}

/// The characters of a well-formed string.
fn well_formed<'a>(v: &'a Visit) -> Option<&'a str> {
    split(v)
        .filter(|(_, rest)| rest.is_empty())
        .map(|(characters, _)| characters)
}

fn holds(v: &Visit, point: char) -> bool {
    well_formed(v).is_some_and(|text| text.contains(point))
}

/// How many bytes the characters have, each number once.
fn widths(v: &Visit) -> Vec<usize> {
    let text = well_formed(v).unwrap_or_default();
    let mut widths: Vec<usize> = text.chars().map(char::len_utf8).collect();
    widths.sort();
    widths.dedup();
    widths
}

/// So many characters, all of so many bytes.
fn alike(v: &Visit, count: usize, width: usize) -> bool {
    widths(v) == [width] && well_formed(v).is_some_and(|text| text.chars().count() == count)
}

/// The bytes before the first that is not ASCII.
fn ascii_before(bytes: &[u8]) -> usize {
    bytes.iter().take_while(|byte| byte.is_ascii()).count()
}

/// Well-formed, with so many ASCII bytes before the first character of more bytes.
fn other_behind(v: &Visit, count: usize) -> bool {
    let before = well_formed(v).map(|text| (ascii_before(text.as_bytes()), text.len()));
    before.is_some_and(|(before, length)| before == count && before < length)
}

/// Nothing but so many ASCII bytes before the first fault.
fn fault_behind(v: &Visit, count: usize) -> bool {
    split(v).is_some_and(|(characters, rest)| {
        characters.is_ascii() && characters.len() == count && !rest.is_empty()
    })
}

fn is_tail(byte: &u8) -> bool {
    (0x80..=0xbf).contains(byte)
}

/// The fault begins with those bytes, and what stands behind them and the bytes 80 to BF after them is
/// well-formed.
fn fault(v: &Visit, bytes: &[u8]) -> bool {
    let after = split(v).and_then(|(_, rest)| rest.strip_prefix(bytes));
    after.is_some_and(|after| {
        let tails = after.iter().take_while(|byte| is_tail(byte)).count();
        from_utf8(&after[tails..]).is_ok()
    })
}

/// The fault is a character of `of` bytes that has only its first `have`, and then the string ends, or
/// it goes on with characters.
fn cut(v: &Visit, have: usize, of: usize, at_end: bool) -> bool {
    let Some((_, rest)) = split(v).filter(|(_, rest)| rest.len() >= have) else {
        return false;
    };
    let (part, after) = rest.split_at(have);
    let width = part.first().map_or(0, |lead| lead.leading_ones());
    // a string that ends within a character has no length of its fault
    let begun = from_utf8(part).is_err_and(|fault| fault.error_len().is_none());
    width as usize == of && begun && after.is_empty() == at_end && from_utf8(after).is_ok()
}

/// The first fault is within the last four bytes.
fn fault_near_end(v: &Visit) -> bool {
    split(v).is_some_and(|(_, rest)| (1..=4).contains(&rest.len()))
}

/// An opaque value as a text, none if it is ill-formed.
fn opaque(v: &Visit, is: fn(Option<&str>) -> bool) -> bool {
    opaque_bytes(&v.operands[0]).is_some_and(|bytes| is(from_utf8(bytes).ok()))
}

/// Corners of characters.
pub const SIZES: [Corner; 88] = [
    ("U+0000", SIZE, |v| holds(v, '\u{0}')),
    ("U+007F", SIZE, |v| holds(v, '\u{7f}')),
    ("U+0080", SIZE, |v| holds(v, '\u{80}')),
    ("U+07FF", SIZE, |v| holds(v, '\u{7ff}')),
    ("U+0800", SIZE, |v| holds(v, '\u{800}')),
    ("U+D7FF", SIZE, |v| holds(v, '\u{d7ff}')),
    ("U+E000", SIZE, |v| holds(v, '\u{e000}')),
    ("U+FEFF", SIZE, |v| holds(v, '\u{feff}')),
    ("U+FFFF", SIZE, |v| holds(v, '\u{ffff}')),
    ("U+10000", SIZE, |v| holds(v, '\u{10000}')),
    ("U+10FFFF", SIZE, |v| holds(v, '\u{10ffff}')),
    ("other character behind 0 of one byte", SIZE, |v| {
        other_behind(v, 0)
    }),
    ("other character behind 1 of one byte", SIZE, |v| {
        other_behind(v, 1)
    }),
    ("other character behind 7 of one byte", SIZE, |v| {
        other_behind(v, 7)
    }),
    ("other character behind 8 of one byte", SIZE, |v| {
        other_behind(v, 8)
    }),
    ("other character behind 9 of one byte", SIZE, |v| {
        other_behind(v, 9)
    }),
    ("other character behind 15 of one byte", SIZE, |v| {
        other_behind(v, 15)
    }),
    ("other character behind 16 of one byte", SIZE, |v| {
        other_behind(v, 16)
    }),
    ("other character behind 17 of one byte", SIZE, |v| {
        other_behind(v, 17)
    }),
    ("other character behind 31 of one byte", SIZE, |v| {
        other_behind(v, 31)
    }),
    ("other character behind 32 of one byte", SIZE, |v| {
        other_behind(v, 32)
    }),
    ("other character behind 33 of one byte", SIZE, |v| {
        other_behind(v, 33)
    }),
    ("fault behind 0 of one byte", SIZE, |v| fault_behind(v, 0)),
    ("fault behind 1 of one byte", SIZE, |v| fault_behind(v, 1)),
    ("fault behind 7 of one byte", SIZE, |v| fault_behind(v, 7)),
    ("fault behind 8 of one byte", SIZE, |v| fault_behind(v, 8)),
    ("fault behind 9 of one byte", SIZE, |v| fault_behind(v, 9)),
    ("fault behind 15 of one byte", SIZE, |v| fault_behind(v, 15)),
    ("fault behind 16 of one byte", SIZE, |v| fault_behind(v, 16)),
    ("fault behind 17 of one byte", SIZE, |v| fault_behind(v, 17)),
    ("fault behind 31 of one byte", SIZE, |v| fault_behind(v, 31)),
    ("fault behind 32 of one byte", SIZE, |v| fault_behind(v, 32)),
    ("fault behind 33 of one byte", SIZE, |v| fault_behind(v, 33)),
    ("1 of 2 bytes, then the end", SIZE, |v| cut(v, 1, 2, true)),
    ("1 of 2 bytes, then others", SIZE, |v| cut(v, 1, 2, false)),
    ("1 of 3 bytes, then the end", SIZE, |v| cut(v, 1, 3, true)),
    ("1 of 3 bytes, then others", SIZE, |v| cut(v, 1, 3, false)),
    ("2 of 3 bytes, then the end", SIZE, |v| cut(v, 2, 3, true)),
    ("2 of 3 bytes, then others", SIZE, |v| cut(v, 2, 3, false)),
    ("1 of 4 bytes, then the end", SIZE, |v| cut(v, 1, 4, true)),
    ("1 of 4 bytes, then others", SIZE, |v| cut(v, 1, 4, false)),
    ("2 of 4 bytes, then the end", SIZE, |v| cut(v, 2, 4, true)),
    ("2 of 4 bytes, then others", SIZE, |v| cut(v, 2, 4, false)),
    ("3 of 4 bytes, then the end", SIZE, |v| cut(v, 3, 4, true)),
    ("3 of 4 bytes, then others", SIZE, |v| cut(v, 3, 4, false)),
    ("80", SIZE, |v| fault(v, &[0x80])),
    ("BF", SIZE, |v| fault(v, &[0xbf])),
    ("C0 80", SIZE, |v| fault(v, &[0xc0, 0x80])),
    ("C1 BF", SIZE, |v| fault(v, &[0xc1, 0xbf])),
    ("E0 80 80", SIZE, |v| fault(v, &[0xe0, 0x80, 0x80])),
    ("E0 9F BF", SIZE, |v| fault(v, &[0xe0, 0x9f, 0xbf])),
    ("F0 80 80 80", SIZE, |v| fault(v, &[0xf0, 0x80, 0x80, 0x80])),
    ("F0 8F BF BF", SIZE, |v| fault(v, &[0xf0, 0x8f, 0xbf, 0xbf])),
    ("ED A0 80", SIZE, |v| fault(v, &[0xed, 0xa0, 0x80])),
    ("ED AF BF", SIZE, |v| fault(v, &[0xed, 0xaf, 0xbf])),
    ("ED B0 80", SIZE, |v| fault(v, &[0xed, 0xb0, 0x80])),
    ("ED BF BF", SIZE, |v| fault(v, &[0xed, 0xbf, 0xbf])),
    ("F4 90 80 80", SIZE, |v| fault(v, &[0xf4, 0x90, 0x80, 0x80])),
    ("F5", SIZE, |v| fault(v, &[0xf5])),
    ("F7 BF BF BF", SIZE, |v| fault(v, &[0xf7, 0xbf, 0xbf, 0xbf])),
    ("F8", SIZE, |v| fault(v, &[0xf8])),
    ("FE", SIZE, |v| fault(v, &[0xfe])),
    ("FF", SIZE, |v| fault(v, &[0xff])),
    ("C2 7F", SIZE, |v| fault(v, &[0xc2, 0x7f])),
    ("DF C0", SIZE, |v| fault(v, &[0xdf, 0xc0])),
    ("E0 C0", SIZE, |v| fault(v, &[0xe0, 0xc0])),
    ("E1 7F", SIZE, |v| fault(v, &[0xe1, 0x7f])),
    ("EC C0", SIZE, |v| fault(v, &[0xec, 0xc0])),
    ("ED 7F", SIZE, |v| fault(v, &[0xed, 0x7f])),
    ("EE 7F", SIZE, |v| fault(v, &[0xee, 0x7f])),
    ("EF C0", SIZE, |v| fault(v, &[0xef, 0xc0])),
    ("F0 C0", SIZE, |v| fault(v, &[0xf0, 0xc0])),
    ("F1 7F", SIZE, |v| fault(v, &[0xf1, 0x7f])),
    ("F3 C0", SIZE, |v| fault(v, &[0xf3, 0xc0])),
    ("F4 7F", SIZE, |v| fault(v, &[0xf4, 0x7f])),
    ("E1 80 7F", SIZE, |v| fault(v, &[0xe1, 0x80, 0x7f])),
    ("EC BF C0", SIZE, |v| fault(v, &[0xec, 0xbf, 0xc0])),
    ("F1 80 7F", SIZE, |v| fault(v, &[0xf1, 0x80, 0x7f])),
    ("F3 BF C0", SIZE, |v| fault(v, &[0xf3, 0xbf, 0xc0])),
    ("F1 80 80 7F", SIZE, |v| fault(v, &[0xf1, 0x80, 0x80, 0x7f])),
    ("F3 BF BF C0", SIZE, |v| fault(v, &[0xf3, 0xbf, 0xbf, 0xc0])),
    ("characters of 1 to 4 bytes", SIZE, |v| {
        widths(v) == [1, 2, 3, 4]
    }),
    ("512 characters of 2 bytes", SIZE, |v| alike(v, 512, 2)),
    ("341 characters of 3 bytes", SIZE, |v| alike(v, 341, 3)),
    ("256 characters of 4 bytes", SIZE, |v| alike(v, 256, 4)),
    ("1024 bytes, a fault at the end", SIZE, |v| {
        v.text_of(1024) && fault_near_end(v)
    }),
    ("opaque of fewer characters", SIZE, |v| {
        opaque(v, |text| text.is_some_and(|text| !text.is_ascii()))
    }),
    ("opaque, ill-formed", SIZE, |v| {
        opaque(v, |text| text.is_none())
    }),
];
