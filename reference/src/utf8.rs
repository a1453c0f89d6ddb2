//! Document 02, request 2: the characters of a string. Words in quotes are those of RFC 3629, section 4,
//! "Syntax of UTF-8 Byte Sequences".

use std::ops::RangeInclusive;

/// The octets that may stand at one place of a character.
type Octets = RangeInclusive<u8>;

/// "UTF8-tail = %x80-BF"
const TAIL: Octets = 0x80..=0xbf;

/// "UTF8-char = UTF8-1 / UTF8-2 / UTF8-3 / UTF8-4": every way to spell a character, octet by octet.
pub const CHARACTERS: [&[Octets]; 9] = [
    // "UTF8-1 = %x00-7F"
    &[0x00..=0x7f],
    // "UTF8-2 = %xC2-DF UTF8-tail"
    &[0xc2..=0xdf, TAIL],
    // "UTF8-3 = %xE0 %xA0-BF UTF8-tail / %xE1-EC 2( UTF8-tail ) /
    //           %xED %x80-9F UTF8-tail / %xEE-EF 2( UTF8-tail )"
    &[0xe0..=0xe0, 0xa0..=0xbf, TAIL],
    &[0xe1..=0xec, TAIL, TAIL],
    &[0xed..=0xed, 0x80..=0x9f, TAIL],
    &[0xee..=0xef, TAIL, TAIL],
    // "UTF8-4 = %xF0 %x90-BF 2( UTF8-tail ) / %xF1-F3 3( UTF8-tail ) /
    //           %xF4 %x80-8F 2( UTF8-tail )"
    &[0xf0..=0xf0, 0x90..=0xbf, TAIL, TAIL],
    &[0xf1..=0xf3, TAIL, TAIL, TAIL],
    &[0xf4..=0xf4, 0x80..=0x8f, TAIL, TAIL],
];

/// How many bytes the character at the start has; none if no character stands there.
pub fn first(bytes: &[u8]) -> Option<usize> {
    let stands = |spelling: &&[Octets]| {
        let mut octets = spelling.iter().enumerate();
        octets.all(|(at, octet)| bytes.get(at).is_some_and(|byte| octet.contains(byte)))
    };
    CHARACTERS.into_iter().find(stands).map(<[Octets]>::len)
}

/// "UTF8-octets = *( UTF8-char )": how many characters the bytes are; none if they are ill-formed.
pub fn characters(bytes: &[u8]) -> Option<usize> {
    let (mut rest, mut count) = (bytes, 0);
    while !rest.is_empty() {
        rest = &rest[first(rest)?..];
        count += 1;
    }
    Some(count)
}

#[cfg(test)]
mod tests {
    use super::*;

    /// What Rust's own library says.
    fn by_rust(bytes: &[u8]) -> Option<usize> {
        let text = std::str::from_utf8(bytes).ok()?;
        Some(text.chars().count())
    }

    fn agrees(bytes: &[u8]) {
        assert_eq!(characters(bytes), by_rust(bytes), "{bytes:02x?}");
    }

    /// Bytes at an end of a range of the grammar, or one outside it.
    const EDGES: [u8; 22] = [
        0x00, 0x41, 0x7f, 0x80, 0x8f, 0x90, 0x9f, 0xa0, 0xbf, 0xc0, 0xc1, 0xc2, 0xdf, 0xe0, 0xec,
        0xed, 0xef, 0xf0, 0xf3, 0xf4, 0xf5, 0xff,
    ];

    #[test]
    fn every_string_of_up_to_three_bytes() {
        agrees(&[]);
        for a in 0..=255 {
            agrees(&[a]);
            for b in 0..=255 {
                agrees(&[a, b]);
                (0..=255).for_each(|c| agrees(&[a, b, c]));
            }
        }
    }

    #[test]
    fn four_bytes_with_every_first_and_second() {
        for a in 0xc0..=255 {
            for b in 0..=255 {
                for c in EDGES {
                    EDGES.iter().for_each(|d| agrees(&[a, b, c, *d]));
                }
            }
        }
    }

    #[test]
    fn every_code_point_is_one_character() {
        let mut bytes = [0; 4];
        let mut points = 0;
        for point in (0..=0x10ffff).filter_map(char::from_u32) {
            let spelled = point.encode_utf8(&mut bytes).as_bytes();
            assert_eq!(characters(spelled), Some(1), "{point:?}");
            points += 1;
        }
        assert_eq!(points, 0x110000 - 0x800);
    }

    /// RFC 3629, section 7, and what its section 3 calls invalid.
    #[test]
    fn the_examples_of_the_rfc() {
        let counted = [
            (&b"\x41\xe2\x89\xa2\xce\x91\x2e"[..], Some(4)),
            (b"\xed\x95\x9c\xea\xb5\xad\xec\x96\xb4", Some(3)),
            (b"\xe6\x97\xa5\xe6\x9c\xac\xe8\xaa\x9e", Some(3)),
            // with the byte order mark, which is a character
            (b"\xef\xbb\xbf\xf0\xa3\x8e\xb4", Some(2)),
            (b"\xc0\x80", None),
            (b"\xed\xa1\x8c\xed\xbe\xb4", None),
            (b"/\xc0\xae./", None),
        ];
        for (bytes, count) in counted {
            assert_eq!(characters(bytes), count, "{bytes:02x?}");
        }
    }
}
