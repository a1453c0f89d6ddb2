//! Strings for `size` (document 02, request 2): characters of one to four bytes, those at the ends of
//! RFC 3629's ranges, and strings that one fault keeps from being well-formed.

use crate::random::Random;
use reference::utf8::CHARACTERS;

/// Code points at which the number of bytes, or whether there is a character, turns; the byte order
/// mark and two that are no characters of any script, which count as others do.
const POINTS: [char; 14] = [
    '\0',
    '\u{7f}',
    '\u{80}',
    '\u{7ff}',
    '\u{800}',
    '\u{d7ff}',
    '\u{e000}',
    '\u{feff}',
    '\u{fdd0}',
    '\u{fffe}',
    '\u{ffff}',
    '\u{10000}',
    '\u{10fffe}',
    '\u{10ffff}',
];
const ACCENTED: [char; 6] = ['é', 'É', 'ü', 'ß', 'Å', 'ñ'];
const HAN: [char; 4] = ['出', '租', '车', '号'];
const EMOJI: [char; 3] = ['🚕', '🚗', '🏁'];

fn spelled(point: char) -> Vec<u8> {
    point.to_string().into_bytes()
}

fn ascii(random: &mut Random, length: usize) -> Vec<u8> {
    (0..length).map(|_| random.pick(b"AZaz@[`{ 19")).collect()
}

/// A run of ASCII bytes, or one character that has more bytes or is at an end.
fn piece(random: &mut Random) -> Vec<u8> {
    let any = (random.word() % 0x110000) as u32;
    match random.below(9) {
        0 => spelled(random.pick(&POINTS)),
        1 | 2 => spelled(random.pick(&ACCENTED)),
        3 => spelled(random.pick(&HAN)),
        4 => spelled(random.pick(&EMOJI)),
        5 => spelled(char::from_u32(any).unwrap_or('\u{fffd}')),
        _ => {
            let length = random.pick(&[1, 1, 2, 3, 7, 8, 9, 15, 16, 17, 24]);
            ascii(random, length)
        }
    }
}

/// The pieces of a well-formed string.
fn pieces(random: &mut Random) -> Vec<Vec<u8>> {
    let count = random.pick(&[0, 1, 1, 2, 3, 4, 6, 9]);
    match random.below(12) {
        // ASCII alone before one other character, or before a fault
        0..=2 => {
            let length = random.pick(&[0, 1, 7, 8, 9, 15, 16, 17, 23, 24, 25, 31, 32, 33, 34]);
            let other = match random.below(2) {
                0 => Vec::new(),
                _ => spelled(random.pick(&ACCENTED)),
            };
            vec![ascii(random, length), other]
        }
        3 => vec![spelled(random.pick(&POINTS))],
        4 if random.once_in(2) => long(random),
        _ => (0..count).map(|_| piece(random)).collect(),
    }
}

/// Characters of one length to the end of a field, or now and then to that of a pool, or just before.
fn long(random: &mut Random) -> Vec<Vec<u8>> {
    let most = random.pick(&[1023, 1024, 1024, 4095]);
    let kinds = [&['a'][..], &ACCENTED, &HAN, &EMOJI];
    let kind = random.pick(&kinds);
    let width = kind[0].len_utf8();
    let mut all: Vec<Vec<u8>> = (0..most / width)
        .map(|_| spelled(random.pick(kind)))
        .collect();
    if random.once_in(3) {
        all.push(b"z".repeat(most % width));
    }
    all
}

/// A string of characters, as often as not with one fault.
pub fn string(random: &mut Random) -> Vec<u8> {
    let mut pieces = pieces(random);
    if random.once_in(2) {
        let fault = fault(random);
        let at = match random.below(3) {
            0 => pieces.len(),
            _ => random.below(pieces.len() + 1),
        };
        pieces.insert(at, fault);
    }
    pieces.concat()
}

/// Bytes that are no characters.
fn fault(random: &mut Random) -> Vec<u8> {
    match random.below(8) {
        0 | 1 => cut(random),
        2..=4 => outside(random),
        5 => {
            let (value, width) = random.pick(&[
                (0, 2),
                (0x41, 2),
                (0x7f, 2),
                (0, 3),
                (0x7ff, 3),
                (0, 4),
                (0xffff, 4),
            ]);
            by_bits(value, width)
        }
        6 => {
            let value =
                random.pick(&[0xd800, 0xdbff, 0xdc00, 0xdfff, 0x110000, 0x13ffff, 0x1fffff]);
            by_bits(value, if value < 0x10000 { 3 } else { 4 })
        }
        _ => vec![random.pick(&[0x80, 0xbf, 0xc0, 0xc1, 0xf5, 0xf8, 0xfc, 0xfe, 0xff])],
    }
}

/// A character without its last bytes.
fn cut(random: &mut Random) -> Vec<u8> {
    let points = [&ACCENTED[..], &HAN, &EMOJI].concat();
    let mut bytes = spelled(random.pick(&points));
    bytes.truncate(random.between(1, bytes.len() - 1));
    bytes
}

/// The bytes that RFC 3629's table has for a number, also where it names fewer bytes or none.
fn by_bits(value: u32, width: usize) -> Vec<u8> {
    let tails = (1..width).rev();
    let lead = (0xf00_u32 >> width) as u8 | (value >> (6 * (width - 1))) as u8;
    let tail = |at: usize| 0x80 | (value >> (6 * (at - 1))) as u8 & 0x3f;
    std::iter::once(lead).chain(tails.map(tail)).collect()
}

/// A character of a form of the grammar, but for one byte behind the first, which stands just before or
/// just behind its range. The others are the first or the last of theirs, or any.
fn outside(random: &mut Random) -> Vec<u8> {
    let form = random.pick(&CHARACTERS[1..]);
    let (behind, at) = (random.once_in(2), random.between(1, form.len() - 1));
    let at_end = !random.once_in(4);
    let mut bytes: Vec<u8> = form
        .iter()
        .map(|octets| match (at_end, behind) {
            (true, false) => *octets.start(),
            (true, true) => *octets.end(),
            _ => random.between((*octets.start()).into(), (*octets.end()).into()) as u8,
        })
        .collect();
    bytes[at] = match behind {
        true => form[at].end() + 1,
        false => form[at].start() - 1,
    };
    bytes
}

#[cfg(test)]
mod tests {
    use super::*;

    #[test]
    fn bytes_of_numbers_are_those_of_rust_where_it_has_them() {
        let wide = POINTS.into_iter().filter(|point| !point.is_ascii());
        for point in wide.chain(ACCENTED).chain(HAN).chain(EMOJI) {
            assert_eq!(by_bits(point.into(), point.len_utf8()), spelled(point));
        }
        assert_eq!(by_bits(0x7f, 2), [0xc1, 0xbf]);
        assert_eq!(by_bits(0xdfff, 3), [0xed, 0xbf, 0xbf]);
        assert_eq!(by_bits(0x110000, 4), [0xf4, 0x90, 0x80, 0x80]);
    }

    #[test]
    fn faults_are_ill_formed() {
        let mut random = Random::of_case(2, 2);
        for _ in 0..10_000 {
            let fault = fault(&mut random);
            assert!(std::str::from_utf8(&fault).is_err(), "{fault:02x?}");
        }
    }
}
