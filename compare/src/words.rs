//! Names, numbers and strings that texts, tables and notices share, so that texts name fields that
//! notices have, and values near the limits.

use crate::random::Random;

/// 64 bytes, the longest name.
const LONG: &[u8] = b"long-name-of-64-bytes-0123456789-0123456789-0123456789-012345678";

pub const NAMES: [&[u8]; 26] = [
    b"Op", b"a", b"ab", b"abc", b"b", b"B", b"big", b"i1", b"i2", b"int32", b"n1", b"n2", b"n3",
    b"r1", b"r2", b"s1", b"s2", b"s3", b"o1", b"x y", b"_u", b"pipe=", b"1.0 C", b"\\(", b"~",
    LONG,
];

/// Names of numbers and of strings, for texts that have more verdicts than bottom.
pub const NUMBERS: [&[u8]; 9] = [
    b"Op", b"i1", b"i2", b"n1", b"n2", b"n3", b"r1", b"r2", b"big",
];
pub const STRINGS: [&[u8]; 5] = [b"s1", b"s2", b"s3", b"abc", b"x y"];

pub fn name(random: &mut Random) -> &'static [u8] {
    random.pick(&NAMES)
}

/// A name that no list above has, or breaks the rules now and then.
pub fn other_name(random: &mut Random) -> Vec<u8> {
    let length = match random.below(12) {
        0 => 0,
        1 => 64,
        2 => 65,
        _ => random.between(1, 6),
    };
    let mut name: Vec<u8> = (0..length).map(|_| random.between(32, 126) as u8).collect();
    if random.once_in(10) && length > 0 {
        let at = random.below(length);
        name[at] = random.pick(&[31, 127, 0, 255, 10]);
    }
    name
}

const WHOLES: [i64; 40] = [
    0,
    1,
    -1,
    2,
    -2,
    3,
    5,
    7,
    -7,
    10,
    15,
    28,
    31,
    32,
    33,
    42,
    63,
    64,
    65,
    255,
    46340,
    46341,
    -46341,
    65535,
    0x7fff_ffff,
    -0x8000_0000,
    0x7fff_fffe,
    0x8000_0000,
    -0x8000_0001,
    0xffff_ffff,
    0x1_0000_0000,
    3_037_000_500,
    1 << 53,
    (1 << 53) - 1,
    (1 << 53) + 1,
    -(1 << 53),
    -(1 << 53) - 1,
    i64::MAX,
    i64::MIN,
    i64::MIN + 1,
];

pub fn whole(random: &mut Random) -> i64 {
    match random.below(8) {
        0 => random.word() as i64,
        1 => random.word() as i32 as i64,
        2 | 3 => random.below(8) as i64,
        _ => random.pick(&WHOLES),
    }
}

pub fn short_whole(random: &mut Random) -> i32 {
    whole(random) as i32
}

const REALS: [u64; 26] = [
    0,
    1 << 63,
    0x3ff0_0000_0000_0000,
    0xbff0_0000_0000_0000,
    0x3fe0_0000_0000_0000,
    0x4045_0000_0000_0000,
    0x4008_0000_0000_0000,
    0x3fb9_9999_9999_999a,
    0x4340_0000_0000_0000,
    0x4340_0000_0000_0001,
    0x433f_ffff_ffff_ffff,
    0xc340_0000_0000_0000,
    0x7ff0_0000_0000_0000,
    0xfff0_0000_0000_0000,
    0x7ff8_0000_0000_0000,
    0xfff8_0000_0000_0000,
    0x7ff0_0000_0000_0001,
    0xffff_ffff_ffff_ffff,
    0x7fef_ffff_ffff_ffff,
    0xffef_ffff_ffff_ffff,
    1,
    0x000f_ffff_ffff_ffff,
    0x0010_0000_0000_0000,
    0x41df_ffff_ffc0_0000,
    0x41e0_0000_0000_0000,
    0xc1e0_0000_0000_0000,
];

/// A real's bits.
pub fn real(random: &mut Random) -> u64 {
    match random.below(8) {
        0 => random.word(),
        1 | 2 => (random.below(16) as f64 - 4.0).to_bits(),
        3 => (whole(random) as f64).to_bits(),
        _ => random.pick(&REALS),
    }
}

const TEXTS: [&[u8]; 18] = [
    b"",
    b"a",
    b"A",
    b"abc",
    b"ABC",
    b"aBc",
    b"aaab",
    b"ab",
    b"Hello Sailor",
    b"hello sailor",
    b"[`{@Zz",
    b"417",
    b"\0\xff\xc4",
    "Ren\u{e9}e \u{c9}T\u{c9}".as_bytes(),
    "\u{20ac}".as_bytes(),
    "\u{1f695}B".as_bytes(),
    b"\xed\xa0\x80Z",
    b"it's \"x\" \\",
];

/// A string of about 1,024 bytes, often one of few that are alike but for case or the last byte.
pub fn long(random: &mut Random) -> Vec<u8> {
    let length = random.pick(&[600, 1022, 1023, 1023, 1024, 1024, 1024, 1024]);
    let mut text = b"Az".repeat(length / 2 + 1);
    text.truncate(length);
    match random.below(4) {
        0 => text.make_ascii_lowercase(),
        1 => text[length - 1] ^= 1,
        _ => (),
    }
    text
}

/// A part of the string: its start, its end, one from its middle, or the whole.
pub fn part(random: &mut Random, text: &[u8]) -> Vec<u8> {
    let start = random.below(text.len() + 1);
    let part = match random.below(4) {
        0 => &text[..start],
        1 => &text[start..],
        2 => &text[start..random.between(start, text.len())],
        _ => text,
    };
    part.to_vec()
}

/// A string, often one that others begin with, end with or hold.
pub fn text(random: &mut Random) -> Vec<u8> {
    let whole = random.pick(&TEXTS);
    match random.below(10) {
        0 => {
            let length = random.below(9);
            random.bytes(length)
        }
        1 | 2 => whole[..random.below(whole.len() + 1)].to_vec(),
        3 | 4 => whole[random.below(whole.len() + 1)..].to_vec(),
        5 => [whole, random.pick(&TEXTS)].concat(),
        _ => whole.to_vec(),
    }
}
