//! Standard inputs of the program `verdict`.

use crate::about::About;
use crate::edges::word;
use crate::notices;
use crate::random::Random;
use crate::tables;
use crate::texts;

/// Any input: records, and now and then a bad or cut one at the end.
pub fn input(random: &mut Random) -> Vec<u8> {
    let mut input = match random.below(24) {
        0 | 1 => of_length(random),
        2 => of_short_records(random),
        3 | 4 => of_records(random, 20, 60),
        _ => of_records(random, 0, 8),
    };
    match random.below(4) {
        0 => input.extend(bad_record(random)),
        1 => {
            let cut = random.below(input.len().min(9000) + 1);
            input.truncate(input.len() - cut);
        }
        _ => (),
    }
    input
}

/// A count of records from `least` to `most`.
fn of_records(random: &mut Random, least: usize, most: usize) -> Vec<u8> {
    let count = random.between(least, most);
    (0..count).flat_map(|_| record(random)).collect()
}

/// Records, many of them long, that do not fit into the program's buffer of 65,536 bytes.
fn of_length(random: &mut Random) -> Vec<u8> {
    let length = random.between(70_000, 300_000);
    let mut input = Vec::new();
    while input.len() < length {
        input.extend(match random.below(4) {
            0 => of_kind(9, &vec![3; random.pick(&[5000, 16377, 16378])]),
            1 => of_kind(1, notices::heavy(random).get(6..).unwrap_or_default()),
            _ => record(random),
        });
    }
    input
}

/// Records without a body, whose lines do not fit into the program's buffer of 65,536 bytes.
fn of_short_records(random: &mut Random) -> Vec<u8> {
    of_kind(65535, b"").repeat(random.between(8_000, 13_000))
}

fn record(random: &mut Random) -> Vec<u8> {
    match random.below(12) {
        0 => {
            let kind = random.pick(&[0, 2, 4, 5, 255, 256, 257, 259, 65535]);
            let length = random.pick(&[0, 1, 7, 16378]);
            of_kind(kind, &random.bytes(length))
        }
        // a table is a record of another kind
        1 if random.once_in(3) => {
            let table = tables::translated(random, &About::nothing());
            of_kind(word(&table, 4) as u16, &table[6..])
        }
        1 | 2 => of_kind(3, &texts::text(random, &About::nothing())),
        3 => of_kind(3, &texts::valid(random, &About::nothing())),
        4 | 5 => {
            let notice = notices::well_formed(random);
            let text = texts::valid(random, &About::of(&notice));
            [of_kind(3, &text), notice].concat()
        }
        6 => {
            let notice = notices::notice(random);
            of_kind(1, notice.get(6..).unwrap_or_default())
        }
        7 | 8 => notices::valid(random),
        _ => notices::rich(random),
    }
}

/// A record of the kind; what is too long for one is cut.
fn of_kind(kind: u16, body: &[u8]) -> Vec<u8> {
    let body = &body[..body.len().min(16378)];
    let length = (2 + body.len()) as u32;
    [&length.to_le_bytes()[..], &kind.to_le_bytes(), body].concat()
}

/// A record whose length is under 2 or over 16,380, with bytes after it.
fn bad_record(random: &mut Random) -> Vec<u8> {
    let length: u32 = random.pick(&[0, 1, 16381, 16382, 65535, 65536, u32::MAX]);
    let after = random.pick(&[0, 1, 2, 6, 16381, 17000]);
    [&length.to_le_bytes()[..], &vec![3; after]].concat()
}
