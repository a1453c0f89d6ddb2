//! Mending (document 02, request 14), beside the expert's.

use crate::clock::{compare, Pace};
use crate::load::{self, Dice};
use crate::{head, hostile, row};
use bench::mend::{expert, ours};
use std::hint::black_box;

/// As long as a list, and a notice, can be.
const LIST: usize = 24_564;
const NOTICE: usize = 16_384;

/// The bytes of string fields of these names in turn, each with so many bytes of value, so many fields, behind eight bytes of 0.
pub fn in_turn(names: &[Vec<u8>], value: usize, count: usize) -> Vec<u8> {
    let field = |at: usize| (names[at % names.len()].clone(), 4, vec![b'v'; value]);
    let fields: Vec<_> = (0..count).map(field).collect();
    [&[0; 8], &hostile::notice(&fields)[8..]].concat()
}

/// 64 names of one byte.
pub fn short_names() -> Vec<Vec<u8>> {
    (40..104).map(|byte| vec![byte]).collect()
}

/// 64 names of two digits, falling.
pub fn falling() -> Vec<Vec<u8>> {
    hostile::alike(64, 2).into_iter().rev().collect()
}

/// What is mended: name, bytes, and the number that they are answered by.
fn inputs() -> Vec<(String, Vec<u8>)> {
    let mut all = Vec::new();
    for fields in [1, 8, 64] {
        let notice = load::notice(fields);
        let size = notice.len();
        let name = crate::fields_of(fields);
        all.push((format!("{name} rising, {size} bytes"), notice));
    }
    let mut add = |name: &str, bytes: Vec<u8>| {
        assert!(bytes.len() <= NOTICE);
        all.push((name.to_string(), bytes));
    };
    add("64 fields falling, 16 KiB", in_turn(&falling(), 248, 64));
    add(
        "2,729 fields of 6 bytes, 64 names",
        in_turn(&short_names(), 0, 2729),
    );
    add(
        "236 names of 64 bytes alike to byte 62",
        in_turn(&hostile::alike(64, 64), 0, 236),
    );
    add("8,188 fields of length 0", vec![0; NOTICE]);
    all
}

pub fn rows(pace: Pace) {
    head("mending, per call", "ns");
    for (name, bytes) in inputs() {
        let ([mut x, mut y], [mut u, mut v]) = ([[0u8; LIST]; 2], [[0u8; NOTICE]; 2]);
        let answer = ours::mend(&bytes, &mut x, &mut u);
        assert_eq!(answer.0, 0, "{name}");
        assert_eq!(answer, expert::mend(&bytes, &mut y, &mut v));
        assert_eq!((x, u), (y, v));
        let (a, b, r) = compare(
            &mut |times| {
                for _ in 0..times {
                    black_box(ours::mend(black_box(&bytes), &mut x, &mut u));
                }
            },
            &mut |times| {
                for _ in 0..times {
                    black_box(expert::mend(black_box(&bytes), &mut y, &mut v));
                }
            },
            pace,
        );
        row(&name, a, b, r);
    }
}

/// Both sides on notices whose fields are moved, doubled, damaged and cut, in buffers of several lengths.
pub fn agree(cases: usize) {
    let mut dice = Dice(0x1357_9bdf_2468_ace0);
    let (mut counts, mut codes) = ([0usize; 31], [0usize; 5]);
    for _ in 0..cases {
        let bytes = damaged(&mut dice);
        let (list, notice) = (LIST - 3 * dice.next(2), NOTICE - dice.next(2));
        let rooms = [
            (list, notice),
            (dice.next(300), notice),
            (list, dice.next(900)),
        ];
        let (list, notice) = rooms[dice.next(6).min(2)];
        let ([mut x, mut y], [mut u, mut v]) = ([[7u8; LIST]; 2], [[7u8; NOTICE]; 2]);
        let answer = ours::mend(&bytes, &mut x[..list], &mut u[..notice]);
        let other = expert::mend(&bytes, &mut y[..list], &mut v[..notice]);
        assert_eq!((answer, x, u), (other, y, v));
        counts[answer.0 as usize] += 1;
        let listed = x[..3 * answer.3].chunks(3);
        listed.for_each(|entry| codes[entry[2] as usize] += 1);
    }
    let numbers = [0, 9, 10, 15, 30].map(|number| format!("{number}: {}", counts[number]));
    println!(
        "same answers on {cases} damaged notices; calls by number {}; fields by code {codes:?}",
        numbers.join(", ")
    );
}

/// Fields of some notices in any order, some more than once, some with a byte changed, behind any header, perhaps cut.
fn damaged(dice: &mut Dice) -> Vec<u8> {
    let sources = [
        load::notice([1, 8, 64][dice.next(3)]),
        in_turn(
            &hostile::alike(60 + dice.next(7), 2 + dice.next(63)),
            dice.next(20),
            66,
        ),
        in_turn(&short_names(), 0, 70),
        vec![0; 8 + dice.next(40)],
    ];
    let source = &sources[dice.next(4)];
    let mut parts: Vec<Vec<u8>> = Vec::new();
    let mut at = 8;
    while at + 2 <= source.len() {
        let end = at + 2 + source[at] as usize + 256 * source[at + 1] as usize;
        parts.push(source[at..end].to_vec());
        at = end;
    }
    for _ in 0..dice.next(8) * parts.len().min(1) {
        let (one, other) = (dice.next(parts.len()), dice.next(parts.len()));
        match dice.next(3) {
            0 => parts.swap(one, other),
            1 => parts.insert(one, parts[other].clone()),
            _ => {
                let at = dice.next(parts[one].len());
                parts[one][at] = dice.next(256) as u8;
            }
        }
    }
    let mut bytes = [vec![dice.next(256) as u8; 8], parts.concat()].concat();
    match dice.next(16) {
        0 => bytes.truncate(dice.next(bytes.len() + 1)),
        1 => bytes.resize(16_380 + dice.next(8), 0),
        2 => bytes.push(0),
        _ => (),
    }
    bytes
}
