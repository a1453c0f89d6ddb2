//! UBF(A) texts read and notices written, ours beside the expert's.

use crate::clock::{compare, Pace};
use crate::load::{self, Dice};
use crate::{fields_of, head};
use bench::{ours, ubf};
use std::hint::black_box;

/// What the strings and opaque values of a text are.
#[derive(Clone, Copy)]
struct Values {
    name: &'static str,
    size: usize,
    /// one byte of so many is a quote, which has an escape in the text; 0 for none
    quote_each: usize,
}

const VALUES: [Values; 3] = [
    Values {
        name: "short values",
        size: 12,
        quote_each: 0,
    },
    Values {
        name: "values of 200 bytes",
        size: 200,
        quote_each: 0,
    },
    Values {
        name: "values of 200 bytes with 10 quotes",
        size: 200,
        quote_each: 20,
    },
];

fn value(values: Values, k: usize) -> Vec<u8> {
    let byte = |at: usize| match values.quote_each {
        0 => b'a' + ((at + k) % 26) as u8,
        each if (at + k) % each == 0 => b'"',
        _ => b'a' + ((at + k) % 26) as u8,
    };
    (0..values.size).map(byte).collect()
}

/// A field's text, int32, int64, string and opaque by turns.
fn field(name: &str, values: Values, k: usize) -> Vec<u8> {
    let mut text = format!("\"{name}\"").into_bytes();
    match k % 4 {
        0 => text.extend(format!("{}", 1000 * k as i32 - 20_000).bytes()),
        1 => text.extend(
            format!(
                "{}`int64`",
                1_234_567_890_123 * k as i64 - 9_999_999_999_999
            )
            .bytes(),
        ),
        2 => {
            text.push(b'"');
            for b in value(values, k) {
                if b == b'"' {
                    text.push(b'\\');
                }
                text.push(b);
            }
            text.push(b'"');
        }
        _ => {
            let value = value(values, k);
            text.extend(format!("{}~", value.len()).bytes());
            text.extend(value);
            text.push(b'~');
        }
    }
    text
}

/// A text of so many fields in the fixed form, its names rising or not.
fn text(fields: usize, values: Values, rising: bool) -> Vec<u8> {
    let names = load::NAMES.iter().step_by(64 / fields).take(fields);
    let mut all: Vec<Vec<u8>> = names
        .enumerate()
        .map(|(k, (name, _))| field(name, values, k))
        .collect();
    let mut dice = Dice(0x1234_5678_9abc_def1);
    if !rising {
        (1..all.len()).for_each(|at| all.swap(at, dice.next(at + 1)));
    }
    [&b"{"[..], &all.concat(), b"}$"].concat()
}

/// Reading and writing, nanoseconds a byte of the text.
pub fn rows(pace: Pace) {
    head("UBF(A) reading, per byte of text", "ns");
    let cases = |with: &mut dyn FnMut(&str, Vec<u8>, bool)| {
        for values in VALUES {
            for fields in [8, 64] {
                for rising in [true, false] {
                    let order = if rising { "rising" } else { "shuffled" };
                    let name = format!("{}, {order}, {}", fields_of(fields), values.name);
                    with(&name, text(fields, values, rising), rising);
                }
            }
        }
    };
    let (mut x, mut y) = (vec![0u8; 16384], vec![0u8; 16384]);
    cases(&mut |name, text, _| {
        let (number, _, length) = ours::ubf_read(&text, &mut x);
        assert_eq!((number, length), ubf::read(&text, &mut y));
        assert_eq!((number, &x), (0, &y));
        let (a, b, r) = compare(
            &mut |times| {
                for _ in 0..times {
                    black_box(ours::ubf_read(black_box(&text), black_box(&mut x)));
                }
            },
            &mut |times| {
                for _ in 0..times {
                    black_box(ubf::read(black_box(&text), black_box(&mut y)));
                }
            },
            pace,
        );
        let n = text.len() as f64;
        row_of(name, text.len(), a / n, b / n, r);
    });
    for exact in [false, true] {
        let room = if exact {
            "room to the byte"
        } else {
            "room for the longest"
        };
        head(&format!("UBF(A) writing, {room}, per byte of text"), "ns");
        cases(&mut |name, text, rising| {
            if rising {
                let length = ours::ubf_read(&text, &mut x).2;
                let room = if exact { text.len() } else { LONGEST };
                writing(name, &x[..length], &text, room, pace);
            }
        });
    }
}

/// The most bytes of a text that is written.
const LONGEST: usize = 32839;

/// A notice written as the text into a buffer of that size.
fn writing(name: &str, notice: &[u8], text: &[u8], room: usize, pace: Pace) {
    let (mut x, mut y) = (vec![0u8; room], vec![0u8; room]);
    assert_eq!(ours::ubf_write(notice, &mut x), ubf::write(notice, &mut y));
    assert_eq!((&x[..text.len()], &x), (text, &y));
    let (a, b, r) = compare(
        &mut |times| {
            for _ in 0..times {
                black_box(ours::ubf_write(black_box(notice), black_box(&mut x)));
            }
        },
        &mut |times| {
            for _ in 0..times {
                black_box(ubf::write(black_box(notice), black_box(&mut y)));
            }
        },
        pace,
    );
    let n = text.len() as f64;
    row_of(name, text.len(), a / n, b / n, r);
}

/// A row with two digits behind the point, since a byte takes less than a nanosecond.
fn row_of(name: &str, bytes: usize, ours: f64, expert: f64, ratio: f64) {
    let name = format!("{name} ({bytes})");
    println!("{name:<64}{ours:>8.2}{expert:>8.2}{ratio:>8.2}");
}

/// A text changed in a few bytes, with tokens put in.
fn changed(dice: &mut Dice) -> Vec<u8> {
    const TOKENS: [&[u8]; 25] = [
        b"{",
        b"}",
        b"$",
        b"\"",
        b"\\",
        b"'",
        b"`",
        b"%",
        b"~",
        b"-",
        b" ",
        b",",
        b"#",
        b"&",
        b">",
        b"a",
        b"0",
        b"99999999999",
        b"`int64`",
        b"\"a\"",
        b"'a'",
        b"%c%",
        b"\"Id\"1",
        b"2~ab~",
        b"\"\"1",
    ];
    let values = Values {
        name: "",
        size: [0, 3, 12, 1024, 1025][dice.next(5)],
        quote_each: [0, 3][dice.next(2)],
    };
    let values = Values {
        size: if dice.next(40) == 0 {
            values.size
        } else {
            values.size % 20
        },
        ..values
    };
    let mut text = text([1, 2, 4, 8, 64][dice.next(5)], values, dice.next(2) == 0);
    for _ in 0..dice.next(3) {
        let at = dice.next(text.len() + 1);
        let token = TOKENS[dice.next(TOKENS.len())];
        let end = (at + dice.next(2)).min(text.len());
        text.splice(at..end, token.iter().copied());
    }
    text
}

/// Both sides on random texts, and on the notices that they are.
pub fn agree(cases: usize) {
    let mut dice = Dice(0x0f1e_2d3c_4b5a_6978);
    let mut counts = [0usize; 24];
    for _ in 0..cases {
        let text = changed(&mut dice);
        let room = [16384, 16384, 30, 200][dice.next(4)];
        let (mut x, mut y) = (vec![7u8; room], vec![7u8; room]);
        let (number, place, length) = ours::ubf_read(&text, &mut x);
        let shown = text.escape_ascii();
        assert_eq!(
            (number, length, place),
            {
                let (n, l) = ubf::read(&text, &mut y);
                (n, l, 0)
            },
            "{shown}"
        );
        assert_eq!(x, y, "{shown}");
        counts[number as usize] += 1;
        let mut notice = x[..length].to_vec();
        if dice.next(4) == 0 && !notice.is_empty() {
            let at = dice.next(notice.len());
            notice[at] = dice.next(256) as u8;
        }
        let room = [LONGEST, text.len(), dice.next(300)][dice.next(3)];
        let (mut x, mut y) = (vec![7u8; room], vec![7u8; room]);
        assert_eq!(
            ours::ubf_write(&notice, &mut x),
            ubf::write(&notice, &mut y),
            "{notice:?}"
        );
        assert_eq!(x, y, "{notice:?}");
    }
    let counts: Vec<String> = [0, 13, 14, 15, 16, 22, 23]
        .iter()
        .map(|number| format!("{number}: {}", counts[*number as usize]))
        .collect();
    println!(
        "same answers on {cases} random UBF(A) texts by number {}",
        counts.join(", ")
    );
}
