//! The string operators: tables made to be slow, short literals on short strings, and equality of long ones.

use crate::clock::{compare, Pace};
use crate::hostile::{self, Entry};
use crate::load::Dice;
use crate::{entries_of, head, row, table_of};
use bench::{expert, ours};
use std::hint::black_box;

pub fn rows(pace: Pace) {
    hostile_tables(pace);
    short_literals(pace);
    long_equality(pace);
    wildcards(pace);
    sizes(pace);
}

/// A row of the guarded run of a table, in its own unit: `unit` nanoseconds, of each of `ops` operators.
pub fn guarded(name: &str, table: &[u8], notice: &[u8], pace: Pace, unit: f64, ops: usize) {
    assert_eq!(
        ours::guarded(table, notice),
        expert::guarded(table, notice),
        "{name}"
    );
    assert_eq!(ours::guarded(table, notice).0, 0, "{name}");
    let (a, b, r) = compare(
        &mut |times| {
            for _ in 0..times {
                black_box(ours::guarded(black_box(table), black_box(notice)));
            }
        },
        &mut |times| {
            for _ in 0..times {
                black_box(expert::guarded(black_box(table), black_box(notice)));
            }
        },
        pace,
    );
    let each = unit * ops as f64;
    row(name, a / each, b / each, r);
}

/// A row of the inner run of a table, in nanoseconds of each of `ops` operators.
pub fn inner(name: &str, table: &[u8], notice: &[u8], pace: Pace, ops: usize) {
    let mut code = expert::no_code();
    let p = expert::decode(table, &mut code).unwrap();
    assert_eq!(expert::check_notice(notice), None);
    // SAFETY: the notice is well formed
    let (verdict, steps, undecided) = unsafe { expert::run(&p, notice) };
    assert_eq!(
        ours::repeat(table, notice, 1),
        4096 * undecided as u64 + 4 * steps as u64 + verdict as u64,
        "{name}"
    );
    let (a, b, r) = compare(
        &mut |times| {
            black_box(ours::repeat(black_box(table), black_box(notice), times));
        },
        &mut |times| {
            for _ in 0..times {
                // SAFETY: as above
                black_box(unsafe { expert::run(black_box(&p), black_box(notice)) });
            }
        },
        pace,
    );
    row(name, a / ops as f64, b / ops as f64, r);
}

/// Few rounds, since a run of these may take a second.
fn hostile_tables(pace: Pace) {
    let pace = Pace {
        rounds: pace.rounds.min(5),
        round: pace.round,
    };
    head("hostile tables, guarded run, per notice", "us");
    for (marks, how) in [
        (0, "no mark"),
        (1, "a folding mark"),
        (2, "both sides marked"),
    ] {
        let (group, pool) = hostile::almost_contained(2048, marks);
        let table = hostile::table(&hostile::often(&group), &pool);
        let name = format!(
            "contains, {} entries, 2,048 in 4,095, {how}",
            entries_of(&table)
        );
        guarded(&name, &table, &hostile::EMPTY, pace, 1e3, 1);
    }
    for (mark, how) in [(false, "no mark"), (true, "a folding mark")] {
        let (group, pool, notice) = hostile::almost_contained_field(512, mark);
        let table = hostile::table(&hostile::often(&group), &pool);
        let name = format!(
            "contains, {} entries, 512 in a field of 1,024, {how}",
            entries_of(&table)
        );
        guarded(&name, &table, &notice, pace, 1e3, 1);
    }
}

/// Words of letters and spaces, as a subject line has them.
fn prose(dice: &mut Dice, len: usize) -> Vec<u8> {
    (0..len)
        .map(|_| b"etaoin shrdlu cmfwyp ETAOIN"[dice.next(27)])
        .collect()
}

/// One operator on a string of `n` bytes with a literal of `m`: the table has it as often as it fits, each with bytes of its own.
/// Of four literals one fits, at the place where the operator looks, or anywhere for `contains`; the others are of the same letters.
fn short(op: u16, n: usize, m: usize, mark: bool) -> (Vec<u8>, usize) {
    let mut dice = Dice(0x0123_4567_89ab_cdef ^ (n * 64 + m) as u64);
    let (mut entries, mut pool): (Vec<Entry>, Vec<u8>) = (Vec::new(), Vec::new());
    let mut ops = 0;
    let group = 4 + mark as usize;
    while entries.len() + group <= 512 && pool.len() + n + m <= 4096 {
        let s = prose(&mut dice, n);
        let at = match op {
            56 => 0,
            58 => n - m,
            _ => dice.next(n - m + 1),
        };
        let mut literal = match dice.next(4) {
            0 => s[at..at + m].to_vec(),
            _ => prose(&mut dice, m),
        };
        if mark {
            literal.make_ascii_lowercase();
        }
        entries.push(hostile::string(n, pool.len()));
        pool.extend(s);
        if mark {
            entries.push(hostile::FOLD);
        }
        entries.push(hostile::string(m, pool.len()));
        pool.extend(literal);
        entries.push((op, 1, 0));
        if ops > 0 {
            entries.push((42, 0, 0));
        }
        ops += 1;
    }
    (hostile::table(&entries, &pool), ops)
}

fn short_literals(pace: Pace) {
    head("short literals, inner run, per operator", "ns");
    for (op, name) in [(57, "contains"), (56, "begins-with"), (58, "ends-with")] {
        for (m, n) in [(3, 5), (3, 20), (5, 20), (3, 100), (8, 100)] {
            let (table, ops) = short(op, n, m, false);
            let name = format!("{name}, {m} bytes on {n}");
            inner(&name, &table, &hostile::EMPTY, pace, ops);
        }
        let (table, ops) = short(op, 20, 5, true);
        inner(
            &format!("{name}, 5 bytes on 20, folded"),
            &table,
            &hostile::EMPTY,
            pace,
            ops,
        );
    }
}

/// A notice of one field `Cab`.
fn cab(value: &[u8]) -> Vec<u8> {
    hostile::notice(&[(b"Cab".to_vec(), 4, value.to_vec())])
}

fn wildcards(pace: Pace) {
    head("wildcard, guarded run, per notice", "ns");
    let dispatch = table_of("wildcard (Cab, \"T-4?\", \"V*\")");
    for value in ["T-41", "T-412", "V-417"] {
        let name = format!("T-4? and V* on {value}");
        guarded(&name, &dispatch, &cab(value.as_bytes()), pace, 1.0, 1);
    }
    head("wildcard, inner run, per operator", "ns");
    let rows: [(&str, &[u8], Vec<u8>); 6] = [
        (
            "T-4? on a field of 4 bytes, which fits",
            b"T-4?",
            b"T-41".to_vec(),
        ),
        ("T-4? on a field of 5 bytes", b"T-4?", b"T-412".to_vec()),
        (
            "[A-Z]-[!0-3]* on a field of 5 bytes",
            b"[A-Z]-[!0-3]*",
            b"T-412".to_vec(),
        ),
        (
            "*ab*ab*b on a field of 20 bytes",
            b"*ab*ab*b",
            b"aab".repeat(7)[..20].to_vec(),
        ),
        (
            "*a*a*a*a*b on a field of 1,024 bytes",
            b"*a*a*a*a*b",
            vec![b'a'; 1024],
        ),
        (
            "*aaaaaaab on a field of 1,024 bytes",
            b"*aaaaaaab",
            vec![b'a'; 1024],
        ),
    ];
    for (name, pattern, value) in rows {
        let pool = [b"Cab", pattern].concat();
        let group = [
            hostile::name(3, 0),
            hostile::string(pattern.len(), 3),
            (60, 1, 0),
        ];
        let entries = hostile::often(&group);
        let ops = (entries.len() + 1) / (group.len() + 1);
        inner(
            name,
            &hostile::table(&entries, &pool),
            &cab(&value),
            pace,
            ops,
        );
    }
}

/// Words of these, parted by spaces, to so many bytes; the last are spaces where no further word has room.
fn words(of: &[&str], len: usize) -> String {
    let mut text = String::new();
    for word in of.iter().cycle() {
        if text.len() + word.len() + 1 > len {
            break;
        }
        text.push_str(word);
        text.push(' ');
    }
    text.push_str(&" ".repeat(len - text.len()));
    text
}

/// `size` of one field (document 02, request 2), equal to the number of its characters.
fn sizes(pace: Pace) {
    head("size, inner run, per operator", "ns");
    let accents = ["Ren\u{e9}e", "Desch\u{ea}nes", "depot", "night", "shift"];
    let han = ["\u{51fa}\u{79df}\u{8f66}", "\u{53f8}\u{673a}"];
    let emoji = ["\u{1f695}\u{1f697}", "\u{1f3c1}"];
    let mixed = [&accents[..], &han, &emoji].concat();
    let rows = [
        (
            "20 letters, two with accents",
            words(&accents[..2], 18) + "Oliv",
        ),
        ("1,024 bytes, ASCII", words(&accents[2..], 1024)),
        ("1,024 bytes, accents", words(&accents, 1024)),
        ("1,024 bytes, Han", words(&han, 1024)),
        ("1,024 bytes, emoji", words(&emoji, 1024)),
        ("1,024 bytes, all of these mixed", words(&mixed, 1024)),
    ];
    for (name, text) in rows {
        let count = text.chars().count() as u64;
        // name, `size`, an int32, `==`
        let group = [hostile::name(3, 0), (7, 0, 0), (1, 0, count), (32, 0, 0)];
        let entries = hostile::often(&group);
        let ops = (entries.len() + 1) / (group.len() + 1);
        inner(
            name,
            &hostile::table(&entries, b"Cab"),
            &cab(text.as_bytes()),
            pace,
            ops,
        );
    }
}

fn long_equality(pace: Pace) {
    head("1,000 equal bytes, inner run, per operator", "ns");
    let (s, t) = (hostile::string(1000, 0), hostile::string(1000, 1000));
    let pool = [vec![b'x'; 2000], b"s".to_vec()].concat();
    let field = hostile::notice(&[(b"s".to_vec(), 4, vec![b'x'; 1000])]);
    let equals = |first: &[Entry]| hostile::eight(first, &[t], 59);
    let rows: [(&str, Vec<Entry>, usize); 6] = [
        ("==", vec![s, t, (32, 0, 0)], 1),
        (
            "==, one side folded",
            vec![s, hostile::FOLD, t, (32, 0, 0)],
            1,
        ),
        (
            "==, both sides folded",
            vec![s, hostile::FOLD, t, hostile::FOLD, (32, 0, 0)],
            1,
        ),
        (
            "== of a field",
            vec![hostile::name(1, 2000), t, (32, 0, 0)],
            1,
        ),
        ("equals, of each of 8 values", equals(&[s]), 8),
        (
            "equals, of each of 8 values, folded",
            equals(&[s, hostile::FOLD]),
            8,
        ),
    ];
    for (name, group, each) in rows {
        // `equals` looks at the next value only where the last was another one
        let last = if each == 8 { b'y' } else { b'x' };
        let mut pool = pool.clone();
        pool[1999] = last;
        let entries = hostile::often(&group);
        let groups = (entries.len() + 1) / (group.len() + 1);
        let table = hostile::table(&entries, &pool);
        inner(name, &table, &field, pace, groups * each);
    }
}
