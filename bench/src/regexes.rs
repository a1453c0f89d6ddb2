//! `regex` (document 02, request 13): head office's subscription, patterns for which a matcher that goes back tries every way, and long patterns.

use crate::clock::{compare, Pace};
use crate::hostile::{self, Entry};
use crate::strings::{guarded, inner};
use crate::{head, row, table_of};
use bench::{expert, ours};
use std::hint::black_box;

/// A notice of one field `User`.
fn user(value: &[u8]) -> Vec<u8> {
    hostile::notice(&[(b"User".to_vec(), 4, value.to_vec())])
}

/// One pattern on the field.
fn entries(pattern: &[u8]) -> (Vec<Entry>, Vec<u8>) {
    let group = vec![
        hostile::name(4, 0),
        hostile::string(pattern.len(), 4),
        (61, 1, 0),
    ];
    (group, [b"User", pattern].concat())
}

/// Names parted by `|`, of so many bytes.
pub fn names(len: usize) -> Vec<u8> {
    let names = [
        "Abbott",
        "Segall",
        "Deschenes",
        "Arnold",
        "Phelps",
        "Boot",
        "Bates",
    ];
    let mut all = Vec::new();
    for (i, name) in names.iter().cycle().enumerate() {
        if all.len() >= len {
            break;
        }
        all.extend(format!("{name}{}|", i % 10).bytes());
    }
    all.truncate(len - 1);
    all.push(b'x');
    all
}

pub fn rows(pace: Pace) {
    head("regex, guarded run, per notice", "ns");
    let office = table_of("regex (User, \"[Ss]egall?\")");
    for value in ["Segall", "Bill Segall", "Deschenes"] {
        let name = format!("[Ss]egall? on {value}");
        guarded(&name, &office, &user(value.as_bytes()), pace, 1.0, 1);
    }
    head("regex, inner run, per byte of the value", "ns");
    let (a, name) = (vec![b'a'; 1000], b"Robert Deschenes".to_vec());
    let plain = [&a[..999], b"b"].concat();
    let optional = b"a?".repeat(500);
    let rows: [(&str, &[u8], Vec<u8>); 9] = [
        (
            "[Ss]egall? on Bill Segall",
            b"[Ss]egall?",
            b"Bill Segall".to_vec(),
        ),
        (
            "[Ss]egall? on 1,000 bytes",
            b"[Ss]egall?",
            b"Bill Boot ".repeat(100),
        ),
        ("(a*)*b on 1,000 a's", b"(a*)*b", a.clone()),
        ("(a|aa)*b on 1,000 a's", b"(a|aa)*b", a.clone()),
        ("^(a|aa)*b on 1,000 a's", b"^(a|aa)*b", a.clone()),
        ("1,000 bytes, names, on a name of 16", &names(1000), name),
        (
            "1,000 bytes, names, on 1,000 bytes",
            &names(1000),
            b"Bill Boot ".repeat(100),
        ),
        ("1,000 bytes, a's and b, on 1,000 a's", &plain, a.clone()),
        (
            "1,000 bytes, 500 times a?, then b, on 1,000 a's",
            &[&optional[..998], b"b$"].concat(),
            a,
        ),
    ];
    for (name, pattern, value) in rows {
        let (group, pool) = entries(pattern);
        // so often that a run takes long enough to be timed, and not longer
        let count = (200_000 / (pattern.len() * value.len())).clamp(1, 100);
        let table = hostile::table(&hostile::times(&group, count), &pool);
        inner(name, &table, &user(&value), pace, count * value.len());
    }
    check(pace);
}

fn check(pace: Pace) {
    head("regex, table check, per byte of the pattern", "ns");
    let marks = [b"a".to_vec(), b"*".repeat(999)].concat();
    for (name, pattern) in [
        ("1,000 bytes, names", names(1000)),
        (
            "1,000 bytes, one set",
            [b"[".to_vec(), vec![b'm'; 998], b"]".to_vec()].concat(),
        ),
        ("1,000 bytes, marks", marks),
    ] {
        let (group, pool) = entries(&pattern);
        let table = hostile::table(&group, &pool);
        assert!(ours::check(&table) && expert::check(&table), "{name}");
        let (a, b, r) = compare(
            &mut |times| {
                for _ in 0..times {
                    black_box(ours::check(black_box(&table)));
                }
            },
            &mut |times| {
                for _ in 0..times {
                    black_box(expert::check(black_box(&table)));
                }
            },
            pace,
        );
        row(name, a / 1e3, b / 1e3, r);
    }
}
