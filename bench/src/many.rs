//! Many subscriptions on one notice in one call (document 02, request 8), beside runs one by one and the expert's.

use crate::clock::{middle, rounds, Pace};
use crate::load::{self, Dice};
use crate::{fields_of, row, table_of};
use bench::{expert, ours};
use std::hint::black_box;

/// "The router holds 40 tables."
pub const TABLES: usize = 40;

/// The tables of 40 subscriptions of 3 to 50 entries, in no order of size. None has 6 or 7 entries, which no clauses make.
pub fn tables() -> Vec<Vec<u8>> {
    let size = |i: usize| match 3 + 47 * i / (TABLES - 1) {
        6 => 8,
        7 => 14,
        n => n,
    };
    let mut all: Vec<Vec<u8>> = (0..TABLES)
        .map(|i| table_of(&load::subscription(size(i))))
        .collect();
    let mut dice = Dice(0x0123_4567_89ab_cdef);
    for i in (1..all.len()).rev() {
        all.swap(i, dice.next(i + 1));
    }
    all
}

fn one_by_one(tables: &[Vec<u8>], notice: &[u8], verdicts: &mut [u8]) {
    for (table, verdict) in tables.iter().zip(verdicts) {
        *verdict = ours::guarded(table, notice).2;
    }
}

pub fn rows(pace: Pace) {
    println!(
        "\n{:<56}{:>12}{:>12}{:>8}",
        format!("{TABLES} subscriptions, per notice"),
        "run_many ns",
        "other",
        "ratio"
    );
    let tables = tables();
    let joined = tables.concat();
    for fields in [1, 8, 64] {
        let notice = load::notice(fields);
        let [mut x, mut y, mut z] = [[0u8; TABLES]; 3];
        assert_eq!(ours::many(&joined, &notice, &mut x), (0, 0, TABLES));
        assert_eq!(expert::many(&joined, &notice, &mut y), (0, 0, TABLES));
        one_by_one(&tables, &notice, &mut z);
        assert_eq!((x, x), (y, z));
        let all = times(&tables, &joined, &notice, pace);
        for (k, name) in WAYS.iter().enumerate().skip(1) {
            row(
                &format!("{}, beside {name}", fields_of(fields)),
                middle(&all, |r| r[0]),
                middle(&all, |r| r[k]),
                middle(&all, |r| r[0] / r[k]),
            );
        }
    }
}

/// The ways to the same verdicts, one call first.
const WAYS: [&str; 4] = [
    "one call",
    "40 guarded runs",
    "40 table checks and inner runs",
    "the expert's call",
];

/// Nanoseconds of each way, round by round; the tables one after the other in all of them. An inner run is what a second run of a table
/// just run adds, since nothing runs a table that was not checked.
fn times(tables: &[Vec<u8>], joined: &[u8], notice: &[u8], pace: Pace) -> Vec<[f64; 4]> {
    let [mut x, mut y, mut z] = [[0u8; TABLES]; 3];
    let mut many = |times| {
        for _ in 0..times {
            black_box(ours::many(black_box(joined), black_box(notice), &mut x));
        }
    };
    let mut expert = |times| {
        for _ in 0..times {
            black_box(expert::many(black_box(joined), black_box(notice), &mut y));
        }
    };
    let mut guarded = |times| {
        for _ in 0..times {
            one_by_one(black_box(tables), black_box(notice), black_box(&mut z));
        }
    };
    let mut checks = |times| {
        for _ in 0..times {
            for table in tables {
                black_box(ours::check(black_box(table)));
            }
        }
    };
    let repeats = |times, runs| {
        for _ in 0..times {
            for table in tables {
                black_box(ours::repeat(black_box(table), black_box(notice), runs));
            }
        }
    };
    let (mut once, mut twice) = (|times| repeats(times, 1), |times| repeats(times, 2));
    rounds(
        [
            &mut many,
            &mut guarded,
            &mut checks,
            &mut once,
            &mut twice,
            &mut expert,
        ],
        pace,
    )
    .into_iter()
    .map(|[many, guarded, checks, once, twice, expert]| {
        [many, guarded, checks + twice - once, expert]
    })
    .collect()
}

/// Tables end to end: right ones, ones with a byte changed, parts of them, and zeros.
fn laid(dice: &mut Dice, of: &[Vec<u8>]) -> Vec<u8> {
    let count = [0, 1, 2, 5, 40, 63, 64, 65][dice.next(8)];
    let mut all = Vec::new();
    for _ in 0..count {
        let mut table = of[dice.next(of.len())].clone();
        match dice.next(12) {
            0 => {
                let at = 4 + dice.next(table.len() - 4);
                table[at] = dice.next(256) as u8;
            }
            1 => table = vec![0; 4],
            2 if dice.next(8) == 0 => table[0] = dice.next(256) as u8,
            _ => (),
        }
        all.extend(table);
    }
    if dice.next(3) == 0 {
        all.truncate(all.len().saturating_sub(1 + dice.next(60)));
    }
    all
}

/// Both sides on random tables end to end.
pub fn agree(cases: usize) {
    let mut dice = Dice(0x1357_9bdf_0246_8ace);
    let of: Vec<Vec<u8>> = [3, 4, 5, 8, 10, 14, 20]
        .map(|n| table_of(&load::subscription(n)))
        .to_vec();
    let mut counts = [0usize; 25];
    for _ in 0..cases {
        let tables = laid(&mut dice, &of);
        let mut notice = load::notice([1, 2, 8, 64][dice.next(4)]);
        if dice.next(8) == 0 {
            let at = dice.next(notice.len());
            notice[at] = dice.next(256) as u8;
        }
        let room = [64, 70, dice.next(66)][dice.next(3)];
        let (mut x, mut y) = (vec![7u8; room], vec![7u8; room]);
        let answer = ours::many(&tables, &notice, &mut x);
        assert_eq!(answer, expert::many(&tables, &notice, &mut y), "{tables:?}");
        assert_eq!(x, y, "{tables:?}");
        counts[answer.0 as usize] += 1;
    }
    let counts: Vec<String> = [0, 9, 11, 24]
        .iter()
        .map(|number| format!("{number}: {}", counts[*number as usize]))
        .collect();
    println!(
        "same answers on {cases} random lists of tables by number {}",
        counts.join(", ")
    );
}
