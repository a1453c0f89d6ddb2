//! The store of tables (document 02, request 12), beside the expert's; and a match of all that it holds beside run_many, beside fetches and
//! guarded runs one by one, and beside the expert's.

use crate::clock::{compare, middle, rounds, Pace};
use crate::load::{self, Dice};
use crate::{entries_of, fields_of, head, many, row, table_of};
use bench::store::{expert, ours};
use std::hint::black_box;

/// The most that a store holds.
const PLACES: usize = 64;

/// A store with these tables, in a buffer that it fills but for so many bytes.
fn store_of(tables: &[Vec<u8>], spare: usize) -> Vec<u8> {
    let size: usize = tables.iter().map(|table| 4 + table.len()).sum();
    let (mut x, mut y) = (vec![0u8; 8 + size + spare], vec![0u8; 8 + size + spare]);
    assert_eq!((ours::make(&mut x), expert::make(&mut y)), (0, 0));
    for (id, table) in tables.iter().enumerate() {
        assert_eq!(ours::add(&mut x, table), (0, id));
        assert_eq!(expert::add(&mut y, table), (0, id));
    }
    assert_eq!(x, y);
    x
}

pub fn rows(pace: Pace) {
    fetches(pace);
    turns(pace);
    matches(pace);
}

fn fetches(pace: Pace) {
    head("store: fetch of one table", "ns");
    let table = table_of("Op == 42");
    for (held, id) in [(64, 63), (64, 0), (40, 39), (1, 0)] {
        let store = store_of(&vec![table.clone(); held], 0);
        assert_eq!(ours::fetch(&store, id), expert::fetch(&store, id));
        assert_eq!(ours::fetch(&store, id).0, 0);
        let (a, b, r) = compare(
            &mut |times| {
                for _ in 0..times {
                    black_box(ours::fetch(black_box(&store), black_box(id)));
                }
            },
            &mut |times| {
                for _ in 0..times {
                    black_box(expert::fetch(black_box(&store), black_box(id)));
                }
            },
            pace,
        );
        row(&format!("number {id} of {held}"), a, b, r);
    }
}

/// A table removed and added again: in the end it lies behind the others, so that a first one makes all others move each time.
fn turns(pace: Pace) {
    head("store: a table removed and added again", "ns");
    for (entries, held) in [(3, 64), (3, 1), (50, 40), (50, 1)] {
        let table = table_of(&load::subscription(entries));
        assert_eq!(entries_of(&table), entries);
        let tables = vec![table.clone(); held];
        for first in [true, false] {
            if held == 1 && !first {
                continue;
            }
            let (mut x, mut y) = (store_of(&tables, 0), store_of(&tables, 0));
            // the record that is first, or last, in the buffer: by turns each number is, or one stays the last
            let mut next = (0, 0);
            let id = move |at: &mut usize| match first {
                true => {
                    *at = (*at + 1) % held;
                    (*at + held - 1) % held
                }
                false => held - 1,
            };
            for _ in 0..2 * held {
                let (k, l) = (id(&mut next.0), id(&mut next.1));
                assert_eq!(
                    (ours::remove(&mut x, k), ours::add(&mut x, &table)),
                    (0, (0, k))
                );
                assert_eq!(
                    (expert::remove(&mut y, l), expert::add(&mut y, &table)),
                    (0, (0, l))
                );
                assert_eq!(x, y);
            }
            let (mut k, mut l) = next;
            let (a, b, r) = compare(
                &mut |times| {
                    for _ in 0..times {
                        black_box(ours::remove(black_box(&mut x), id(&mut k)));
                        black_box(ours::add(black_box(&mut x), black_box(&table)));
                    }
                },
                &mut |times| {
                    for _ in 0..times {
                        black_box(expert::remove(black_box(&mut y), id(&mut l)));
                        black_box(expert::add(black_box(&mut y), black_box(&table)));
                    }
                },
                pace,
            );
            let which = if first { "first" } else { "last" };
            row(
                &format!("the {which} of {held} tables of {} bytes", table.len()),
                a,
                b,
                r,
            );
        }
    }
}

/// The ways to the same verdicts, a match first.
const WAYS: [&str; 4] = [
    "a match",
    "run_many on the same tables",
    "40 fetches and guarded runs",
    "the expert's match",
];

fn matches(pace: Pace) {
    println!(
        "\n{:<56}{:>12}{:>12}{:>8}",
        format!("store: {} held tables, per notice", many::TABLES),
        "match ns",
        "other",
        "ratio"
    );
    let tables = many::tables();
    let (store, joined) = (store_of(&tables, 0), tables.concat());
    for fields in [1, 8, 64] {
        let notice = load::notice(fields);
        let all = times(&store, &joined, &notice, pace);
        for (k, name) in WAYS.iter().enumerate().skip(1) {
            row(
                &format!("{}, beside {name}", fields_of(fields)),
                middle(&all, |r| r[0]),
                middle(&all, |r| r[k]),
                middle(&all, |r| r[0] / r[k]),
            );
        }
    }
}

fn one_by_one(store: &[u8], notice: &[u8], verdicts: &mut [u8]) {
    for (id, verdict) in verdicts.iter_mut().enumerate() {
        let (_, start, end) = ours::fetch(store, id);
        *verdict = bench::ours::guarded(&store[start..end], notice).2;
    }
}

/// Nanoseconds of each way, round by round.
fn times(store: &[u8], joined: &[u8], notice: &[u8], pace: Pace) -> Vec<[f64; 4]> {
    let ([mut x, mut y], [mut z, mut u]) = ([[0u8; PLACES]; 2], [[0u8; many::TABLES]; 2]);
    assert_eq!(ours::matching(store, notice, &mut x), (0, 0));
    assert_eq!(expert::matching(store, notice, &mut y), (0, 0));
    bench::ours::many(joined, notice, &mut z);
    one_by_one(store, notice, &mut u);
    assert_eq!((x, z), (y, u));
    assert_eq!(
        (&x[..many::TABLES], &x[many::TABLES..]),
        (&z[..], &[4; 24][..])
    );
    rounds(
        [
            &mut |times| {
                for _ in 0..times {
                    black_box(ours::matching(black_box(store), black_box(notice), &mut x));
                }
            },
            &mut |times| {
                for _ in 0..times {
                    black_box(bench::ours::many(
                        black_box(joined),
                        black_box(notice),
                        &mut z,
                    ));
                }
            },
            &mut |times| {
                for _ in 0..times {
                    one_by_one(black_box(store), black_box(notice), black_box(&mut u));
                }
            },
            &mut |times| {
                for _ in 0..times {
                    black_box(expert::matching(
                        black_box(store),
                        black_box(notice),
                        &mut y,
                    ));
                }
            },
        ],
        pace,
    )
}

/// Both sides on random calls, one after the other, with bytes that others write now and then.
pub fn agree(cases: usize) {
    let mut dice = Dice(0x2468_ace0_1357_9bdf);
    let of: Vec<Vec<u8>> = [3, 4, 8, 20]
        .map(|n| table_of(&load::subscription(n)))
        .to_vec();
    let mut counts = [0usize; 30];
    for _ in 0..cases {
        let room = [dice.next(9), 8 + dice.next(400), 70 * 64, 65_536][dice.next(4)];
        let (mut x, mut y) = (vec![7u8; room], vec![7u8; room]);
        if dice.next(8) > 0 {
            assert_eq!(ours::make(&mut x), expert::make(&mut y));
        }
        for _ in 0..[4, 12, 80, 150][dice.next(4)] {
            counts[call(&mut dice, &of, &mut x, &mut y) as usize] += 1;
            assert_eq!(x, y);
        }
    }
    let numbers = [0, 9, 11, 12, 26, 27, 28, 29].iter();
    let counts: Vec<String> = numbers
        .map(|number| format!("{number}: {}", counts[*number as usize]))
        .collect();
    println!(
        "same answers on {cases} random stores; calls by number {}",
        counts.join(", ")
    );
}

/// One call on both sides; the number that it is answered by.
fn call(dice: &mut Dice, of: &[Vec<u8>], x: &mut [u8], y: &mut [u8]) -> u8 {
    let id = dice.next(66);
    match dice.next(16) {
        0 | 1 => {
            let number = ours::remove(x, id);
            assert_eq!(number, expert::remove(y, id));
            number
        }
        2 | 3 => {
            let answer = ours::fetch(x, id);
            assert_eq!(answer, expert::fetch(y, id));
            answer.0
        }
        4 => {
            let mut notice = load::notice([1, 8][dice.next(2)]);
            if dice.next(4) == 0 {
                let at = dice.next(notice.len());
                notice[at] = dice.next(256) as u8;
            }
            let (mut v, mut w) = ([7u8; 70], [7u8; 70]);
            let room = [64, 70, dice.next(64)][dice.next(3)];
            let answer = ours::matching(x, &notice, &mut v[..room]);
            assert_eq!(answer, expert::matching(y, &notice, &mut w[..room]));
            assert_eq!(v, w);
            answer.0
        }
        5 if dice.next(8) == 0 && !x.is_empty() => {
            let (at, byte) = (dice.next(x.len().min(200)), dice.next(256) as u8);
            (x[at], y[at]) = (byte, byte);
            0
        }
        _ => {
            let mut table = of[dice.next(of.len())].clone();
            if dice.next(10) == 0 {
                let at = dice.next(table.len());
                table[at] = dice.next(256) as u8;
            }
            let answer = ours::add(x, &table);
            assert_eq!(answer, expert::add(y, &table));
            answer.0
        }
    }
}
