//! The worst inputs found for each function of include/virentolex.h, ours alone. Each is made in two sizes, the whole about twice the
//! half, and a byte's time in the whole is told beside that in the half: about 1 where the time grows as the bytes do, about 2 where
//! it grows as their square.

use crate::clock::{self, Pace};
use crate::hostile::{self, alike, eight, name, notice, often, string, table, Entry, FOLD};
use crate::mends::{falling as two_falling, in_turn, short_names};
use bench::mend::ours as mend;
use bench::ours;
use bench::store::ours as store;
use std::hint::black_box;

/// An input in one size: the number it is answered by, how many bytes it makes the function look at (`Family`), and the call.
struct Case {
    number: u8,
    bytes: usize,
    call: Box<dyn FnMut() -> u8>,
}

/// An input that grows: `of(1)` is the half and `of(2)` the whole. The bytes of a case are
/// - of a text, a UBF(A) text, a notice and bytes to mend its length, of a decision its length and the notice's, of a store its buffer's;
/// - of a table in a check its length, and a name's bytes for each entry that names them;
/// - of a run, of many too, its table's length, for each string operator the bytes of both its operands with each literal, for each `size` those
///   of its string, and for each name the bytes of all the notice's fields but their values.
struct Family {
    name: String,
    of: Box<dyn Fn(usize) -> Case>,
}

const RUNS: usize = 9;
/// So many where a call takes over 50 ms.
const SLOW_RUNS: usize = 3;

/// So many calls, each answered as it should be.
fn calls(case: &mut Case, times: u32) {
    for _ in 0..times {
        assert_eq!(black_box((case.call)()), case.number);
    }
}

/// Nanoseconds of a call of the whole and its time over that of the half: the medians of the runs, the two in turn.
fn times(half: &mut Case, whole: &mut Case) -> (f64, f64) {
    let start = clock::now();
    calls(whole, 1);
    let slow = clock::now() - start > 5e7;
    let pace = Pace {
        rounds: if slow { SLOW_RUNS } else { RUNS },
        round: 1e5,
    };
    let (time, _, growth) = clock::compare(
        &mut |times| calls(whole, times),
        &mut |times| calls(half, times),
        pace,
    );
    (time, growth)
}

fn told(title: &str, families: Vec<Family>) {
    println!(
        "\n{title:<60}{:>8}{:>10}{:>12}{:>10}{:>8}",
        "number", "bytes", "us", "ns/byte", "growth"
    );
    for family in families {
        let (mut half, mut whole) = ((family.of)(1), (family.of)(2));
        let (time, growth) = times(&mut half, &mut whole);
        println!(
            "{:<60}{:>8}{:>10}{:>12.1}{:>10.2}{:>8.2}",
            family.name,
            whole.number,
            whole.bytes,
            time / 1e3,
            time / whole.bytes as f64,
            growth * half.bytes as f64 / whole.bytes as f64
        );
    }
}

pub fn rows() {
    println!("ours alone, processor time; medians of {RUNS} runs, of {SLOW_RUNS} where a call takes over 50 ms");
    println!(
        "growth: a byte's time in the whole over that in an input half as long, the two in turn"
    );
    told("virentolex_run: strings", strings());
    told("virentolex_run: names and numbers", names_and_numbers());
    told("virentolex_run: patterns", patterns());
    told("virentolex_run: regular expressions", expressions());
    told("virentolex_run_many", many());
    told(
        "virentolex_store_* (with the store copied, but for a match)",
        stores(),
    );
    told("virentolex_check, virentolex_entry", checks());
    told(
        "virentolex_check_notice, virentolex_read, virentolex_find",
        notices(),
    );
    told("virentolex_write (with 16,384 bytes copied)", writes());
    told(
        "virentolex_quorum_open, virentolex_quorum_show",
        decisions(),
    );
    told("virentolex_translate", translations());
    told("virentolex_ubf_read, virentolex_ubf_write", doors());
    told("virentolex_mend", mends());
}

fn family(name: impl Into<String>, of: impl Fn(usize) -> Case + 'static) -> Family {
    Family {
        name: name.into(),
        of: Box::new(of),
    }
}

// ---- runs

fn run(entries: &[Entry], pool: &[u8], notice: &[u8], bytes: usize) -> Case {
    let (table, notice) = (table(entries, pool), notice.to_vec());
    Case {
        number: 0,
        bytes: table.len() + bytes,
        call: Box::new(move || ours::guarded(&table, &notice).0),
    }
}

/// The bytes of a string operator with eight literals: both operands with each.
fn both(first: usize, literal: usize) -> usize {
    8 * (first + literal)
}

/// How often a group stands in the entries that `often` makes of it.
fn groups(group: &[Entry]) -> usize {
    513 / (group.len() + 1)
}

/// The strings a, ab, aba, abaab and so on, each the last two together: the one that makes a search by borders fall back most.
fn fibonacci(len: usize) -> Vec<u8> {
    let (mut a, mut b) = (b"a".to_vec(), b"ab".to_vec());
    while b.len() < len {
        (a, b) = (b.clone(), [b, a].concat());
    }
    b.truncate(len);
    b
}

/// `contains` with eight literals on one string, both in the pool, no literal contained.
fn contains(first: Vec<u8>, literal: Vec<u8>, mark: bool) -> Case {
    let mut load = vec![string(first.len(), 0)];
    if mark {
        load.push(FOLD);
    }
    let group = eight(&load, &[string(literal.len(), first.len())], 57);
    let bytes = both(first.len(), literal.len());
    run(&group, &[first, literal].concat(), &hostile::EMPTY, bytes)
}

fn strings() -> Vec<Family> {
    let mut all = Vec::new();
    for (marks, how) in [(0, ""), (1, ", folded"), (2, ", both folded")] {
        all.push(family(
            format!("contains in the pool, 2,048 in 4,095{how}"),
            move |k| {
                let (group, pool) = hostile::almost_contained(1024 * k, marks);
                let bytes = groups(&group) * both(2048 * k - 1, 1024 * k);
                run(&often(&group), &pool, &hostile::EMPTY, bytes)
            },
        ));
    }
    for (mark, how) in [(false, ""), (true, ", folded")] {
        all.push(family(
            format!("contains in a field, 512 in 1,024{how}"),
            move |k| {
                let (group, pool, notice) = hostile::almost_contained_field(256 * k, mark);
                let bytes = groups(&group) * both(512 * k, 256 * k);
                run(&often(&group), &pool, &notice, bytes)
            },
        ));
    }
    all.push(family(
        "contains of a text: one of 1,331 in a folded 2,650",
        |k| {
            let (n, m) = (1325 * k, 665 * k + 1);
            let pool = [vec![b'a'; n + m - 1], vec![b'b']].concat();
            let entries = [string(n, 0), FOLD, string(m, n), (57, 1, 0)];
            run(&entries, &pool, &hostile::EMPTY, n + m)
        },
    ));
    all.push(family(
        "contains of a text: 8 of 491 in a field of 1,024",
        |k| {
            let (n, m) = (512 * k, 245 * k + 1);
            let literal = [vec![b'a'; m - 1], vec![b'b']].concat();
            let mut entries = vec![name(1, 0)];
            entries.extend((0..8).map(|i| string(m, 1 + m * i)));
            entries.push((57, 8, 0));
            let field = notice(&[(b"s".to_vec(), 4, vec![b'a'; n])]);
            run(
                &entries,
                &[b"s".to_vec(), literal.repeat(8)].concat(),
                &field,
                both(n, m),
            )
        },
    ));
    all.push(family(
        "contains, one group: 1,300 of a Fibonacci string in 2,700",
        |k| {
            let mut literal = fibonacci(650 * k);
            let last = literal.len() - 1;
            literal[last] = b'c';
            contains(fibonacci(1350 * k), literal, false)
        },
    ));
    all.push(family("contains, one group: 32 a's in runs of 31", |k| {
        let first = [vec![b'a'; 31], vec![b'b']].concat().repeat(60 * k);
        contains(first, vec![b'a'; 32], false)
    }));
    for m in [63, 64, 65, 256] {
        all.push(family(
            format!("contains, one group: {m} bytes in 3,800, folded"),
            move |k| {
                let literal = [vec![b'a'; m - 1], vec![b'b']].concat();
                contains(vec![b'A'; 1900 * k], literal, true)
            },
        ));
    }
    all.push(family("contains, one group: \"ab\" in 4,000 a's", |k| {
        contains(vec![b'a'; 2000 * k], b"ab".to_vec(), false)
    }));
    all.push(family("contains, one group: \"b\" in 4,000 a's", |k| {
        contains(vec![b'a'; 2000 * k], b"b".to_vec(), false)
    }));
    for (op, what) in [(59, "equals"), (56, "begins-with"), (58, "ends-with")] {
        for (marks, how) in [(0, ""), (1, ", folded"), (2, ", both folded")] {
            all.push(family(
                format!("{what} of 4,095 with 4,094 bytes alike{how}"),
                move |k| {
                    let n = 2048 * k - 1;
                    let mut first = vec![string(n, 0)];
                    let mut later = vec![string(n, 1)];
                    first.extend((marks > 0).then_some(FOLD));
                    later.extend((marks > 1).then_some(FOLD));
                    let group = eight(&first, &later, op);
                    let pool = [vec![b'a'; n], vec![b'b']].concat();
                    let bytes = groups(&group) * both(n, n);
                    run(&often(&group), &pool, &hostile::EMPTY, bytes)
                },
            ));
        }
    }
    // document 02, request 2
    for (what, unit, ill_formed) in [
        ("1 byte", "a", false),
        ("2 bytes", "\u{e9}", false),
        ("4 bytes", "\u{1f695}", false),
        ("1 and 3 bytes by turns", "a\u{8f66}", false),
        ("2 bytes, the last cut", "\u{e9}", true),
    ] {
        all.push(family(
            format!("size of 4,096 bytes, characters of {what}"),
            move |k| {
                let n = 2048 * k;
                let mut pool = unit.repeat(n / unit.len()).into_bytes();
                if ill_formed {
                    pool[n - 1] = b'a';
                }
                let group = [string(n, 0), (7, 0, 0), (1, 0, 0), (32, 0, 0)];
                let bytes = groups(&group) * n;
                run(&often(&group), &pool, &hostile::EMPTY, bytes)
            },
        ));
    }
    all.push(family("== of 4,096 bytes, both folded", |k| {
        let n = 2048 * k;
        let group = [string(n, 0), FOLD, string(n, 0), FOLD, (32, 0, 0)];
        let bytes = groups(&group) * 2 * n;
        run(&often(&group), &vec![b'A'; n], &hostile::EMPTY, bytes)
    }));
    all
}

/// Lookups of one name, as many as fit, in a notice of int32 fields.
fn lookups(names: Vec<Vec<u8>>, sought: Vec<u8>) -> Case {
    let group = eight(
        &[name(sought.len(), 0)],
        &[name(sought.len(), 0)],
        // `equals`
        59,
    );
    let seen: usize = names.iter().map(|name| 5 + name.len()).sum();
    let fields: Vec<_> = names
        .into_iter()
        .map(|name| (name, 1, vec![0; 4]))
        .collect();
    let bytes = groups(&group) * 9 * seen;
    run(&often(&group), &sought, &notice(&fields), bytes)
}

/// One operator on two numbers, with an answer that is compared with the second.
fn numbers(x: Entry, y: Entry, op: u16, k: usize) -> Case {
    let group = [x, y, (op, 0, 0), y, (34, 0, 0)];
    let entries = hostile::times(&group, 42 * k);
    run(&entries, b"", &hostile::EMPTY, 0)
}

fn names_and_numbers() -> Vec<Family> {
    let one = |n: usize| (0..n).map(|i| vec![33 + i as u8]).collect::<Vec<_>>();
    let real = |bits: u64| (3, 0, bits);
    let mut all = vec![
        family("414 lookups, 64 names of 64 bytes that share 62", |k| {
            let names = alike(64, 32 * k);
            let sought = names[63].clone();
            lookups(names, sought)
        }),
        family("414 lookups of a name that 64 fields have not", |k| {
            lookups(
                alike(64, 32 * k),
                [vec![b'n'; 32 * k - 2], b"99".to_vec()].concat(),
            )
        }),
        family("414 lookups, 64 names of one byte", move |k| {
            let names = one(32 * k);
            let sought = names[32 * k - 1].clone();
            lookups(names, sought)
        }),
    ];
    let rows = [
        (
            "/ of reals, the answer subnormal",
            real(1 << 54),
            real(0x4370_0000_0000_0001),
            23,
        ),
        (
            "* of reals, one subnormal",
            real(1),
            real(0x3ff8_0000_0000_0001),
            22,
        ),
        ("+ of subnormal reals", real(3), real(5), 25),
        ("/ of int64", (2, 0, i64::MAX as u64), (2, 0, 3), 23),
        (
            "% of int64",
            (2, 0, i64::MIN as u64),
            (2, 0, u64::MAX - 6),
            24,
        ),
        (
            "* of int64, past the range",
            (2, 0, i64::MAX as u64),
            (2, 0, 3),
            22,
        ),
        (
            "* of int64, within it",
            (2, 0, 3037000499),
            (2, 0, 3037000499),
            22,
        ),
        ("<< of int64", (2, 0, 1), (2, 0, 63), 16),
    ];
    for (name, x, y, op) in rows {
        all.push(family(format!("84 times {name}"), move |k| {
            numbers(x, y, op, k)
        }));
    }
    all
}

/// So many times the table, end to end, whose run looks at these bytes beside it.
fn deliver(table: Vec<u8>, count: usize, notice: Vec<u8>, bytes: usize) -> Case {
    let (tables, mut verdicts) = (table.repeat(count), vec![0; count]);
    Case {
        number: 0,
        bytes: notice.len() + count * (table.len() + bytes),
        call: Box::new(move || ours::many(black_box(&tables), &notice, &mut verdicts).0),
    }
}

fn many() -> Vec<Family> {
    vec![
        family("64 tables, 414 lookups each, 64 names as above", |k| {
            let names = alike(64, 64);
            let group = eight(&[name(64, 0)], &[name(64, 0)], 59);
            let table = table(&often(&group), &names[63]);
            let fields: Vec<_> = names
                .into_iter()
                .map(|name| (name, 1, vec![0; 4]))
                .collect();
            let bytes = groups(&group) * 9 * 64 * 69;
            deliver(table, 32 * k, notice(&fields), bytes)
        }),
        family("64 tables, contains in the pool, folded, as above", |k| {
            let (group, pool) = hostile::almost_contained(2048, 1);
            let bytes = groups(&group) * both(4095, 2048);
            let table = table(&often(&group), &pool);
            deliver(table, 32 * k, hostile::EMPTY.to_vec(), bytes)
        }),
    ]
}

/// A store that holds these tables, and so many bytes more.
fn store_of(tables: &[Vec<u8>], spare: usize) -> Vec<u8> {
    let size: usize = tables.iter().map(|table| 4 + table.len()).sum();
    let mut buffer = vec![0; 8 + size + spare];
    assert_eq!(store::make(&mut buffer), 0);
    for (id, table) in tables.iter().enumerate() {
        assert_eq!(store::add(&mut buffer, table), (0, id));
    }
    buffer
}

/// A call on a copy of the store, which looks at these bytes beside it.
fn on_store(store: Vec<u8>, bytes: usize, call: impl Fn(&mut [u8]) -> u8 + 'static) -> Case {
    let mut copy = store.clone();
    Case {
        number: 0,
        bytes: store.len() + bytes,
        call: Box::new(move || {
            copy.copy_from_slice(&store);
            call(black_box(&mut copy))
        }),
    }
}

/// A match of these tables, whose runs look at these bytes beside them.
fn matched(table: Vec<u8>, count: usize, notice: Vec<u8>, bytes: usize) -> Case {
    let (store, mut verdicts) = (store_of(&vec![table; count], 0), [0; 64]);
    Case {
        number: 0,
        bytes: store.len() + notice.len() + count * bytes,
        call: Box::new(move || store::matching(black_box(&store), &notice, &mut verdicts).0),
    }
}

fn stores() -> Vec<Family> {
    // `1 == 1` with so much pool
    let plain = |pool: usize| {
        let one = (1, 0, 1);
        table(&[one, one, (32, 0, 0)], &vec![b'p'; pool])
    };
    vec![
        family("fetch: the last of 64 tables of 46 bytes", move |k| {
            let store = store_of(&vec![plain(0); 32 * k], 0);
            on_store(store, 0, move |store| store::fetch(store, 32 * k - 1).0)
        }),
        family("remove: the first of 63, 65,520 bytes", move |k| {
            let store = store_of(&vec![plain(990); 32 * k - 1], 0);
            on_store(store, 0, |store| store::remove(store, 0))
        }),
        family("remove: a small one before 15 of 4,142 bytes", move |k| {
            let tables = [vec![plain(0)], vec![plain(4096); 8 * k - 1]].concat();
            on_store(store_of(&tables, 0), 0, |store| store::remove(store, 0))
        }),
        family(
            "add: 414 names of 64 bytes, 10,000 bytes, 63 held",
            move |k| {
                let group = eight(&[name(64, 0)], &[name(64, 0)], 59);
                let table = table(&hostile::times(&group, 23 * k), &vec![b'n'; 2048 * k]);
                let store = store_of(&vec![plain(0); 32 * k - 1], 4 + table.len());
                let bytes = 23 * k * 9 * 64;
                on_store(store, bytes, move |store| store::add(store, &table).0)
            },
        ),
        family("match: 6 tables, 414 lookups each, as above", |k| {
            let names = alike(64, 64);
            let group = eight(&[name(64, 0)], &[name(64, 0)], 59);
            let table = table(&often(&group), &names[63]);
            let fields: Vec<_> = names
                .into_iter()
                .map(|name| (name, 1, vec![0; 4]))
                .collect();
            let bytes = groups(&group) * 9 * 64 * 69;
            matched(table, 3 * k, notice(&fields), bytes)
        }),
        family("match: 6 tables, contains in the pool, as above", |k| {
            let (group, pool) = hostile::almost_contained(2048, 1);
            let bytes = groups(&group) * both(4095, 2048);
            let table = table(&often(&group), &pool);
            matched(table, 3 * k, hostile::EMPTY.to_vec(), bytes)
        }),
    ]
}

/// `wildcard` with eight patterns on a field of so many a's, as often as it fits.
fn wildcard(n: usize, pattern: Vec<u8>) -> Case {
    patterned(60, n, pattern)
}

/// The same of `regex`.
fn regex(n: usize, pattern: Vec<u8>) -> Case {
    patterned(61, n, pattern)
}

fn patterned(op: u16, n: usize, pattern: Vec<u8>) -> Case {
    let group = eight(&[name(1, 0)], &[string(pattern.len(), 1)], op);
    let bytes = groups(&group) * both(n, pattern.len());
    let field = notice(&[(b"s".to_vec(), 4, vec![b'a'; n])]);
    run(
        &often(&group),
        &[b"s".to_vec(), pattern].concat(),
        &field,
        bytes,
    )
}

/// Document 02, request 1. A pattern may cost its bytes times the value's.
fn patterns() -> Vec<Family> {
    let mut all = vec![
        family("*a*a*a*a*b on a field of 1,024", |k| {
            wildcard(512 * k, b"*a*a*a*a*b".to_vec())
        }),
        family("* and a's by turns, then b, 512 on a field of 1,024", |k| {
            wildcard(
                512 * k,
                [b"*a".repeat(128 * k - 1), b"*b".to_vec()].concat(),
            )
        }),
        family("*, 511 a's and b on a field of 1,024", |k| {
            let literal = vec![b'a'; 256 * k - 1];
            wildcard(512 * k, [b"*".to_vec(), literal, b"b".to_vec()].concat())
        }),
        family("* and a set of 500 members on a field of 1,024", |k| {
            let members = vec![b'b'; 248 * k];
            wildcard(512 * k, [b"*[".to_vec(), members, b"]".to_vec()].concat())
        }),
        family("*, 511 times ? and b on a field of 1,024", |k| {
            let any = vec![b'?'; 256 * k - 1];
            wildcard(512 * k, [b"*".to_vec(), any, b"b".to_vec()].concat())
        }),
    ];
    all.push(family(
        "* and 2,047 a's on 4,095 in the pool, the last b",
        |k| {
            // the pattern begins the pool, and the value is all but the pool's first byte
            let m = 1024 * k;
            let pool = [b"*".to_vec(), vec![b'a'; 2 * m - 2], b"b".to_vec()].concat();
            let group = eight(&[string(2 * m - 1, 1)], &[string(m, 0)], 60);
            let bytes = groups(&group) * both(2 * m - 1, m);
            run(&often(&group), &pool, &hostile::EMPTY, bytes)
        },
    ));
    all.push(family("*, 1,361 a's, b and * on 2,728 in the pool", |k| {
        let (n, m) = (1364 * k, 682 * k);
        let pattern = [b"*".to_vec(), vec![b'a'; m - 3], b"b*".to_vec()].concat();
        let group = eight(&[string(n, m)], &[string(m, 0)], 60);
        let pool = [pattern, vec![b'a'; n]].concat();
        let bytes = groups(&group) * both(n, m);
        run(&often(&group), &pool, &hostile::EMPTY, bytes)
    }));
    all
}

/// Document 02, request 13. A pattern may cost its bytes times the value's.
fn expressions() -> Vec<Family> {
    let mut all = vec![
        family("(a*)*b on a field of 1,024", |k| {
            regex(512 * k, b"(a*)*b".to_vec())
        }),
        family("(a|aa)*b on a field of 1,024", |k| {
            regex(512 * k, b"(a|aa)*b".to_vec())
        }),
        family("8 groups under stars, then b, on a field of 1,024", |k| {
            let groups = [
                b"(".repeat(8),
                b"a".to_vec(),
                b")*".repeat(8),
                b"b".to_vec(),
            ];
            regex(512 * k, groups.concat())
        }),
        family("128 times a?, then b, on a field of 1,024", |k| {
            regex(512 * k, [b"a?".repeat(64 * k), b"b".to_vec()].concat())
        }),
        family(
            "256 branches, of which none fits, on a field of 1,024",
            |k| regex(512 * k, [b"ab|".repeat(85 * k), b"b".to_vec()].concat()),
        ),
        family("a set of 256 members, then b, on a field of 1,024", |k| {
            let members = vec![b'a'; 124 * k];
            regex(512 * k, [b"[".to_vec(), members, b"]*b".to_vec()].concat())
        }),
    ];
    all.push(family(
        "2,047 times .?, then b, on the pool, one operator",
        |k| {
            // the pool is the pattern, and all but its last byte the value
            let pool = [b".?".repeat(1024 * k - 1), b"b".to_vec()].concat();
            let (n, m) = (pool.len() - 1, pool.len());
            let group = [string(n, 0), string(m, 0), (61, 1, 0)];
            run(&group, &pool, &hostile::EMPTY, n + m)
        },
    ));
    all.push(family(
        "1,024 branches, of which none fits, on the pool, one operator",
        |k| {
            // what the branches mean stands nowhere in their text
            let pool = [b"a\\b|".repeat(512 * k - 1), b"a\\b".to_vec()].concat();
            let n = pool.len();
            let group = [string(n, 0), string(n, 0), (61, 1, 0)];
            run(&group, &pool, &hostile::EMPTY, 2 * n)
        },
    ));
    all
}

// ---- table checks

fn check(entries: &[Entry], pool: &[u8], number: u8) -> Case {
    let named: usize = entries
        .iter()
        .filter(|entry| entry.0 == 5)
        .map(|entry| entry.1 as usize)
        .sum();
    let table = table(entries, pool);
    Case {
        number,
        bytes: table.len() + named,
        call: Box::new(move || 12 * !ours::check(&table) as u8),
    }
}

fn checks() -> Vec<Family> {
    let equal: [Entry; 3] = [(1, 0, 1), (1, 0, 1), (32, 0, 0)];
    vec![
        family("414 names of 64 bytes", |k| {
            let group = eight(&[name(64, 0)], &[name(64, 0)], 59);
            check(&hostile::times(&group, 23 * k), &[b'n'; 64], 0)
        }),
        family("256 names of 64 bytes, each compared with one", |k| {
            let group = [name(64, 0), name(63, 1), (32, 0, 0)];
            check(&hostile::times(&group, 64 * k), &[b'n'; 4096], 0)
        }),
        family("`equals` of 8 numbers", |k| {
            let group = eight(&[(1, 0, 1)], &[(1, 0, 1)], 59);
            check(&hostile::times(&group, 23 * k), b"", 0)
        }),
        family("368 patterns of 4,000 bytes", |k| {
            let n = 2000 * k;
            let group = eight(&[string(0, 0)], &[string(n, 0)], 60);
            let mut case = check(&often(&group), &b"[!a-z]\\*?x".repeat(n / 10), 0);
            case.bytes += groups(&group) * 8 * n;
            case
        }),
        family("368 patterns of one set of 4,000 bytes", |k| {
            let n = 2000 * k;
            let group = eight(&[string(0, 0)], &[string(n, 0)], 60);
            let pool = [b"[".to_vec(), b"a-".repeat(n / 2 - 1), b"]".to_vec()].concat();
            let mut case = check(&often(&group), &pool, 0);
            case.bytes += groups(&group) * 8 * n;
            case
        }),
        family("508 skips to one place", move |k| {
            let mut entries = equal.to_vec();
            let n = 254 * k;
            entries.extend((0..n).map(|i| (44 + i as u16 % 2, (n - i) as u16, 0)));
            entries.push((40, 0, 0));
            check(&entries, b"", 0)
        }),
        family("508 skips, each to the next but one", move |k| {
            let mut entries = equal.to_vec();
            let n = 254 * k;
            entries.extend((0..n - 1).map(|i| (44 + i as u16 % 2, 1, 0)));
            entries.extend([(40, 0, 0), (40, 0, 0)]);
            check(&entries, b"", 0)
        }),
        family("509 times `!`", move |k| {
            let mut entries = equal.to_vec();
            entries.extend(vec![(40, 0, 0); 253 * k]);
            check(&entries, b"", 0)
        }),
        family("entry: one of 414 names of 64 bytes", |k| {
            let group = eight(&[name(64, 0)], &[name(64, 0)], 59);
            let entries = hostile::times(&group, 23 * k);
            let mut case = check(&entries, &[b'n'; 64], 0);
            let table = table(&entries, &[b'n'; 64]);
            case.call = Box::new(move || ours::entry(black_box(&table), 230 * k).0);
            case
        }),
        family("refused at the last entry", move |k| {
            let group = eight(&[name(64, 0)], &[name(64, 0)], 59);
            let mut entries = hostile::times(&group, 23 * k);
            entries.push((1, 0, 1));
            check(&entries, &[b'n'; 64], 12)
        }),
    ]
}

// ---- notices

/// So many string fields, with values that fill the notice.
fn full(names: Vec<Vec<u8>>, whole: usize) -> Vec<u8> {
    let count = names.len();
    let heads: usize = names.iter().map(|name| 5 + name.len()).sum();
    let mut room = whole - 8 - heads;
    let mut fields = Vec::new();
    for (i, name) in names.into_iter().enumerate() {
        let size = (room / (count - i)).min(1024);
        room -= size;
        fields.push((name, 4, vec![b'v'; size]));
    }
    notice(&fields)
}

fn notices() -> Vec<Family> {
    let check = |notice: Vec<u8>, number: u8| Case {
        number,
        bytes: notice.len(),
        call: Box::new(move || ours::check_notice(&notice).map_or(0, |_| 11)),
    };
    vec![
        family(
            "check: names of 64 bytes that share 62, no values",
            move |k| {
                let names = alike(32 * k, 64);
                let fields: Vec<_> = names.into_iter().map(|name| (name, 4, vec![])).collect();
                check(notice(&fields), 0)
            },
        ),
        family("check: the same, 16,384 bytes", move |k| {
            check(full(alike(32 * k, 64), 8192 * k), 0)
        }),
        family("check: names of one byte, no values", move |k| {
            let field = |i| (vec![33 + i as u8], 4, vec![]);
            check(notice(&(0..32 * k).map(field).collect::<Vec<_>>()), 0)
        }),
        family("check: 16 strings of 1,000 bytes", move |k| {
            check(full(alike(8 * k, 2), 8192 * k), 0)
        }),
        family("check: a byte too many at the end", move |k| {
            let mut all = full(alike(32 * k, 64), 8191 * k);
            all.push(0);
            let length = (all.len() - 4) as u32;
            all[..4].copy_from_slice(&length.to_le_bytes());
            check(all, 11)
        }),
        family("read: the last of 64 fields, 16,384 bytes", |k| {
            let notice = full(alike(32 * k, 64), 8192 * k);
            Case {
                number: 0,
                bytes: notice.len(),
                call: Box::new(move || ours::read(black_box(&notice), 32 * k - 1).0),
            }
        }),
        family(
            "find: above 64 names alike but before their last 8 bytes",
            |k| {
                let tail = |name: Vec<u8>| [name, b"nnnnnnnn".to_vec()].concat();
                let names = alike(32 * k, 56).into_iter().map(tail).collect();
                let notice = full(names, 8192 * k);
                let sought = tail([vec![b'n'; 54], b"99".to_vec()].concat());
                Case {
                    number: 0,
                    bytes: notice.len(),
                    call: Box::new(move || ours::find(black_box(&notice), &sought).0),
                }
            },
        ),
    ]
}

/// A field written to the notice. The buffer is set again before each call.
fn write(notice: Vec<u8>, name: Vec<u8>, value: usize, number: u8) -> Case {
    let mut buffer = vec![0; 16384];
    let value = vec![b'w'; value];
    Case {
        number,
        bytes: notice.len() + 5 + name.len() + value.len(),
        call: Box::new(move || {
            buffer[..notice.len()].copy_from_slice(&notice);
            ours::write(black_box(&mut buffer), notice.len(), &name, 4, &value).0
        }),
    }
}

fn writes() -> Vec<Family> {
    let later = |count: usize| alike(count, 64);
    vec![
        family("before 63 fields, 1,024 bytes", move |k| {
            let whole = 8192 * k - 1024 - 6;
            write(full(later(32 * k - 1), whole), b"a".to_vec(), 1024, 0)
        }),
        family("behind 63 names of 64 bytes that share 62", move |k| {
            let whole = 8192 * k - 1024 - 69;
            let last = [vec![b'n'; 62], b"99".to_vec()].concat();
            write(full(later(32 * k - 1), whole), last, 1024, 0)
        }),
        family("before 16 fields of 1,000 bytes", move |k| {
            let whole = 8192 * k - 6;
            write(full(alike(8 * k, 2), whole), b"a".to_vec(), 0, 0)
        }),
        family("the last of 63 names again", move |k| {
            let mut names = later(32 * k - 1);
            let last = names.pop().unwrap();
            names.push(last.clone());
            write(full(names, 8192 * k - 1024 - 69), last, 1024, 14)
        }),
        family("no room for the 64th field", move |k| {
            let last = [vec![b'n'; 62], b"99".to_vec()].concat();
            let notice = full(later(32 * k - 1), 8192 * k);
            let mut buffer = notice.clone();
            let bytes = notice.len() + 69;
            Case {
                number: 15,
                bytes,
                call: Box::new(move || {
                    buffer.copy_from_slice(&notice);
                    ours::write(black_box(&mut buffer), notice.len(), &last, 4, &[]).0
                }),
            }
        }),
    ]
}

// ---- decisions

/// A decision in a buffer of its size, with these people kept.
fn decision(table: &[u8], people: &[Vec<u8>]) -> Vec<u8> {
    let mut buffer = vec![0; 528 + table.len()];
    assert_eq!(ours::quorum_open(&mut buffer, table, 8).0, 0);
    buffer[7] = people.len() as u8;
    for (i, person) in people.iter().enumerate() {
        let at = 8 + 65 * i;
        buffer[at] = person.len() as u8;
        buffer[at + 1..at + 1 + person.len()].copy_from_slice(person);
    }
    buffer
}

/// A notice whose fields' names are as Staff but for the last byte, and Staff last.
fn staff_last(count: usize, staff: Vec<u8>) -> Vec<u8> {
    let field = |i: usize| {
        (
            [b"Staf", &[102 - (count - i) as u8][..]].concat(),
            1,
            vec![0; 4],
        )
    };
    let mut fields: Vec<(Vec<u8>, u16, Vec<u8>)> = (0..count).map(field).collect();
    fields.push((b"Staff".to_vec(), 4, staff));
    notice(&fields)
}

fn show(mut decision: Vec<u8>, notice: Vec<u8>, number: u8, bytes: usize) -> Case {
    Case {
        number,
        bytes: decision.len() + notice.len() + bytes,
        call: Box::new(move || ours::quorum_show(black_box(&mut decision), &notice).0),
    }
}

fn decisions() -> Vec<Family> {
    // `require (Staff)`
    let required = |pool: &[u8]| table(&[name(5, 0), (54, 0, 0)], &[b"Staff", pool].concat());
    vec![
        family("open: 414 names of 64 bytes, 10,000 bytes", |k| {
            let group = eight(&[name(64, 0)], &[name(64, 0)], 59);
            let table = table(&hostile::times(&group, 23 * k), &vec![b'n'; 2048 * k]);
            let mut buffer = vec![0; 528 + table.len()];
            Case {
                number: 0,
                bytes: 528 + table.len() + 23 * k * 9 * 64,
                call: Box::new(move || {
                    ours::quorum_open(black_box(&mut buffer), black_box(&table), 8).0
                }),
            }
        }),
        family(
            "show: 8 values of 64 bytes that share 62, the last again",
            move |k| {
                let people = alike(8, 32 * k);
                let last = people[7].clone();
                show(
                    decision(&required(b""), &people),
                    staff_last(63, last),
                    0,
                    0,
                )
            },
        ),
        family("show: the same, and a ninth person", move |k| {
            let people = alike(8, 32 * k);
            let other = [vec![b'n'; 32 * k - 2], b"99".to_vec()].concat();
            show(
                decision(&required(b""), &people),
                staff_last(63, other),
                20,
                0,
            )
        }),
        family("show: contains in the pool, folded, as above", |k| {
            let (group, pool) = hostile::almost_contained(1024 * k, 1);
            let bytes = groups(&group) * both(2048 * k - 1, 1024 * k);
            let table = table(&often(&group), &pool);
            show(
                decision(&table, &alike(8, 64)),
                hostile::EMPTY.to_vec(),
                0,
                bytes,
            )
        }),
    ]
}

// ---- texts

/// The unit as often as it fits between head and tail, parted.
fn repeated(head: &str, unit: &str, part: &str, tail: &str, length: usize) -> String {
    let room = length - head.len() - tail.len() + part.len();
    let count = room / (unit.len() + part.len());
    format!("{head}{}{tail}", vec![unit; count].join(part))
}

/// Every family of texts in two sizes: what stands before, the unit, what parts two of them, what stands behind, and the number.
fn translations() -> Vec<Family> {
    let deep = format!("{}1{}", "(".repeat(24), ")".repeat(24));
    let prefixed = format!(
        "{}1{}",
        "~~~~~~~~~~~~~~~~~~~~~~~~(".repeat(6),
        ")".repeat(6)
    );
    let levels = format!(
        "{}1{}",
        "1 || 1 ^^ 1 && 1 == 1 < 1 + 1 * 1 | 1 ^ 1 & 1 << (".repeat(24),
        ")".repeat(24)
    );
    let fold = format!("{}a{}", "fold-case(".repeat(24), ")".repeat(24));
    let s = String::from;
    let rows: Vec<(&str, String, String, &str, String, u8)> = vec![
        ("spaces", s(""), s(" "), "", s("1 == 1"), 0),
        ("one name of 1 byte", s(""), s("a"), " + ", s(" == 1"), 7),
        ("numbers of 1 byte", s(""), s("1"), " + ", s(" == 1"), 7),
        ("(1) added up", s(""), s("(1)"), "+", s(" == 1"), 7),
        ("24 parentheses", s(""), deep, "+", s(" == 1"), 0),
        (
            "24 times ~",
            s(""),
            format!("{}(1)", "~".repeat(24)),
            "+",
            s(" == 1"),
            7,
        ),
        (
            "24 times ~ before each of 6 parentheses",
            s(""),
            prefixed,
            "+",
            s(" == 1"),
            7,
        ),
        (
            "all levels in 24 parentheses",
            s(""),
            levels,
            "+",
            s(" == 1"),
            5,
        ),
        ("&&", s(""), s("1 == 1"), " && ", s(""), 7),
        (
            "&& and right nesting",
            s("1 == 1"),
            s(" && (1 == 1 && (1 == 1 && (1 == 1)))"),
            "",
            s(""),
            7,
        ),
        (
            "escaped names of 64",
            s(""),
            "\\a".repeat(64),
            " + ",
            s(" == 1"),
            0,
        ),
        ("names of 64", s(""), "a".repeat(64), " + ", s(" == 1"), 0),
        ("one escaped string", s("a == \""), s("\\a"), "", s("\""), 0),
        ("one string", s("a == \""), s("a"), "", s("\""), 0),
        (
            "one string without an end",
            s("a == \""),
            s("\\\""),
            "",
            s(""),
            1,
        ),
        ("empty strings", s(""), s("''"), "<", s(""), 5),
        ("one name too long", s(""), s("a"), "", s(""), 3),
        ("one escaped name too long", s(""), s("\\a"), "", s(""), 3),
        ("one integer too long", s(""), s("1"), "", s(""), 3),
        ("one octal integer too long", s("0"), s("1"), "", s(""), 3),
        ("one hex integer too long", s("0x"), s("1"), "", s(""), 3),
        ("one real too long", s("1."), s("1"), "", s(""), 3),
        ("one number without a form", s(""), s("1"), "", s("x"), 1),
        (
            "hex int64",
            s(""),
            s("0x7fffffffffffffffL"),
            " + ",
            s(" == 1"),
            0,
        ),
        (
            "octal int64",
            s(""),
            s("0777777777777777777777L"),
            " + ",
            s(" == 1"),
            0,
        ),
        (
            "reals of 15 digits",
            s(""),
            s("123456789.123456e-16"),
            " + ",
            s(" == 1"),
            0,
        ),
        ("calls of equals", s(""), s("equals(a,1)"), "||", s(""), 7),
        (
            "calls of ends-with",
            s(""),
            s("ends-with (a, 'b')"),
            " || ",
            s(""),
            7,
        ),
        (
            "one pattern of sets",
            s("wildcard(a,'"),
            s("[a]"),
            "",
            s("')"),
            0,
        ),
        (
            "one pattern of one set",
            s("wildcard(a,'[!"),
            s("a-z"),
            "",
            s("]')"),
            0,
        ),
        (
            "one pattern that opens sets",
            s("wildcard(a,'"),
            s("["),
            "",
            s("')"),
            18,
        ),
        (
            "one pattern of escapes",
            s("wildcard(a,'"),
            s("\\\\"),
            "",
            s("a')"),
            0,
        ),
        (
            "one expression of branches",
            s("regex(a,'b"),
            s("|b"),
            "",
            s("')"),
            0,
        ),
        (
            "one expression of marks",
            s("regex(a,'b"),
            s("*"),
            "",
            s("')"),
            0,
        ),
        ("calls of regex", s(""), s("regex(a,'b')"), "||", s(""), 7),
        (
            "calls of wildcard",
            s(""),
            s("wildcard(a,'*')"),
            "||",
            s(""),
            7,
        ),
        ("calls of size", s(""), s("size(a)"), "+", s(" == 1"), 7),
        ("calls of string", s(""), s("string(a)"), "^^", s(""), 7),
        (
            "calls of no function",
            s(""),
            s("equalz(a,1)"),
            "||",
            s(""),
            4,
        ),
        (
            "calls of a long name like a function's",
            s(""),
            format!("{}(a)", "\\s".repeat(64)),
            "||",
            s(""),
            4,
        ),
        (
            "calls of an escaped name",
            s(""),
            format!("s{}(a)", "\\s".repeat(63)),
            "||",
            s(""),
            4,
        ),
        ("calls of s", s(""), s("s()"), "+", s(""), 4),
        ("calls of i", s(""), s("i()"), "+", s(""), 4),
        (
            "calls within calls",
            s(""),
            format!("{}{}", "f(".repeat(24), ")".repeat(24)),
            "+",
            s(""),
            4,
        ),
        (
            "a call with too many values",
            s("equals(a"),
            s(",1"),
            "",
            s(")"),
            4,
        ),
        (
            "calls of fold-case, 24 deep",
            s(""),
            fold,
            "+",
            s(" == 1"),
            0,
        ),
        (
            "calls of fold-case, 24 deep, in contains",
            s(""),
            format!(
                "contains({}a{},'a')",
                "fold-case(".repeat(23),
                ")".repeat(23)
            ),
            "||",
            s(""),
            0,
        ),
        ("parentheses that open", s(""), s("("), "", s(""), 6),
        ("parentheses that close", s(""), s(")"), "", s(""), 2),
        ("no operand at the end", s(""), s("1"), " + ", s(" +"), 2),
        ("commas", s(""), s(","), "", s(""), 2),
    ];
    rows.into_iter().map(translation).collect()
}

fn translation(row: (&'static str, String, String, &'static str, String, u8)) -> Family {
    let (name, head, unit, part, tail, number) = row;
    family(name, move |k| {
        let text = repeated(&head, &unit, part, &tail, 2048 * k);
        let mut buffer = vec![0; 10250];
        let answer = ours::translate(1, text.as_bytes(), &mut buffer).0;
        // half as many entries may pass where the whole does not
        assert!(answer == number || k == 1, "{name}: {answer}");
        Case {
            number: answer,
            bytes: text.len(),
            call: Box::new(move || ours::translate(1, text.as_bytes(), &mut buffer).0),
        }
    })
}

// ---- UBF(A)

fn door(text: Vec<u8>, number: u8) -> Case {
    let mut buffer = vec![0; 16384];
    Case {
        number,
        bytes: text.len(),
        call: Box::new(move || ours::ubf_read(black_box(&text), &mut buffer).0),
    }
}

/// A text of these names, each with 1 as its value.
fn tuple_of(names: &[Vec<u8>]) -> Vec<u8> {
    let fields: Vec<Vec<u8>> = names
        .iter()
        .map(|name| [b"\"", &name[..], b"\"1"].concat())
        .collect();
    [&b"{"[..], &fields.concat(), b"}$"].concat()
}

/// Different names of that size that share all bytes but the last four, falling.
fn falling(count: usize, size: usize) -> Vec<Vec<u8>> {
    let name = |i: usize| format!("{}{i:04}", "n".repeat(size - 4)).into_bytes();
    (0..count).rev().map(name).collect()
}

fn written(notice: Vec<u8>) -> Case {
    let mut text = vec![0; 32839];
    Case {
        number: 0,
        bytes: notice.len(),
        call: Box::new(move || ours::ubf_write(black_box(&notice), &mut text).0),
    }
}

/// Texts of 65,536 bytes of one unit between head and tail; many names; and notices that are written.
fn doors() -> Vec<Family> {
    let rows: [(&'static str, &'static str, &'static str, &'static str, u8); 14] = [
        ("blanks", "{", " ", "}$", 0),
        ("comments", "{", "%%", "}$", 0),
        ("one comment of escapes", "{%", "\\\\", "%}$", 0),
        ("one string of escapes", "{\"a\"\"", "\\\"", "\"}$", 16),
        ("one name", "{\"", "a", "\"1}$", 13),
        ("one binary's count", "{\"a\"", "0", "~~}$", 0),
        ("one integer", "{\"a\"", "9", "}$", 23),
        ("integers", "{", "1 ", "}$", 23),
        ("atoms", "{", "''", "}$", 23),
        ("binaries", "{", "0~~", "}$", 23),
        ("tuples that open", "", "{", "$", 22),
        ("no $ behind blanks", "{\"a\"1}", " ", "", 22),
        ("registers", "", "a", "$", 23),
        (
            "one field, and a wrong escape at the end",
            "{\"a\"\"",
            "a",
            "\\a\"}$",
            22,
        ),
    ];
    let mut all: Vec<Family> = rows
        .into_iter()
        .map(|(name, head, unit, tail, number)| {
            family(name, move |k| {
                let text = repeated(head, unit, "", tail, 32768 * k);
                door(text.into_bytes(), number)
            })
        })
        .collect();
    all.push(family("64 falling names of 64 bytes", |k| {
        door(tuple_of(&falling(32 * k, 64)), 0)
    }));
    all.push(family("64 falling names of 64 escapes", |k| {
        let name = |i: usize| {
            let byte = |bit: usize| if i >> bit & 1 == 1 { "\\\"" } else { "\\\\" };
            let last: String = (0..6).rev().map(byte).collect();
            format!("{}{last}", "\\\\".repeat(58)).into_bytes()
        };
        let names: Vec<Vec<u8>> = (0..32 * k).map(name).collect();
        door(tuple_of(&names), 0)
    }));
    for (size, many) in [(4, 4000), (64, 900)] {
        let name = format!("{} different names of {size} bytes", 2 * many);
        all.push(family(name, move |k| {
            door(tuple_of(&falling(many * k, size)), 15)
        }));
    }
    all.push(family("write: 64 int64 fields, names of 64 bytes", |k| {
        let field = |name| (name, 2, i64::MIN.to_le_bytes().to_vec());
        written(notice(
            &alike(32 * k, 64).into_iter().map(field).collect::<Vec<_>>(),
        ))
    }));
    all.push(family("write: 15 strings of 1,024 quotes", |k| {
        let field = |name| (name, 4, vec![b'"'; 1024]);
        let names = alike(if k == 1 { 7 } else { 15 }, 2);
        written(notice(&names.into_iter().map(field).collect::<Vec<_>>()))
    }));
    all
}

// ---- mending

/// Bytes mended into buffers of any list's length, and of a notice's.
fn mended(bytes: Vec<u8>, number: u8) -> Case {
    let (mut list, mut notice) = (vec![0; 24_564], vec![0; 16_384]);
    Case {
        number,
        bytes: bytes.len(),
        call: Box::new(move || mend::mend(black_box(&bytes), &mut list, &mut notice).0),
    }
}

fn mends() -> Vec<Family> {
    vec![
        family("236 fields, 64 names of 64 bytes that share 62", |k| {
            mended(in_turn(&alike(64, 64), 0, 118 * k), 0)
        }),
        family("the same, falling", |k| {
            mended(in_turn(&falling(64, 64), 0, 118 * k), 0)
        }),
        family("2,728 fields of 6 bytes, 64 names", |k| {
            mended(in_turn(&short_names(), 0, 1364 * k), 0)
        }),
        family("2,728 fields of 6 bytes, one name", |k| {
            mended(in_turn(&[b"n".to_vec()], 0, 1364 * k), 0)
        }),
        family("64 fields falling, 16,384 bytes", |k| {
            mended(in_turn(&two_falling()[..32 * k], 248, 32 * k), 0)
        }),
        family("16 strings of 1,000 bytes, falling", |k| {
            mended(in_turn(&two_falling()[..8 * k], 1000, 8 * k), 0)
        }),
        family("236 names of 64 bytes, the last byte 127", |k| {
            let bad = [vec![b'n'; 63], vec![127]].concat();
            mended(in_turn(&[bad], 0, 118 * k), 0)
        }),
        family("8,188 fields of length 0", |k| mended(vec![0; 8192 * k], 0)),
        family("3,274 fields of length 3, a name past it", |k| {
            let fields = [3, 0, 4, 0, 1].repeat(1637 * k);
            mended([vec![0; 8], fields].concat(), 0)
        }),
        family("the first row with a 65th name at its end", |k| {
            let mut bytes = in_turn(&alike(64, 64), 0, 118 * k - 1);
            bytes.extend(&in_turn(&[b"z".to_vec()], 63, 1)[8..]);
            mended(bytes, 15)
        }),
    ]
}
