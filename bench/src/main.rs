//! Ours beside the expert's Rust, one machine, one run. `bench` prints every table, `bench quick` the same in a tenth
//! of the time, `bench agree` compares the answers of both sides on many random cases and times nothing, `bench worst` times
//! ours alone on the worst inputs found, `bench ubf` prints the tables of UBF(A) alone, `bench many` those of many subscriptions,
//! `bench store` those of the store, `bench regex` those of `regex`, `bench mend` that of mending, `bench program` those of the program
//! `verdict`; `bench records COUNT FILE` writes so many of the records that it is shown.
//! How it is built and run, with the flags: bench/run.

mod agree;
mod clock;
mod doors;
mod hostile;
mod load;
mod many;
mod mends;
mod meters;
mod program;
mod quorum;
mod regexes;
mod shifts;
mod stores;
mod strings;
mod worst;

use bench::{expert, ours, translate};
use clock::{compare, Pace};
use std::hint::black_box;

// Bytes before all other code, so that code of both sides stands elsewhere modulo 64 from one place to the next: that alone moves some rows by a third.
std::arch::global_asm!(
    ".text",
    ".globl bench_place",
    "bench_place:",
    concat!(".skip ", env!("BENCH_SKIP"), ", 0x90"),
    "ret"
);

extern "C" {
    fn bench_place();
}

/// The table of the first edition.
fn table_of(text: &str) -> Vec<u8> {
    let mut table = vec![0u8; 10250];
    let (number, _, length) = ours::translate(1, text.as_bytes(), &mut table);
    assert_eq!(number, 0, "{text}");
    table.truncate(length);
    table
}

fn entries_of(table: &[u8]) -> usize {
    u16::from_le_bytes([table[6], table[7]]) as usize
}

pub fn head(title: &str, unit: &str) {
    println!(
        "\n{title:<56}{:>12}{:>12}{:>8}",
        format!("ours {unit}"),
        "expert",
        "ratio"
    );
}

pub fn row(name: &str, ours: f64, expert: f64, ratio: f64) {
    println!("{name:<56}{ours:>12.1}{expert:>12.1}{ratio:>8.2}");
}

fn fields_of(n: usize) -> String {
    if n == 1 {
        "1 field".to_string()
    } else {
        format!("{n} fields")
    }
}

/// The subscriptions that are run: name and table.
fn tables() -> Vec<(String, Vec<u8>)> {
    let mut all = Vec::new();
    for n in [3, 10, 50, 500] {
        let table = table_of(&load::subscription(n));
        assert_eq!(entries_of(&table), n);
        all.push((format!("{n} entries"), table));
    }
    let table = table_of(&load::whole_subscription(500));
    assert_eq!(entries_of(&table), 500);
    all.push(("500 entries, none passed over".to_string(), table));
    all
}

/// Four times as many runs must take about four times as long: no run is left out of the loop.
fn linear() {
    let (table, notice) = (table_of(&load::subscription(50)), load::notice(8));
    let time = |times: u32| {
        let start = clock::now();
        black_box(ours::repeat(black_box(&table), black_box(&notice), times));
        clock::now() - start
    };
    // the least of many, in turn, since other work on the machine only adds
    let (mut few, mut many) = (f64::INFINITY, f64::INFINITY);
    for _ in 0..100 {
        few = few.min(time(500));
        many = many.min(time(2_000));
    }
    let ratio = many / few;
    assert!((3.0..5.5).contains(&ratio), "{ratio}");
    println!("the inner run 2,000 times takes {ratio:.2} times as long as 500 times");
}

fn inner(pace: Pace) {
    head("inner run, per notice", "ns");
    for (name, table) in tables() {
        for fields in [1, 8, 64] {
            let notice = load::notice(fields);
            let mut code = expert::no_code();
            let p = expert::decode(&table, &mut code).unwrap();
            // SAFETY: the notice is one of ours, and `agree` has checked it
            let (verdict, steps, undecided) = unsafe { expert::run(&p, &notice) };
            assert_eq!(
                ours::repeat(&table, &notice, 1),
                4096 * undecided as u64 + 4 * steps as u64 + verdict as u64
            );
            let (a, b, r) = compare(
                &mut |times| {
                    black_box(ours::repeat(black_box(&table), black_box(&notice), times));
                },
                &mut |times| {
                    for _ in 0..times {
                        // SAFETY: as above
                        black_box(unsafe { expert::run(black_box(&p), black_box(&notice)) });
                    }
                },
                pace,
            );
            row(
                &format!("{name}, {} ({steps} steps)", fields_of(fields)),
                a,
                b,
                r,
            );
        }
    }
}

fn guarded(pace: Pace) {
    head("guarded run, per notice", "ns");
    for (name, table) in tables() {
        for fields in [1, 8, 64] {
            let notice = load::notice(fields);
            assert_eq!(
                ours::guarded(&table, &notice),
                expert::guarded(&table, &notice)
            );
            let (a, b, r) = compare(
                &mut |times| {
                    for _ in 0..times {
                        black_box(ours::guarded(black_box(&table), black_box(&notice)));
                    }
                },
                &mut |times| {
                    for _ in 0..times {
                        black_box(expert::guarded(black_box(&table), black_box(&notice)));
                    }
                },
                pace,
            );
            row(&format!("{name}, {}", fields_of(fields)), a, b, r);
        }
    }
}

fn checks(pace: Pace) {
    head("table check, per entry", "ns");
    for (name, table) in tables() {
        assert!(ours::check(&table) && expert::check(&table));
        let n = entries_of(&table) as f64;
        let (a, b, r) = compare(
            &mut |times| {
                for _ in 0..times {
                    black_box(ours::check(black_box(&table)));
                }
            },
            &mut |times| {
                for _ in 0..times {
                    black_box(expert::check(black_box(&table)));
                }
            },
            pace,
        );
        row(&name, a / n, b / n, r);
    }
    head("notice check, per field", "ns");
    for fields in [1, 8, 64] {
        let notice = load::notice(fields);
        assert_eq!(
            (ours::check_notice(&notice), expert::check_notice(&notice)),
            (None, None)
        );
        let (a, b, r) = compare(
            &mut |times| {
                for _ in 0..times {
                    black_box(ours::check_notice(black_box(&notice)));
                }
            },
            &mut |times| {
                for _ in 0..times {
                    black_box(expert::check_notice(black_box(&notice)));
                }
            },
            pace,
        );
        row(&fields_of(fields), a / fields as f64, b / fields as f64, r);
    }
}

fn translation(pace: Pace) {
    head("translation, per byte of text", "ns");
    let mut texts: Vec<String> = [3, 10, 50, 500].map(load::subscription).to_vec();
    // 4,096 bytes: strings of the length that fills the text
    let long = format!("Subject == \"{}\" || ", "n".repeat(200));
    let mut whole = long.repeat(4096 / long.len());
    whole.push_str("Op == 42");
    while whole.len() < 4096 {
        whole.push(' ');
    }
    texts.push(whole);
    for text in texts {
        let text = text.as_bytes();
        let (mut x, mut y) = (vec![0u8; 10250], vec![0u8; 10250]);
        assert_eq!(
            ours::translate(1, text, &mut x),
            translate::translate(1, text, &mut y)
        );
        assert_eq!(x, y);
        let entries = entries_of(&x);
        let (a, b, r) = compare(
            &mut |times| {
                for _ in 0..times {
                    black_box(ours::translate(1, black_box(text), black_box(&mut x)));
                }
            },
            &mut |times| {
                for _ in 0..times {
                    black_box(translate::translate(1, black_box(text), black_box(&mut y)));
                }
            },
            pace,
        );
        let n = text.len() as f64;
        row(
            &format!("{} bytes, {entries} entries", text.len()),
            a / n,
            b / n,
            r,
        );
    }
}

const WHOLE: Pace = Pace {
    rounds: 41,
    round: 2e6,
};

/// Writes so many records as `verdict` reads them to a file, for other tools.
fn records() {
    let words: Vec<String> = std::env::args().skip(2).collect();
    let [count, file] = &words[..] else {
        panic!("bench records COUNT FILE")
    };
    program::write_mixed(file.as_ref(), count.parse().expect("a number"));
}

fn main() {
    // kept by the linker
    black_box(bench_place as *const ());
    let word = std::env::args().nth(1).unwrap_or_default();
    let (pace, records) = match word.as_str() {
        "" => (WHOLE, 1_000_000),
        "quick" => (
            Pace {
                rounds: 9,
                round: 4e5,
            },
            100_000,
        ),
        "agree" => {
            doors::agree(200_000);
            many::agree(20_000);
            stores::agree(5_000);
            mends::agree(100_000);
            return agree::agree(200_000);
        }
        "worst" => return worst::rows(),
        "ubf" => return doors::rows(WHOLE),
        "many" => return many::rows(WHOLE),
        "store" => return stores::rows(WHOLE),
        "regex" => return regexes::rows(WHOLE),
        "mend" => return mends::rows(WHOLE),
        "program" => return program::rows(1_000_000),
        "records" => return records(),
        _ => panic!("bench [quick | agree | worst | ubf | many | store | regex | mend | program | records COUNT FILE]"),
    };
    agree::agree(2_000);
    doors::agree(2_000);
    many::agree(200);
    stores::agree(200);
    mends::agree(2_000);
    linear();
    println!(
        "medians of {} rounds, the sides in turn; ratio: ours over expert in the same round",
        pace.rounds
    );
    inner(pace);
    guarded(pace);
    many::rows(pace);
    stores::rows(pace);
    mends::rows(pace);
    quorum::shows(pace);
    checks(pace);
    translation(pace);
    strings::rows(pace);
    regexes::rows(pace);
    doors::rows(pace);
    meters::rows(pace);
    shifts::rows(pace);
    program::rows(records);
}
