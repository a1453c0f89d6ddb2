//! The program `verdict` beside the expert's: records per second from a file to /dev/null; and on a file of a million records also
//! beside a program that only reads and writes as many bytes.

use crate::clock::{middle, of_children};
use crate::load::{self, Dice};
use crate::{head, row};
use std::fs::File;
use std::io::{BufWriter, Write};
use std::path::{Path, PathBuf};
use std::process::{Command, Stdio};
use std::time::Instant;

const ROUNDS: usize = 9;

fn text_record(text: &str) -> Vec<u8> {
    let mut r = ((2 + text.len()) as u32).to_le_bytes().to_vec();
    r.extend_from_slice(&3u16.to_le_bytes());
    r.extend_from_slice(text.as_bytes());
    r
}

fn write_input(path: &Path, records: &[Vec<u8>], count: usize) {
    let mut f = BufWriter::new(File::create(path).unwrap());
    for i in 0..count {
        f.write_all(
            &records[if i < records.len() {
                i
            } else {
                1 + i % (records.len() - 1)
            }],
        )
        .unwrap();
    }
    f.flush().unwrap();
}

/// So many records as a router reads them, the same on every run: of each thousand the first is a text, of 3, 10 or 50 entries by
/// turns, and the others are notices, drawn from 4,096 different ones.
pub fn write_mixed(path: &Path, count: usize) {
    let mut f = BufWriter::new(File::create(path).unwrap());
    let mut dice = Dice(0x0dd0_5eed_0f0d_d1ce);
    let texts = [3, 10, 50].map(|n| text_record(&load::subscription(n)));
    let notices = load::notices(&mut dice);
    for i in 0..count {
        let record = if i % 1000 == 0 {
            &texts[i / 1000 % texts.len()]
        } else {
            &notices[dice.next(notices.len())]
        };
        f.write_all(record).unwrap();
    }
    f.flush().unwrap();
}

/// Seconds by the clock and of processor time that the program takes, its lines written to /dev/null.
fn took(program: &Path, words: &[String], input: &Path) -> [f64; 2] {
    let (start, before) = (Instant::now(), of_children());
    let status = Command::new(program)
        .args(words)
        .stdin(File::open(input).unwrap())
        .stdout(Stdio::null())
        .status()
        .expect("the program runs");
    assert!(status.success());
    [start.elapsed().as_secs_f64(), of_children() - before]
}

/// A program and its words.
type Side<'a> = (&'a Path, &'a [String]);

/// What each side takes on one file, round by round, the sides in turn.
fn in_turn<const N: usize>(sides: [Side; N], input: &Path) -> Vec<[[f64; 2]; N]> {
    (0..ROUNDS)
        .map(|_| sides.map(|(program, words)| took(program, words, input)))
        .collect()
}

fn output(program: &Path, input: &Path) -> Vec<u8> {
    Command::new(program)
        .stdin(File::open(input).unwrap())
        .output()
        .unwrap()
        .stdout
}

/// A folder or file of target/.
fn in_target(name: &str) -> PathBuf {
    Path::new(env!("CARGO_MANIFEST_DIR"))
        .join("../target")
        .join(name)
}

/// A program that is built beside this one.
fn beside(name: &str) -> PathBuf {
    std::env::current_exe().unwrap().with_file_name(name)
}

pub fn rows(count: usize) {
    rates(count);
    million();
}

fn rates(count: usize) {
    let (ours, expert) = (in_target("bin/verdict"), beside("expert_verdict"));
    head("program verdict, thousand records per second", "k/s");
    let cases: Vec<(String, Vec<Vec<u8>>)> = vec![
        (
            "a text of 3 entries, notices of 1 field".into(),
            vec![text_record(&load::subscription(3)), load::notice(1)],
        ),
        (
            "a text of 10 entries, notices of 8 fields".into(),
            vec![text_record(&load::subscription(10)), load::notice(8)],
        ),
        (
            "a text of 50 entries, notices of 8 fields".into(),
            vec![text_record(&load::subscription(50)), load::notice(8)],
        ),
        (
            "texts of 10 entries only".into(),
            vec![text_record(&load::subscription(10)); 2],
        ),
    ];
    let file = in_target(&format!("records-{}", std::process::id()));
    for (name, records) in cases {
        write_input(&file, &records, 1000);
        assert_eq!(output(&ours, &file), output(&expert, &file));
        write_input(&file, &records, count);
        let rounds = in_turn([(&ours, &[]), (&expert, &[])], &file);
        let rate = |side: usize| count as f64 / middle(&rounds, |r| r[side][0]) / 1000.0;
        // as with the other rows, a ratio over 1 says that ours takes longer
        row(
            &name,
            rate(0),
            rate(1),
            middle(&rounds, |r| r[0][0] / r[1][0]),
        );
    }
    std::fs::remove_file(&file).unwrap();
}

/// Ours, the expert's, and reading and writing alone, in turn, on a file of a million records. The lines of the first two are the same.
fn million() {
    let file = in_target(&format!("records-{}", std::process::id()));
    write_mixed(&file, 1_000_000);
    let (ours, expert, bare) = (
        in_target("bin/verdict"),
        beside("expert_verdict"),
        beside("bare_copy"),
    );
    let lines = output(&ours, &file);
    assert!(
        lines == output(&expert, &file),
        "the programs answer differently"
    );
    let bytes = std::fs::metadata(&file).unwrap().len();
    let words = [bytes.to_string(), lines.len().to_string()];
    let rounds = in_turn([(&ours, &[]), (&expert, &[]), (&bare, &words)], &file);
    std::fs::remove_file(&file).unwrap();
    println!(
        "\n{:<56}{:>12}{:>12}{:>8}",
        "program verdict, a file of a million records", "ours ms", "other", "ratio"
    );
    for (clock, what) in [(0, "elapsed"), (1, "processor time")] {
        for (side, name) in [(1, "the expert's"), (2, "reading and writing alone")] {
            row(
                &format!("{what}, beside {name}"),
                middle(&rounds, |r| r[0][clock] * 1e3),
                middle(&rounds, |r| r[side][clock] * 1e3),
                middle(&rounds, |r| r[0][clock] / r[side][clock]),
            );
        }
    }
}
