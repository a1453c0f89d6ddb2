//! Random files and words: whatever they are, the tool ends with 0, 1 or 2 and without a panic. By hand any number of
//! runs, from any seed: VIRENTOLEX_RUNS=20000 VIRENTOLEX_SEED=7.
mod common;
#[path = "../src/random.rs"]
mod numbers;
use common::{Folder, EMPTY, OP42};
use numbers::Random;
use std::ffi::OsString;
use std::os::unix::ffi::OsStringExt;

/// A number that the environment gives, or another.
fn given(name: &str, otherwise: usize) -> usize {
    let number = std::env::var(name).ok().and_then(|n| n.parse().ok());
    number.unwrap_or(otherwise)
}

/// Subscriptions, the accepted ones first.
const ACCEPTED: usize = 8;
const TEXTS: [&str; 22] = [
    "Op == 42",
    "Staff != \"417\"",
    "1 / Op == 0 || Op << 40 == 1",
    "wildcard (Cab, \"T-4?\", \"V*\") && ! regex (User, \"[Ss]egall?\")",
    "begins-with (fold-case (Name), \"foo\")",
    "size (Name) <= 20 ^^ equals (Op, 1, 2L, 3.5, \"x\")",
    "nan (Real) || require (Op)",
    "Op & ~Op == 0",
    "Op = 42",
    "Op ==",
    "(((",
    "! Op",
    "regex (a, \"(\")",
    "\"open",
    "09",
    "1.0e99 == 0.0",
    "int32 (1)",
    "\u{e9} == 1",
    "",
    "-5 < Op",
    "-",
    "a,b(c)\\ d",
];

const NOTICES: [&str; 14] = [
    "Op: 42",
    "Op: 42; Staff: \"417\"",
    "Name: \"\\xFF\\n\"; Real: nan; Key: [00 ff]; Big: -5L",
    "Real: 1.0e-300",
    "Op: 99999999999",
    "Op 42",
    "(no fields)",
    "# none",
    "{\"Op\" 42}$",
    "{\"Op\" 42 \"Key\" 3~a$b~}$",
    "{\"Op\" 'a'}$",
    "{\"Op\" 3~",
    "\\",
    "a: [",
];

const OPTIONS: [&str; 25] = [
    "--hex",
    "-q",
    "--quiet",
    "-h",
    "--help",
    "--edition",
    "--edition=2",
    "--edition=0",
    "--form",
    "--form=ubf",
    "--form=text",
    "--form=binary",
    "--only",
    "--only=true",
    "-f",
    "-n",
    "-o",
    "--table",
    "--table=t",
    "--state=d",
    "--state=a",
    "--size=100",
    "--",
    "--none",
    "-",
];

/// Words that name notices.
const NOTICED: [&[&str]; 5] = [
    &["-n", "Op: 42"],
    &["-n", "{\"Op\" 41}$"],
    &["a"],
    &["b"],
    &["-"],
];

const NUMBERS: [&str; 6] = ["1", "8", "0", "9", "99999999999999999999", "two"];

const COMMANDS: [&[&str]; 22] = [
    &["check"],
    &["lint"],
    &["table"],
    &["match"],
    &["match"],
    &["quorum"],
    &["quorum"],
    &["deliver"],
    &["store", "make"],
    &["store", "add"],
    &["store", "remove"],
    &["store", "list"],
    &["store", "match"],
    &["notice", "find"],
    &["notice", "show"],
    &["notice", "make"],
    &["notice", "mend"],
    &["notice", "from-ubf"],
    &["notice", "to-ubf"],
    &["notice"],
    &["store"],
    &["help"],
];

/// Notices in some form, some bytes of them changed, left out or put twice.
fn notices(random: &mut Random) -> Vec<u8> {
    let mut bytes = Vec::new();
    for _ in 0..random.below(6) {
        match random.below(5) {
            0 => bytes.extend_from_slice(OP42),
            1 => bytes.extend_from_slice(EMPTY),
            2 => {
                let count = random.below(40);
                bytes.extend(random.bytes(count));
            }
            _ => {
                bytes.extend_from_slice(random.of(&NOTICES).as_bytes());
                bytes.extend_from_slice(random.of(&["\n", "\n\n", " ", ""]).as_bytes());
            }
        }
    }
    for _ in 0..random.below(4) {
        if bytes.is_empty() {
            break;
        }
        let at = random.below(bytes.len());
        match random.below(3) {
            0 => bytes[at] = random.below(256) as u8,
            1 => bytes.truncate(at),
            _ => bytes.extend_from_within(at..),
        }
    }
    bytes
}

/// One word of the command line.
fn word(random: &mut Random) -> OsString {
    match random.below(12) {
        0..=3 => random.of(&TEXTS).into(),
        4..=5 => random.of(&OPTIONS).into(),
        6..=8 => random.of(&["a", "b", "s", "d", "t", "none", "."]).into(),
        9 => random.of(&NOTICES).into(),
        10 => random.of(&NUMBERS).into(),
        _ => {
            let count = random.below(20);
            // a word of the command line has no byte 0
            OsString::from_vec(random.bytes(count).into_iter().map(|b| b.max(1)).collect())
        }
    }
}

/// The words of a run. Those of every second one are right, but for what is in the files; in the others words are
/// put in between.
fn words(random: &mut Random, right: bool) -> Vec<OsString> {
    let command = *random.of(&COMMANDS);
    let texts = if right { &TEXTS[..ACCEPTED] } else { &TEXTS };
    let mut words: Vec<OsString> = command.iter().map(OsString::from).collect();
    match command {
        ["quorum"] => {
            words.push(random.of(&NUMBERS[..if right { 2 } else { 6 }]).into());
            words.push(random.of(texts).into());
        }
        ["deliver"] => words.push(random.of(&["subs", "subs", ".", "a"]).into()),
        ["store", "make"] => words.push(random.of(&["made", "s", "a"]).into()),
        ["store", ..] => words.push(random.of(&["s", "s", "made", "a"]).into()),
        ["notice", "find"] => words.push(random.of(&["Op", "op", "", "Staff"]).into()),
        ["notice", _] => (),
        _ => words.push(random.of(texts).into()),
    }
    match command {
        ["store", "add"] => words.push(random.of(texts).into()),
        ["store", "remove"] => words.push(random.of(&NUMBERS).into()),
        ["check" | "lint" | "table"] | ["store", "make" | "list"] => (),
        _ => words.extend(random.of(&NOTICED).iter().map(OsString::from)),
    }
    if !right {
        for _ in 0..random.below(4) {
            let at = command.len() + random.below(words.len() + 1 - command.len());
            words.insert(at, word(random));
        }
    }
    words
}

#[test]
fn random_files_and_words() {
    let folder = Folder::new("random");
    let runs = given("VIRENTOLEX_RUNS", 600);
    let mut random = Random::new(given("VIRENTOLEX_SEED", 1) as u64);
    let mut ended = [0; 3];
    std::fs::create_dir(folder.path().join("subs")).unwrap();
    for (k, text) in TEXTS.iter().enumerate() {
        folder.write(&format!("subs/{k}"), text);
    }
    folder.run(&["table", "-o", "t", TEXTS[0]], b"");
    folder.run(&["store", "make", "s"], b"");
    folder.run(&["quorum", "--state", "d", "2", TEXTS[0]], b"");
    for run in 0..runs {
        for file in ["a", "b"] {
            folder.write(file, notices(&mut random));
        }
        let input = notices(&mut random);
        let words = words(&mut random, run % 2 == 0);
        let ran = folder.run(&words, &input);
        match ran.status {
            Some(status @ 0..=2) => ended[status as usize] += 1,
            other => panic!("run {run}, {words:?}: {other:?} {}", ran.err),
        }
        assert!(
            !ran.err.contains("panicked"),
            "run {run}, {words:?}: {}",
            ran.err
        );
        assert!(
            ran.status != Some(2) || !ran.err.is_empty(),
            "run {run}, {words:?}: refused without a word"
        );
        assert!(
            !ran.err.contains('\x1b'),
            "run {run}, {words:?}: a control on standard error"
        );
    }
    // the words are not all wrong use
    assert!(ended.iter().all(|n| *n > runs / 40), "{ended:?}");
}
