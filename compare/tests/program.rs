//! Without the program `verdict` nothing is compared with it, and no difference is told.
use std::process::{Command, Output};

fn compare(words: &[&str]) -> Output {
    let mut command = Command::new(env!("CARGO_BIN_EXE_compare"));
    command.args(words).output().unwrap()
}

#[test]
fn a_program_that_is_not_built_is_no_difference() {
    let ran = compare(&["--cases", "5", "--program", "no-such-folder/verdict"]);
    let told = String::from_utf8(ran.stderr).unwrap();
    let meant = "compare: no-such-folder/verdict is not built: run `tools/program verdict`, or name the program by --program\n";
    assert_eq!((ran.status.code(), told.as_str()), (Some(2), meant));
    assert_eq!(ran.stdout, b"");
}

#[test]
fn a_program_that_cannot_be_run_is_no_difference() {
    let folder = env!("CARGO_MANIFEST_DIR");
    let ran = compare(&["--case", "100", "--program", folder]);
    let told = String::from_utf8(ran.stderr).unwrap();
    assert_eq!(ran.status.code(), Some(2));
    assert!(
        told.starts_with(&format!("compare: {folder} cannot be run: ")),
        "{told}"
    );
}

#[test]
fn cases_that_do_not_run_it_need_no_program() {
    let ran = compare(&[
        "--from",
        "1",
        "--cases",
        "40",
        "--program",
        "no-such-folder/verdict",
    ]);
    let told = String::from_utf8(ran.stdout).unwrap();
    assert_eq!(ran.status.code(), Some(0), "{told}");
    assert!(
        told.ends_with("compare: seed 1, 40 cases from 1: no difference\n"),
        "{told}"
    );
}

/// A program that runs, and prints something else, is a difference.
#[test]
fn another_program_is_a_difference() {
    let ran = compare(&["--case", "0", "--program", "true"]);
    let told = String::from_utf8(ran.stdout).unwrap();
    assert_eq!(ran.status.code(), Some(1), "{told}");
    assert!(
        told.starts_with("compare: DIFFERENCE at seed 1 case 0, kind program\n"),
        "{told}"
    );
}
