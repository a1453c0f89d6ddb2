//! Help, and wrong use: status 2, nothing on standard output, what is wrong and where help is on standard error.
mod common;
use common::{run, Folder};
use std::ffi::OsStr;
use std::os::unix::ffi::OsStrExt;

const COMMANDS: [&[&str]; 17] = [
    &["check"],
    &["lint"],
    &["table"],
    &["match"],
    &["quorum"],
    &["deliver"],
    &["store", "make"],
    &["store", "add"],
    &["store", "remove"],
    &["store", "list"],
    &["store", "match"],
    &["notice", "show"],
    &["notice", "find"],
    &["notice", "make"],
    &["notice", "mend"],
    &["notice", "from-ubf"],
    &["notice", "to-ubf"],
];

#[test]
fn every_command_has_help() {
    for command in COMMANDS {
        let usage = format!("usage: virentolex {}", command.join(" "));
        for help in ["--help", "-h"] {
            let ran = run(&[command, &[help]].concat());
            assert_eq!((ran.status, ran.err.as_str()), (Some(0), ""), "{command:?}");
            assert!(ran.out.starts_with(&usage), "{}", ran.out);
            assert!(ran.out.contains("Exit status: 0 "), "{}", ran.out);
        }
        let asked = run(&[&["help"], command].concat());
        assert_eq!(asked, run(&[command, &["--help"]].concat()));
        let all = run(&["--help"]);
        assert!(
            all.out.contains(&format!("  {} ", command.join(" "))),
            "{}",
            all.out
        );
    }
    assert_eq!(run(&["--help"]), run(&["help"]));
    assert_eq!(run(&["notice", "--help"]), run(&["help", "notice"]));
    assert_eq!(run(&["notice", "--help"]).status, Some(0));
    assert_eq!(run(&["store", "--help"]), run(&["help", "store"]));
    assert_eq!(run(&["store", "--help"]).status, Some(0));
    run(&["--version"]).is(
        0,
        concat!("virentolex ", env!("CARGO_PKG_VERSION"), "\n"),
        "",
    );
}

/// Each option that the help of a command names is taken by it.
#[test]
fn help_names_the_options_that_are_taken() {
    for command in COMMANDS {
        let help = run(&[command, &["--help"]].concat()).out;
        for option in [
            "edition", "form", "file", "table", "notice", "output", "only", "state", "size", "hex",
            "quiet",
        ] {
            let named = help.contains(&format!("--{option}"));
            let ran = run(&[command, &[&format!("--{option}=")]].concat());
            let taken = !ran.err.contains("there is no option");
            assert_eq!(named, taken, "{command:?} --{option}");
        }
    }
}

#[test]
fn wrong_words() {
    for (words, why) in [
        (&[][..], "a command is lacking\ntry: virentolex --help"),
        (
            &["chekc", "Op == 42"],
            "there is no command chekc; did you mean check?",
        ),
        (
            &["mend"],
            "there is no command mend; did you mean notice mend?",
        ),
        (
            &["make"],
            "there is no command make; did you mean store make or notice make?",
        ),
        (&["frobnicate"], "there is no command frobnicate\n"),
        (
            &["notice", "shwo"],
            "there is no command notice shwo; did you mean notice show?",
        ),
        (
            &["match", "--qiet", "Op == 42", "-"],
            "there is no option --qiet here; did you mean --quiet?",
        ),
        (
            &["check", "--zz", "Op == 42"],
            "there is no option --zz here\n",
        ),
        (
            &["check", "Op", "==", "42"],
            "put it into quotes, 'Op == ..'",
        ),
        (
            &["match", "Staff", "!=", "417", "-"],
            "put it into quotes, 'Staff != ..'",
        ),
        (&["notice"], "notice takes show"),
        (&["notice", "print"], "there is no command notice print"),
        (&["store"], "store takes make"),
        (&["store", "print"], "there is no command store print"),
        (
            &["store", "lsit"],
            "there is no command store lsit; did you mean store list?",
        ),
        (&["help", "me"], "there is no command me"),
        (
            &["check"],
            "a subscription is lacking\ntry: virentolex check --help",
        ),
        (&["table", "--hex"], "a subscription is lacking"),
        (
            &["check", "--hex", "Op == 42"],
            "there is no option --hex here",
        ),
        (&["check", "-x", "Op == 42"], "there is no option -x here"),
        (
            &["check", "--edition", "3", "Op == 42"],
            "refused 25: an edition other than 1 or 2",
        ),
        (&["check", "--edition"], "--edition lacks its value"),
        (
            &["check", "Op == 42", "Op == 43"],
            "Op == 43 is one word too many; put a subscription of several words into quotes",
        ),
        (
            &["check", "-f", "sub", "Op == 42"],
            "Op == 42 is one word too many",
        ),
        (&["match", "Op == 42"], "a notice is lacking"),
        (&["match", "-n", "Op: 42"], "a subscription is lacking"),
        (&["match", "-", "-"], "standard input is named twice"),
        (
            &["match", "Op == 42", "-", "-"],
            "standard input is named twice",
        ),
        (&["match", "-f", "-", "-"], "standard input is named twice"),
        (
            &["match", "--form", "xml", "Op == 42", "-"],
            "binary, ubf or text",
        ),
        (
            &["match", "--only", "yes", "Op == 42", "-"],
            "true, false or bottom",
        ),
        (&["quorum"], "the needed number of people comes first"),
        (&["quorum", "2"], "a subscription is lacking"),
        (&["quorum", "2", "Op == 42"], "a notice is lacking"),
        (
            &["quorum", "-1", "Op == 42", "-"],
            "the needed number of people comes first",
        ),
        (&["notice", "show"], "a notice is lacking"),
        (&["notice", "mend"], "mend takes one file"),
        (
            &["notice", "mend", "-n", "Op: 42"],
            "there is no option -n here",
        ),
        (&["notice", "show", "--hex=1", "-"], "--hex takes no value"),
    ] {
        run(words).refuses(why);
        let ran = run(words);
        assert!(
            ran.err.starts_with("virentolex: ") && ran.err.contains("\ntry: virentolex "),
            "{}",
            ran.err
        );
    }
}

#[test]
fn files_that_hold_no_notice() {
    let folder = Folder::new("none");
    folder.write("empty", "");
    folder.write("comments", "\n# nothing\n\n");
    for file in ["empty", "comments", "-"] {
        let said = format!("{file}: there is no notice in it\n");
        folder
            .run(&["match", "Op == 42", file], b"")
            .is(2, "", &said);
        folder
            .run(&["notice", "show", file], b" \n")
            .is(2, "", &said);
    }
    folder
        .run(&["match", "Op == 42", "none"], b"")
        .is(2, "", "none: there is no such file\n");
    folder
        .run(&["match", "Op == 42", "."], b"")
        .is(2, "", ".: it is a directory\n");
}

#[test]
fn words_that_are_no_utf8() {
    let folder = Folder::new("bytes");
    let odd = OsStr::from_bytes(b"\xff\x1b[31m");
    let check = OsStr::new("check");
    folder.run(&[check, odd], b"").refuses("refused 1: ");
    folder.run(&[odd], b"").refuses("there is no command");
    let text = OsStr::from_bytes(b"User == '\xff\xe9'");
    folder
        .run(&[check, text], b"")
        .is(0, "accepted: 3 entries, stack 2 of 32, 52 bytes\n", "");
    let ran = folder.run(&[check, OsStr::new("-f"), odd], b"");
    ran.refuses("there is no such file");
    assert!(!ran.err.contains('\x1b'), "a file's name is shown as it is");
}
