//! `check` and `table`: what they print, and their exit status.
mod common;
use common::{run, Folder};

#[test]
fn check_accepts() {
    // document 01's table of `Op == 42` has 48 bytes
    run(&["check", "Op == 42"]).is(0, "accepted: 3 entries, stack 2 of 32, 48 bytes\n", "");
    run(&["check", "-7 / 2 == -3"]).is(0, "accepted: 5 entries, stack 2 of 32, 70 bytes\n", "");
    run(&["check", "--edition", "2", "1 << 33 == 2"]).is(
        0,
        "accepted: 5 entries, stack 2 of 32, 70 bytes\n",
        "",
    );
}

#[test]
fn check_takes_a_file_or_standard_input() {
    let folder = Folder::new("check");
    folder.write("sub", "Op == 42\n");
    let accepted = "accepted: 3 entries, stack 2 of 32, 48 bytes\n";
    folder.run(&["check", "-f", "sub"], b"").is(0, accepted, "");
    folder.run(&["check", "-"], b"Op == 42").is(0, accepted, "");
    folder
        .run(&["check", "-f", "-"], b"Op == 42")
        .is(0, accepted, "");
    folder
        .run(&["check", "sub"], b"")
        .refuses("\nthere is a file sub; to read it write -f sub\n");
    folder
        .run(&["check", "-f", "none"], b"")
        .is(2, "", "none: there is no such file\n");
    folder
        .run(&["check", "-f", "."], b"")
        .is(2, "", ".: it is a directory\n");
}

#[test]
fn check_refuses_with_the_line_and_a_caret() {
    run(&["check", "Op = 42"]).is(
        2,
        "",
        "refused 1: a token has no legal form\n\
         line 1, column 4: = is no operator; equality is ==\n\x20 Op = 42\n\x20    ^\n",
    );
    let folder = Folder::new("caret");
    folder.write("sub", "Op == 42 &&\n  Fare >\n");
    let ran = folder.run(&["check", "-f", "sub"], b"");
    ran.refuses("sub: refused 2: ");
    assert!(
        ran.err.ends_with("\n    Fare >\n          ^\n"),
        "{}",
        ran.err
    );
    folder.write("long", "a".repeat(5000));
    folder
        .run(&["check", "-f", "long"], b"")
        .refuses("refused 10: ");
    folder
        .run(&["check", "-"], &vec![b' '; 1 << 20])
        .refuses("refused 10: ");
}

/// Document 01's examples of refusals, and one of each other number of translation, with the column of the caret.
#[test]
fn refusals_of_translation() {
    let deep = format!("{}1{} == 1", "(".repeat(25), ")".repeat(25));
    let many = vec!["1 == 1"; 200].join(" && ");
    let nested = vec!["1 == 1 && (1 == 1 || "; 16].concat() + "1 == 1" + &")".repeat(16);
    for (text, number, column) in [
        ("pipe=>20", 5, 1),
        ("Op", 5, 1),
        ("! Op == 42", 5, 3),
        ("a -5", 2, 3),
        ("", 2, 1),
        ("Op == 42 &&", 2, 12),
        ("09 == 9", 1, 1),
        ("int32 ((a))", 4, 8),
        ("0x80000000 == 0", 3, 1),
        ("wildcard (Cab, \"[\")", 18, 17),
        (&deep, 6, 25),
    ] {
        let ran = run(&["check", "--", text]);
        ran.refuses(&format!("refused {number}: "));
        assert!(
            ran.err.contains(&format!("line 1, column {column}: ")),
            "{}",
            ran.err
        );
        let caret = format!("\n{}^\n", " ".repeat(column + 1));
        assert!(ran.err.ends_with(&caret), "{}", ran.err);
    }
    run(&["check", &many]).refuses("refused 7: ");
    run(&["check", &many]).refuses("the text takes 998 entries, 486 too many");
    run(&["check", &nested]).refuses("refused 8: ");
    run(&["check", &nested]).refuses("the run would need 34 places, 2 too many");
}

/// What is found in an accepted text leaves the status 0; `lint` says it by itself.
#[test]
fn lints_of_accepted_texts() {
    let folder = Folder::new("lint");
    for (text, column, said) in [
        (
            "size (Name) == \"3\"",
            1,
            "always bottom: size (Name) is an int32",
        ),
        ("Op == 1 || Fare / 0 > 2", 12, "always bottom: 0 is zero"),
        (
            "begins-with (fold-case (Name), \"Foo\")",
            32,
            "this never fits",
        ),
        ("regex (Host, \"\\.net$\")", 15, "write \\\\."),
        ("Staff != \"417\"", 1, "require (Staff) && Staff != \"417\""),
        ("Op == 010", 7, "010 is 8"),
        ("Ok == true", 7, "true is the name of a field"),
    ] {
        folder.write("sub", text);
        let alone = folder.run(&["lint", "-f", "sub"], b"");
        assert_eq!((alone.status, alone.err.as_str()), (Some(0), ""), "{text}");
        let place = format!("line 1, column {column}: ");
        let line = alone.out.lines().find(|line| line.contains(said));
        assert!(
            line.is_some_and(|line| line.starts_with(&place)),
            "{text}: {}",
            alone.out
        );
        let caret = format!("\n  {text}\n{}^\n", " ".repeat(column + 1));
        assert!(alone.out.contains(&caret), "{text}: {}", alone.out);
        let checked = folder.run(&["check", text], b"");
        assert_eq!(
            (checked.status, checked.err.as_str()),
            (Some(0), ""),
            "{text}"
        );
        let (accepted, rest) = checked.out.split_once('\n').unwrap();
        assert!(accepted.starts_with("accepted: "), "{accepted}");
        assert_eq!(rest, alone.out, "{text}");
    }
    run(&["lint", "Op == 42"]).is(0, "", "");
    run(&["lint", "Op = 42"]).refuses("refused 1: ");
    run(&["lint", "--edition", "2", "1 << 33 == 2"]).is(0, "", "");
}

#[test]
fn table_shows_entries_and_pool() {
    run(&["table", "Op == 1 && 1 == 2"]).is(
        0,
        "8 entries, stack 3 of 32, 108 bytes; first edition, kind 2\n\
         \x20 0  name        Op                   pool 0..2\n\
         \x20 1  int32       1\n\
         \x20 2  ==\n\
         \x20 3  skip if false, to the end (4 passed over)\n\
         \x20 4  int32       1\n\
         \x20 5  int32       2\n\
         \x20 6  ==\n\
         \x20 7  &&\n\
         pool \"Op\"\n",
        "",
    );
}

/// The bytes of document 01's table of `Op == 42`, and the second edition's kind.
#[test]
fn table_shows_bytes() {
    let ran = run(&["table", "--hex", "Op == 42"]);
    assert_eq!(ran.status, Some(0));
    let bytes: Vec<&str> = ran
        .out
        .lines()
        .skip(1)
        .map(|line| line.get(..35).unwrap_or(line).trim_end())
        .collect();
    assert_eq!(
        bytes,
        [
            "2C 00 00 00 02 00 03 00 02 00",
            "05 00 02 00 00 00 00 00 00 00 00 00",
            "01 00 00 00 2A 00 00 00 00 00 00 00",
            "20 00 00 00 00 00 00 00 00 00 00 00",
            "4F 70"
        ]
    );
    let ran = run(&["table", "--hex", "--edition=2", "1 == 1"]);
    assert!(
        ran.out
            .contains("second edition, kind 4\n2A 00 00 00 04 00 03 00 00 00\n"),
        "{}",
        ran.out
    );
}

/// The table that a router is given is the one of document 01.
#[test]
fn table_is_written() {
    let folder = Folder::new("table");
    folder
        .run(&["table", "-o", "made", "Op == 42"], b"")
        .is(0, "", "");
    let table = b"\x2c\0\0\0\x02\0\x03\0\x02\0\x05\0\x02\0\0\0\0\0\0\0\0\0\x01\0\0\0\x2a\0\0\0\0\0\0\0\x20\0\0\0\0\0\0\0\0\0\0\0Op";
    assert_eq!(folder.read("made"), table);
    folder
        .run(&["table", "-o", "made", "--hex", "Op == 42"], b"")
        .refuses("exclude each other");
    folder
        .run(&["table", "-o", "none", "Op =="], b"")
        .refuses("refused 2: ");
    assert!(!folder.path().join("none").exists());
}
