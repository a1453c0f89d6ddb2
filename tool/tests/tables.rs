//! Tables in files: what `table -o` writes is listed, checked, run and counted by, as its text is.
mod common;
#[allow(dead_code)]
#[path = "../src/random.rs"]
mod numbers;
use common::{Folder, EMPTY, OP42};
use numbers::Random;

const TEXTS: [&str; 6] = [
    "Op == 42",
    "Op == 42 && Staff != \"417\"",
    "wildcard (Cab, \"T-4?\", \"V*\") || ! regex (User, \"[Ss]egall?\")",
    "1 << Op == 1024 ^^ size (Name) > 3",
    "equals (Op, 1, 42L, \"x\") && Op > \"x\"",
    "1 == 1",
];

#[test]
fn a_table_answers_as_its_text() {
    let folder = Folder::new("tables");
    for text in TEXTS {
        for edition in ["1", "2"] {
            let by = ["--edition", edition];
            folder
                .run(&[&["table", "-o", "t"], &by[..], &[text]].concat(), b"")
                .is(0, "", "");
            for command in [&["table"][..], &["table", "--hex"]] {
                let wanted = folder.run(&[command, &by, &[text]].concat(), b"");
                assert_eq!(folder.run(&[command, &["-f", "t"]].concat(), b""), wanted);
                assert_eq!(
                    folder.run(&[command, &["--table", "t"]].concat(), b""),
                    wanted
                );
                let piped = folder.run(&[command, &["-"]].concat(), &folder.read("t"));
                assert_eq!(piped, wanted);
            }
        }
    }
    folder
        .run(&["table", "-o", "u", "-f", "t"], b"")
        .is(0, "", "");
    assert_eq!(folder.read("u"), folder.read("t"));
}

/// A table has no text to point at: what is found in it is told by its entries.
#[test]
fn a_table_is_checked() {
    let folder = Folder::new("tables-checked");
    for (text, said) in [
        ("Op == 42", ""),
        ("Staff != \"417\"", ""),
        (
            "Op == 42 && Op > \"x\"",
            "entry 6: always bottom: \"x\" is a string, > takes numbers\n\
            entry 7: so the whole is never true, and delivers no notice\n",
        ),
    ] {
        folder.run(&["table", "-o", "t", text], b"").is(0, "", "");
        let checked = folder.run(&["check", text], b"");
        let accepted = checked.out.split_inclusive('\n').next().unwrap();
        let wanted = format!("{accepted}{said}");
        for words in [&["-f", "t"][..], &["--table", "t"]] {
            folder
                .run(&[&["check"], words].concat(), b"")
                .is(0, &wanted, "");
            folder
                .run(&[&["lint"], words].concat(), b"")
                .is(0, said, "");
        }
        folder
            .run(&["check", "-"], &folder.read("t"))
            .is(0, &wanted, "");
    }
}

/// Its verdicts, and the people that it counts.
#[test]
fn a_table_runs_as_its_text() {
    let folder = Folder::new("tables-run");
    folder.write("notices", [OP42, EMPTY].concat());
    for text in TEXTS {
        for edition in ["1", "2"] {
            let by = ["--edition", edition];
            folder
                .run(&[&["table", "-o", "t"], &by[..], &[text]].concat(), b"")
                .is(0, "", "");
            let wanted = folder.run(&[&["match"], &by[..], &[text, "notices"]].concat(), b"");
            for named in ["-f", "--table"] {
                let ran = folder.run(&["match", named, "t", "notices"], b"");
                assert_eq!(ran, wanted, "{text}");
            }
            let words = ["quorum", "2", "--table", "t", "-n", "Staff: \"417\""];
            let plain = [
                "quorum",
                "2",
                "--edition",
                edition,
                text,
                "-n",
                "Staff: \"417\"",
            ];
            assert_eq!(folder.run(&words, b""), folder.run(&plain, b""));
        }
    }
    folder
        .run(
            &["match", "--table", "-", "-n", "Op: 42"],
            &folder.read("t"),
        )
        .is(0, "notice 1: true, 3 steps\n", "");
}

#[test]
fn what_is_no_table() {
    let folder = Folder::new("no-table");
    folder.write("text", "Op == 42");
    folder.write("notice", OP42);
    folder
        .run(&["table", "-o", "t", "Op == 42"], b"")
        .is(0, "", "");
    let whole = folder.read("t");
    for length in 0..whole.len() {
        folder.write("cut", &whole[..length]);
        folder
            .run(&["match", "--table", "cut", "-n", ""], b"")
            .refuses("cut: refused 12: ");
        if length >= 6 {
            folder
                .run(&["table", "-f", "cut"], b"")
                .refuses("cut: refused 12: ");
        }
    }
    for (words, why) in [
        (&["table", "--table", "text"][..], "text: refused 12: no table that passes the check; 8 bytes, and the header alone has 10"),
        (&["check", "-f", "notice"], "notice: refused 12: no table that passes the check; kind 1, a notice, and a table is of kind 2 or 4"),
        (&["check", "--table", "/dev/zero"], "/dev/zero: refused 12: "),
        (&["check", "--table", "none"], "none: there is no such file"),
        (&["check", "--table", "t", "Op == 42"], "Op == 42 is one word too many"),
        (&["check", "--table", "t", "-f", "t"], "-f and --table name two subscriptions"),
        (&["match", "--table", "-", "-"], "standard input is named twice"),
        (&["table", "-o", "no/t", "Op == 42"], "no/t: there is no folder no\n"),
        (&["table", "-o", "no/such/t", "Op == 42"], "no/such/t: there is no folder no/such\n"),
        (&["table", "-o", "text/t", "Op == 42"], "text/t: text is no folder\n"),
        (&["check", "-f", "no/text"], "no/text: there is no folder no\n"),
    ] {
        folder.run(words, b"").refuses(why);
    }
}

/// Bytes changed at random: what is still a table is one for `match`, too, and nothing else is.
#[test]
fn spoiled_tables() {
    let folder = Folder::new("spoiled-tables");
    let mut random = Random::new(4);
    let mut accepted = 0;
    for run in 0..150 {
        folder.run(&["table", "-o", "t", TEXTS[random.below(TEXTS.len())]], b"");
        let mut bytes = folder.read("t");
        for _ in 0..random.below(3) {
            let at = random.below(bytes.len());
            bytes[at] = random.below(256) as u8;
        }
        folder.write("t", &bytes);
        let checked = folder.run(&["check", "--table", "t"], b"");
        let listed = folder.run(&["table", "--table", "t"], b"");
        let matched = folder.run(&["match", "--table", "t", "-n", "Op: 42"], b"");
        for ran in [&checked, &listed, &matched] {
            assert!(!ran.err.contains("panicked"), "{run}: {}", ran.err);
            assert_eq!(ran.status == Some(2), checked.status == Some(2), "{run}");
        }
        accepted += usize::from(checked.status == Some(0));
    }
    assert!((20..150).contains(&accepted), "{accepted}");
}
