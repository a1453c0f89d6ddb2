//! `match` and `quorum`: what they print, and their exit status.
mod common;
use common::{run, Folder, EMPTY, OP42};

/// Document 01's examples, on Op42 and E.
#[test]
fn match_answers_by_the_paper() {
    let folder = Folder::new("paper");
    folder.write("op42", OP42);
    folder.write("e", EMPTY);
    for (text, notice, status, verdict) in [
        ("Op == 42", "op42", 0, "true, 3 steps"),
        (
            "Op != 42",
            "e",
            1,
            "bottom, 3 steps; entry 0: there is no field Op",
        ),
        ("Op == 1 && 1 == 2", "e", 1, "false, 8 steps"),
        ("1 == 2 && Op == 42", "e", 1, "false, 4 steps"),
        ("1 == 1 ^^ 2 == 2", "e", 1, "false, 7 steps"),
        ("2 + 3 * 4 & 6 == 14", "e", 0, "true, 9 steps"),
        ("-7 / 2 == -3", "e", 0, "true, 5 steps"),
        ("1 / 0 == 0 || 1 == 1", "e", 0, "true, 10 steps"),
        ("-1 >>> 28 == 15", "e", 0, "true, 5 steps"),
    ] {
        let ran = folder.run(&["match", text, notice], b"");
        ran.is(status, &format!("{notice}: {verdict}\n"), "");
    }
    let ran = folder.run(&["match", "Op == 42", "op42", "e"], b"");
    let bottom = "bottom, 3 steps; entry 0: there is no field Op";
    ran.is(
        1,
        &format!("op42: true, 3 steps\ne: {bottom}\n"),
        "2 notices: 1 true, 1 bottom\n",
    );
}

#[test]
fn match_takes_every_form() {
    let folder = Folder::new("forms");
    folder.write("bin", [OP42, EMPTY, OP42].concat());
    folder.write("ubf", "{\"Op\" 42}$\n{}$\n% again % {\"Op\" 42}$\n");
    folder.write(
        "text",
        "# three\nOp: 42\n\n(no fields)\n\n# again\n\nOp: 0x2a\n",
    );
    for file in ["bin", "ubf", "text"] {
        let ran = folder.run(&["match", "Op == 42", file], b"");
        let bottom = "bottom, 3 steps; entry 0: there is no field Op";
        let lines = format!("{file}: true, 3 steps\n{file}#2: {bottom}\n{file}#3: true, 3 steps\n");
        ran.is(1, &lines, "3 notices: 2 true, 1 bottom\n");
        let ran = folder.run(&["match", "Op == 42", "-"], &folder.read(file));
        ran.is(
            1,
            &lines.replace(file, "-"),
            "3 notices: 2 true, 1 bottom\n",
        );
        folder
            .run(&["match", "-q", "Op == 42", file], b"")
            .is(1, "", "");
        let ran = folder.run(&["match", "--only", "bottom", "Op == 42", file], b"");
        ran.is(
            1,
            &format!("{file}#2: {bottom}\n"),
            "3 notices: 2 true, 1 bottom\n",
        );
    }
    folder
        .run(&["match", "--form", "text", "Op == 42", "ubf"], b"")
        .refuses("a field is expected");
    folder
        .run(&["match", "--form=ubf", "Op == 42", "text"], b"")
        .refuses("refused 22");
    folder
        .run(&["match", "Op == 42", "-n", "Op: 42"], b"")
        .is(0, "notice 1: true, 3 steps\n", "");
    folder
        .run(&["match", "Op == 42", "-n", "{\"Op\" 42}$"], b"")
        .is(0, "notice 1: true, 3 steps\n", "");
    folder
        .run(&["match", "-f", "-", "-n", "Op: 42"], b"Op == 42")
        .is(0, "notice 1: true, 3 steps\n", "");
}

#[test]
fn match_goes_on_behind_a_refused_notice() {
    let folder = Folder::new("goes-on");
    folder.write("text", "Op: 42\n\nOp = 42\n\nOp: 42; Op: 43\n\nOp: 42\n");
    let ran = folder.run(&["match", "Op == 42", "text"], b"");
    assert_eq!(
        (ran.status, ran.out.as_str()),
        (Some(2), "text: true, 3 steps\ntext#4: true, 3 steps\n")
    );
    assert!(
        ran.err
            .contains("text#2: line 3, column 3: a name ends in a colon"),
        "{}",
        ran.err
    );
    assert!(ran.err.contains("\n  Op = 42\n    ^\n"), "{}", ran.err);
    assert!(
        ran.err.contains("text#3: line 5, column 9: refused 14: "),
        "{}",
        ran.err
    );
    assert!(
        ran.err.ends_with("4 notices: 2 true, 2 refused\n"),
        "{}",
        ran.err
    );
    let mut twice = OP42.to_vec();
    twice.extend_from_slice(&OP42[8..]);
    (twice[0], twice[6]) = (26, 2);
    folder.write("bin", [&twice, OP42, &OP42[..9]].concat());
    let ran = folder.run(&["match", "Op == 42", "bin"], b"");
    assert_eq!(
        (ran.status, ran.out.as_str()),
        (Some(2), "bin#2: true, 3 steps\n")
    );
    assert!(ran.err.contains("bin: refused 11: "), "{}", ran.err);
    assert!(ran.err.contains("\nbyte 19: "), "{}", ran.err);
    assert!(
        ran.err
            .contains("\n  09 00 01 00 02 4F 70 2A 00 00 00\n  ^\n"),
        "{}",
        ran.err
    );
    assert!(
        ran.err.contains("bin#3 from byte 49: refused 11: "),
        "{}",
        ran.err
    );
}

#[test]
fn match_goes_on_behind_a_file_that_is_not_there() {
    let folder = Folder::new("not-there");
    folder.write("op42", OP42);
    folder.write("none", "");
    let ran = folder.run(&["match", "Op == 42", "op42", "gone", "none", "op42"], b"");
    assert_eq!(
        (ran.status, ran.out.as_str()),
        (Some(2), "op42: true, 3 steps\nop42: true, 3 steps\n")
    );
    let said = "gone: there is no such file\nnone: there is no notice in it\n2 notices: 2 true\n";
    assert_eq!(ran.err, said);
}

/// The shifts of both editions (document 02, request 9).
#[test]
fn match_by_both_editions() {
    let words = ["match", "1 << Count == 2", "-n", "Count: 33"];
    run(&words).is(
        1,
        "notice 1: bottom, 5 steps; entry 2: 1 << Count: Count is not 0 to 31\n",
        "",
    );
    let words = [
        "match",
        "--edition",
        "2",
        "1 << Count == 2",
        "-n",
        "Count: 33",
    ];
    run(&words).is(0, "notice 1: true, 5 steps\n", "");
}

/// The letter's case: a supervisor at the counting room, again at the yard console without a Staff field, again
/// with it, and a second person.
#[test]
fn quorum_counts_people() {
    let folder = Folder::new("quorum");
    folder.write("shift", "Staff: \"502\"\n\nConsole: \"yard\"\n\nStaff: \"502\"; Console: \"yard\"\n\nStaff: \"613\"\n");
    let lines = "shift: true, Staff \"502\" counted; 1 of 2\n\
        shift#2: bottom, not counted; 1 of 2; entry 0: there is no field Staff\n\
        shift#3: true, Staff \"502\" counted before; 1 of 2\n";
    let last = "shift#4: true, Staff \"613\" counted; 2 of 2\n";
    let text = "Staff != \"417\" && regex (Staff, \"^[1-9][0-9]*$\")";
    let ran = folder.run(&["quorum", "2", text, "shift"], b"");
    ran.is(0, &format!("{lines}{last}reached: 2 of 2\n"), "");
    let ran = folder.run(&["quorum", "3", text, "shift"], b"");
    ran.is(
        1,
        &format!("{lines}{last}not reached: 2 of 3\n").replace("of 2", "of 3"),
        "",
    );
    let ran = folder.run(
        &["quorum", "1", "Staff == \"417\"", "-n", "Staff: \"502\""],
        b"",
    );
    ran.is(
        1,
        "notice 1: false, not counted; 0 of 1\nnot reached: 0 of 1\n",
        "",
    );
    let ran = folder.run(
        &["quorum", "1", "require (Console)", "-n", "Console: 1"],
        b"",
    );
    assert_eq!(
        (ran.status, ran.out.as_str()),
        (Some(2), "not reached: 0 of 1\n")
    );
    assert!(ran.err.starts_with("notice 1: refused 19: "), "{}", ran.err);
    folder
        .run(&["quorum", "9", "Staff != \"417\"", "shift"], b"")
        .refuses("refused 21: ");
    folder
        .run(&["quorum", "two", "Staff != \"417\"", "shift"], b"")
        .refuses("needed number");
    let people: Vec<String> = (0..9).map(|k| format!("Staff: \"{k}\"\n\n")).collect();
    let ran = folder.run(
        &["quorum", "8", "require (Staff)", "-"],
        people.concat().as_bytes(),
    );
    assert_eq!(ran.status, Some(2));
    assert!(ran.out.ends_with("reached: 8 of 8\n") && ran.err.starts_with("-#9: refused 20: "));
}

/// Values that differ in blanks or leading zeros, and a subscription that lets them pass: neither changes the status.
#[test]
fn quorum_warns_of_one_person_in_two_spellings() {
    let words = [
        "quorum",
        "2",
        "Staff != \"502\"",
        "-n",
        "Staff: \"417\"",
        "-n",
    ];
    let run_with = |staff: &str| run(&[&words[..], &[staff]].concat());
    let form = "the subscription does not fix the form of Staff, and \"417 \" would count as one more person: \
        add a test such as && regex (Staff, \"^[1-9][0-9]*$\")\n";
    let first = "notice 1: true, Staff \"417\" counted; 1 of 2\n";
    run_with("Staff: \"613\"").is(
        0,
        &format!("{first}notice 2: true, Staff \"613\" counted; 2 of 2\nreached: 2 of 2\n"),
        form,
    );
    run_with("Staff: \"0417\"").is(
        0,
        &format!(
            "{first}notice 2: true, Staff \"0417\" counted; 2 of 2; it differs from \"417\" in blanks or leading \
             zeros alone\nreached: 2 of 2\n"
        ),
        form,
    );
    let fixed = [
        "quorum",
        "1",
        "equals (Staff, \"417\")",
        "-n",
        "Staff: \"417\"",
    ];
    run(&fixed).is(
        0,
        "notice 1: true, Staff \"417\" counted; 1 of 1\nreached: 1 of 1\n",
        "",
    );
}

#[test]
fn a_notice_in_the_place_of_a_file() {
    for notice in ["Op: 42", "{\"Op\" 42}$", "Op: 42; Staff: \"417\""] {
        let said = format!("{notice}: there is no such file; a notice itself stands behind -n\n");
        run(&["match", "Op == 42", notice]).is(2, "", &said);
    }
    run(&["match", "Op == 42", "notice.bin"]).is(2, "", "notice.bin: there is no such file\n");
}

#[test]
fn json_is_named() {
    for (notice, json) in [
        ("{\"Op\": 42}", true),
        (" { \"O\\\"p\" : 42, \"Staff\": \"417\" }", true),
        ("{\"Op\" 42", false),
        ("{\"Op\" \":\"", false),
        ("{", false),
        ("{\"", false),
    ] {
        let ran = run(&["match", "Op == 42", "-n", notice]);
        ran.refuses("refused 22: ");
        assert_eq!(ran.err.contains("it is JSON"), json, "{}", ran.err);
    }
}

#[test]
fn byte_order_marks_are_named() {
    let folder = Folder::new("mark");
    folder.write("utf8", "\u{feff}Op: 42\n");
    folder.write("utf16", b"\xff\xfeO\0p\0:\0 \x004\x002\0\n\0");
    for (file, said) in [
        ("utf8", "starts with a byte order mark"),
        ("utf16", "is UTF-16"),
    ] {
        let ran = folder.run(&["match", "Op == 42", file], b"");
        assert!(
            ran.status == Some(2) && ran.err.contains(said),
            "{file}: {}",
            ran.err
        );
        let ran = folder.run(&["check", "-f", file], b"");
        assert!(
            ran.status == Some(2) && ran.err.contains(said),
            "{file}: {}",
            ran.err
        );
    }
}
