//! `quorum --state`: a decision that is kept in a file between calls.
mod common;
#[allow(dead_code)]
#[path = "../src/random.rs"]
mod numbers;
use common::{Folder, Ran};
use numbers::Random;
use std::fs::{self, File};
use std::process::{Command, Stdio};

const TEXT: &str = "Approve == \"payout\" && regex (Staff, \"^[1-9][0-9]*$\")";

/// A text that does not fix the form of Staff, and how what is said of that starts.
const ANY_FORM: &str = "Approve == \"payout\" && require (Staff)";
const FORM: &str = "the subscription does not fix the form of Staff";

fn approval(staff: &str) -> String {
    format!("Approve: \"payout\"; Staff: \"{staff}\"")
}

/// `quorum --state d` with more words.
fn quorum(folder: &Folder, words: &[&str]) -> Ran {
    folder.run(&[&["quorum", "--state", "d"], words].concat(), b"")
}

/// One call for each person: the number and the text open the decision, and may be left out afterwards.
#[test]
fn people_are_counted_over_several_calls() {
    let folder = Folder::new("state");
    let counted = "notice 1: true, Staff \"417\" counted; 1 of 2\nnot reached: 1 of 2\n";
    quorum(&folder, &["2", TEXT, "-n", &approval("417")]).is(1, counted, "");
    let before = counted.replace("counted;", "counted before;");
    quorum(&folder, &["2", TEXT, "-n", &approval("417")]).is(1, &before, "");
    quorum(&folder, &["-n", &approval("417")]).is(1, &before, "");
    quorum(&folder, &[]).is(1, "Staff \"417\" counted\nnot reached: 1 of 2\n", "");
    quorum(&folder, &["-q"]).is(1, "", "");
    let kept = folder.read("d");
    quorum(&folder, &["-n", "Approve: \"payout\""]).is(
        1,
        "notice 1: bottom, not counted; 1 of 2; entry 4: there is no field Staff\nnot reached: 1 of 2\n",
        "",
    );
    assert_eq!(folder.read("d"), kept);
    folder.write("second", approval("502"));
    quorum(&folder, &["second"]).is(
        0,
        "second: true, Staff \"502\" counted; 2 of 2\nreached: 2 of 2\n",
        "",
    );
    quorum(&folder, &[]).is(
        0,
        "Staff \"417\" counted\nStaff \"502\" counted\nreached: 2 of 2\n",
        "",
    );
    quorum(&folder, &["-q", "-n", &approval("502")]).is(0, "", "");
    assert!(!folder.path().join("d.new").exists());
}

#[test]
fn a_decision_is_opened_without_notices() {
    let folder = Folder::new("opened");
    quorum(&folder, &["8", TEXT]).is(1, "not reached: 0 of 8\n", "");
    folder.write("text", TEXT);
    quorum(&folder, &["-f", "text", "8"]).is(1, "not reached: 0 of 8\n", "");
    quorum(&folder, &["-q", "8", TEXT]).is(1, "", "");
}

/// What opens no decision leaves no file, and what another decision is asked of leaves the one that is kept.
#[test]
fn what_is_refused_changes_nothing() {
    let folder = Folder::new("refused-state");
    let notice = approval("417");
    quorum(&folder, &["9", TEXT, "-n", &notice]).refuses("refused 21: ");
    quorum(&folder, &["2", "Op =", "-n", &notice]).refuses("refused 1: ");
    quorum(&folder, &["-n", &notice]).refuses("d: there is no such file; NEEDED and TEXT open");
    quorum(&folder, &[]).refuses("d: there is no such file");
    quorum(&folder, &["-", "-"]).refuses("standard input is named twice");
    assert!(!folder.path().join("d").exists());
    folder
        .run(&["quorum", "--state", "-", "2", TEXT], b"")
        .refuses("`-` names none");
    folder
        .run(&["quorum", "--state", "no/d", "2", TEXT], b"")
        .refuses("no/d: there is no folder no");
    folder
        .run(&["quorum", "--state", ".", "2", TEXT], b"")
        .refuses(".: it is a directory");
    quorum(&folder, &["2", TEXT, "-n", &notice]).is(
        1,
        "notice 1: true, Staff \"417\" counted; 1 of 2\nnot reached: 1 of 2\n",
        "",
    );
    let kept = folder.read("d");
    let other = approval("502");
    quorum(&folder, &["3", TEXT, "-n", &other]).refuses("its decision needs 2 people, not 3");
    quorum(&folder, &["2", "require (Staff)", "-n", &other]).refuses("by another subscription");
    let second = ["--edition", "2", "2", TEXT, "-n", &other];
    quorum(&folder, &second).refuses("by another subscription");
    assert_eq!(folder.read("d"), kept);
    assert!(!folder.path().join("d.new").exists());
}

/// A file cut off anywhere, with a byte more, or of another kind holds no decision and stays as it is.
#[test]
fn files_that_hold_no_decision() {
    let folder = Folder::new("no-decision");
    quorum(&folder, &["2", TEXT, "-n", &approval("417")]);
    let kept = folder.read("d");
    for length in [0, 1, 4, 7, 8, 100, 528, 540, kept.len() - 1] {
        folder.write("d", &kept[..length]);
        quorum(&folder, &["-n", &approval("502")]).refuses("d: refused 12: ");
        assert_eq!(folder.read("d"), &kept[..length]);
    }
    for bytes in [&[&kept[..], b"x"].concat()[..], &vec![0; 40_000], b"Op: 42"] {
        folder.write("d", bytes);
        quorum(&folder, &["2", TEXT]).refuses("no decision is kept in it");
        assert_eq!(folder.read("d"), bytes);
    }
}

/// The file is replaced and not written over: an older name of it keeps the older decision. A link stays a link.
#[test]
fn the_file_is_replaced() {
    let folder = Folder::new("replaced");
    let path = |name: &str| folder.path().join(name);
    quorum(&folder, &["2", TEXT, "-n", &approval("417")]);
    let kept = folder.read("d");
    fs::rename(path("d"), path("real")).unwrap();
    fs::hard_link(path("real"), path("old")).unwrap();
    std::os::unix::fs::symlink("real", path("d")).unwrap();
    quorum(&folder, &["-n", &approval("502")]).is(
        0,
        "notice 1: true, Staff \"502\" counted; 2 of 2\nreached: 2 of 2\n",
        "",
    );
    assert_eq!(folder.read("old"), kept);
    assert_ne!(folder.read("real"), kept);
    assert!(fs::symlink_metadata(path("d")).unwrap().is_symlink());
}

/// A person is in the file before the line says so, and is there also if nobody reads the line.
#[test]
fn a_person_is_kept_where_the_output_is_full() {
    let folder = Folder::new("full-state");
    let full = File::options().write(true).open("/dev/full").unwrap();
    let notice = approval("417");
    let ended = Command::new(common::BINARY)
        .args(["quorum", "--state", "d", "2", TEXT, "-n", &notice])
        .current_dir(folder.path())
        .stdin(Stdio::null())
        .stdout(full)
        .output()
        .unwrap();
    assert_eq!(ended.status.code(), Some(2));
    let said = String::from_utf8_lossy(&ended.stderr);
    assert!(said.starts_with("virentolex: standard output: "), "{said}");
    quorum(&folder, &[]).is(1, "Staff \"417\" counted\nnot reached: 1 of 2\n", "");
}

/// A person counted by an earlier call, in another spelling.
#[test]
fn one_person_in_two_spellings() {
    let folder = Folder::new("spellings");
    quorum(&folder, &["2", ANY_FORM, "-n", &approval("417")]);
    let ran = quorum(&folder, &["-n", &approval("0417")]);
    assert_eq!(
        ran.out,
        "notice 1: true, Staff \"0417\" counted; 2 of 2; it differs from \"417\" in blanks or leading zeros alone\nreached: 2 of 2\n"
    );
    assert!(ran.err.starts_with(FORM), "{}", ran.err);
    quorum(&folder, &["-q", "-n", &approval("502")]).is(0, "", "");
}

/// What is said beside the form of Staff.
fn without_form(said: &str) -> String {
    let lines = said.split_inclusive('\n');
    lines.filter(|line| !line.starts_with(FORM)).collect()
}

/// Any notices, shown in one call or in a call for each: the same lines in the end, and the same decision.
#[test]
fn calls_in_any_parts_count_alike() {
    let mut random = Random::new(5);
    for run in 0..12 {
        let folder = Folder::new(&format!("parts-{run}"));
        let needed = (1 + random.below(8)).to_string();
        let people = [
            "417", "502", "0417", "613", "1", "2", "3", "4", "5", "6", "",
        ];
        let notices: Vec<String> = (0..1 + random.below(14))
            .map(|_| match random.below(5) {
                0 => "Approve: \"payout\"".to_string(),
                1 => format!("Approve: \"other\"; Staff: \"{}\"", random.of(&people)),
                _ => approval(people[random.below(people.len())]),
            })
            .collect();
        let mut words = vec!["quorum", "--state", "one", &needed, ANY_FORM];
        notices.iter().for_each(|n| words.extend(["-n", n]));
        let whole = folder.run(&words, b"");
        let mut lines = String::new();
        let mut last = String::new();
        for (k, notice) in notices.iter().enumerate() {
            let ran = quorum(&folder, &[&needed, ANY_FORM, "-n", notice]);
            let said = without_form(&ran.err) + &ran.out;
            let (line, end) = said.trim_end().rsplit_once('\n').unwrap();
            lines += &line.replace("notice 1", &format!("notice {}", k + 1));
            lines += "\n";
            last = format!("{end}\n");
        }
        let mut parts: Vec<&str> = lines.lines().collect();
        parts.sort();
        let both = without_form(&whole.err) + whole.out.trim_end_matches(last.as_str());
        let mut all: Vec<&str> = both.lines().collect();
        all.sort();
        assert_eq!(parts, all, "run {run}: {notices:?}");
        assert!(whole.out.ends_with(&last), "run {run}");
        assert_eq!(folder.read("one"), folder.read("d"), "run {run}");
    }
}
