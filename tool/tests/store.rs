//! `store`: a store of subscriptions in a file.
mod common;
#[allow(dead_code)]
#[path = "../src/random.rs"]
mod numbers;
use common::{Folder, Ran, BINARY, EMPTY, OP42};
use numbers::Random;
use std::fs::{self, File};
use std::process::{Command, Stdio};
use std::time::Duration;

fn store(folder: &Folder, words: &[&str]) -> Ran {
    folder.run(&[&["store"], words].concat(), b"")
}

/// Subscriptions, with what `store list` calls them.
const TEXTS: [(&str, &str); 6] = [
    ("Op == 42", "Op == 42"),
    ("Staff != \"417\"", "Staff != \"417\""),
    ("! (Op == 42) || (nan (Op))", "! (Op == 42) || nan (Op)"),
    (
        "Op + 1 > 42 && require (Staff)",
        "Op + 1 > 42 && require (Staff)",
    ),
    (
        "Staff == \"\n\" && Op == 1",
        "on the fields \"Staff\", \"Op\"",
    ),
    ("1 == 1", "1 == 1"),
];

const NOTICES: [&str; 6] = [
    "Op: 42",
    "Op: 42; Staff: \"417\"",
    "Staff: \"502\"; Op: 1",
    "Op: nan",
    "(no fields)",
    "Op: \"x\"; Staff: 5",
];

#[test]
fn subscriptions_come_and_go() {
    let folder = Folder::new("store");
    store(&folder, &["make", "s"]).is(0, "made: 0 held, 65,528 of 65,536 bytes free\n", "");
    assert_eq!(folder.read("s").len(), 65_536);
    store(&folder, &["add", "s", "Op == 42"]).is(
        0,
        "added 0: 3 entries, stack 2 of 32, 48 bytes; 1 held, 65,476 of 65,536 bytes free\n",
        "",
    );
    folder.write("text", "Staff != \"417\"\n");
    assert_eq!(store(&folder, &["add", "s", "-f", "text"]).status, Some(0));
    folder
        .run(&["table", "-o", "table", "require (Op)"], b"")
        .is(0, "", "");
    assert_eq!(
        store(&folder, &["add", "--table", "table", "s"]).status,
        Some(0)
    );
    let ran = folder.run(&["store", "add", "s", "-"], b"1 == 2");
    assert!(ran.out.starts_with("added 3: "), "{}", ran.out);
    store(&folder, &["list", "s"]).is(
        0,
        "0: 3 entries, stack 2 of 32, 48 bytes; Op == 42\n\
        1: 3 entries, stack 2 of 32, 54 bytes; Staff != \"417\"\n\
        2: 2 entries, stack 1 of 32, 36 bytes; require (Op)\n\
        3: 3 entries, stack 2 of 32, 46 bytes; 1 == 2\n\
        4 held, 65,328 of 65,536 bytes free\n",
        "",
    );
    store(&folder, &["remove", "s", "2", "0"]).is(
        0,
        "removed 2, 0: 2 held, 65,420 of 65,536 bytes free\n",
        "",
    );
    let ran = store(&folder, &["add", "s", "Op == 1"]);
    assert!(ran.out.starts_with("added 0: "), "{}", ran.out);
    assert!(!folder.path().join("s.new").exists());
}

#[test]
fn notices_are_matched_with_all() {
    let folder = Folder::new("store-match");
    store(&folder, &["make", "s"]);
    for text in ["Op == 42", "Staff != \"417\"", "require (Op)", "1 == 2"] {
        assert_eq!(store(&folder, &["add", "s", text]).status, Some(0));
    }
    folder.write("notices", [OP42, EMPTY].concat());
    store(&folder, &["match", "s", "notices"]).is(
        1,
        "notices: delivered to 0, 2; bottom for 1\nnotices#2: delivered to nobody; bottom for 0, 1, 2\n",
        "2 notices: 1 delivered, 1 to nobody\n",
    );
    store(&folder, &["match", "-q", "s", "-n", "Op: 42"]).is(0, "", "");
    store(
        &folder,
        &["match", "-q", "s", "-n", "Op: 41; Staff: \"417\""],
    )
    .is(0, "", "");
    store(&folder, &["match", "-q", "s", "-n", ""]).is(1, "", "");
}

#[test]
fn what_is_refused_leaves_the_store() {
    let folder = Folder::new("store-refused");
    for words in [
        &["add", "s", "Op == 1"][..],
        &["remove", "s", "0"],
        &["list", "s"],
        &["match", "s", "-n", ""],
    ] {
        store(&folder, words)
            .refuses("s: there is no such file; `virentolex store make` makes a store");
    }
    for size in ["0", "7", "65537", "18446744073709551615"] {
        store(&folder, &["make", "--size", size, "s"]).refuses("s: refused 26: ");
    }
    assert!(!folder.path().join("s").exists());
    store(&folder, &["make", "--size", "60", "s"]).is(0, "made: 0 held, 52 of 60 bytes free\n", "");
    store(&folder, &["add", "s", "Op == 42"]).is(
        0,
        "added 0: 3 entries, stack 2 of 32, 48 bytes; 1 held, 0 of 60 bytes free\n",
        "",
    );
    let held = folder.read("s");
    store(&folder, &["make", "s"]).refuses("s: there is such a file; remove it, or name another");
    store(&folder, &["add", "s", "Op == 42"]).refuses("s: refused 28: ");
    store(&folder, &["add", "s", "Op = 42"]).refuses("refused 1: ");
    store(&folder, &["remove", "s", "0", "1"]).refuses("s: 1: refused 29: ");
    store(&folder, &["remove", "s", "0", "0"]).refuses("s: 0: refused 29: ");
    store(&folder, &["remove", "s", "64"]).refuses("s: 64: refused 29: ");
    store(&folder, &["remove", "s", "one"]).refuses("one is no number of a subscription");
    store(&folder, &["remove", "s"]).refuses("the number of a subscription is lacking");
    store(&folder, &["add", "s"]).refuses("a subscription is lacking");
    store(&folder, &["match", "s"]).refuses("a notice is lacking");
    store(&folder, &["list", "s", "s"]).refuses("s is one word too many");
    store(&folder, &["make", "-"]).refuses("`-` names none");
    store(&folder, &["make", "no/s"]).refuses("no/s: there is no folder no");
    store(&folder, &["make", "s/s"]).refuses("s/s: s is no folder");
    assert_eq!(folder.read("s"), held);
    assert!(!folder.path().join("s.new").exists());
}

#[test]
fn sixty_four_and_no_more() {
    let folder = Folder::new("full-store");
    store(&folder, &["make", "s"]);
    for id in 0..64 {
        let ran = store(&folder, &["add", "s", &format!("Op == {id}")]);
        assert!(ran.out.starts_with(&format!("added {id}: ")), "{}", ran.out);
    }
    store(&folder, &["add", "s", "Op == 64"]).refuses("s: refused 27: ");
    store(&folder, &["match", "s", "-n", "Op: 63"]).is(0, "notice 1: delivered to 63\n", "");
}

/// A store that another program wrote wrong, or that was cut off.
#[test]
fn files_that_hold_no_store() {
    let folder = Folder::new("no-store");
    store(&folder, &["make", "--size", "200", "s"]);
    store(&folder, &["add", "s", "Op == 42"]);
    store(&folder, &["add", "s", "Op == 41"]);
    let whole = folder.read("s");
    for length in [0, 1, 7, 8, 40, 100] {
        folder.write("s", &whole[..length]);
        for words in [
            &["list", "s"][..],
            &["add", "s", "Op == 1"],
            &["match", "s", "-n", ""],
        ] {
            store(&folder, words).refuses("s: refused 26: ");
        }
        assert_eq!(folder.read("s"), &whole[..length]);
    }
    let mut spoiled = whole.clone();
    // the op of the first table's first entry
    spoiled[8 + 4 + 10] = 99;
    folder.write("s", &spoiled);
    let ran = store(&folder, &["match", "s", "-n", "Op: 41"]);
    ran.is(2, "notice 1: delivered to 1; refused 12 for 0\n", "");
    let ran = store(&folder, &["list", "s"]);
    assert!(ran.err.starts_with("s: 0: refused 12: "), "{}", ran.err);
    assert_eq!(ran.status, Some(2));
}

/// A file beside the store that a call left when it was cut off: the store stays, and it is said what to do.
#[test]
fn a_call_that_was_cut_off() {
    let folder = Folder::new("cut-off");
    store(&folder, &["make", "s"]);
    let before = folder.read("s");
    folder.write("s.new", "half a st");
    let ran = store(&folder, &["add", "s", "Op == 42"]);
    ran.refuses(
        "s.new is there: another call changes s, or one was cut off; if none runs, remove it",
    );
    assert_eq!(
        (folder.read("s"), folder.read("s.new")),
        (before, b"half a st".to_vec())
    );
    store(&folder, &["list", "s"]).is(0, "0 held, 65,528 of 65,536 bytes free\n", "");
    fs::remove_file(folder.path().join("s.new")).unwrap();
    assert_eq!(store(&folder, &["add", "s", "Op == 42"]).status, Some(0));
}

/// Calls killed at any moment: the store is the one before or the one after, whole.
#[test]
fn killed_calls_leave_a_store() {
    let folder = Folder::new("killed");
    store(&folder, &["make", "s"]);
    let mut held = 0;
    for k in 0..40 {
        let mut command = Command::new(BINARY);
        command.args(["store", "add", "s", "Op == 42"]);
        command.current_dir(folder.path()).stdout(Stdio::null());
        let mut child = command.spawn().unwrap();
        std::thread::sleep(Duration::from_micros(100 * k));
        child.kill().unwrap();
        child.wait().unwrap();
        let _ = fs::remove_file(folder.path().join("s.new"));
        let listed = store(&folder, &["list", "s"]);
        assert_eq!((listed.status, listed.err.as_str()), (Some(0), ""));
        let now = listed.out.lines().count() - 1;
        assert!(now == held || now == held + 1, "{held}: {}", listed.out);
        held = now;
    }
}

/// The file is replaced and not written over, and keeps who may read it.
#[test]
fn the_file_is_replaced() {
    use std::os::unix::fs::PermissionsExt;
    let folder = Folder::new("store-replaced");
    let path = |name: &str| folder.path().join(name);
    store(&folder, &["make", "s"]);
    let before = folder.read("s");
    fs::set_permissions(path("s"), fs::Permissions::from_mode(0o640)).unwrap();
    fs::hard_link(path("s"), path("old")).unwrap();
    assert_eq!(store(&folder, &["add", "s", "Op == 42"]).status, Some(0));
    assert_eq!(folder.read("old"), before);
    assert_ne!(folder.read("s"), before);
    assert_eq!(
        fs::metadata(path("s")).unwrap().permissions().mode() & 0o777,
        0o640
    );
}

/// Of calls at once each that says it added holds its place, and no other does.
#[test]
fn calls_at_once_lose_nothing() {
    let folder = Folder::new("at-once");
    store(&folder, &["make", "s"]);
    let children: Vec<_> = (0..12)
        .map(|k| {
            Command::new(BINARY)
                .args(["store", "add", "s", &format!("Op == {k}")])
                .current_dir(folder.path())
                .stdin(Stdio::null())
                .stdout(Stdio::piped())
                .stderr(Stdio::piped())
                .spawn()
                .unwrap()
        })
        .collect();
    let mut added = Vec::new();
    for (k, child) in children.into_iter().enumerate() {
        let ended = child.wait_with_output().unwrap();
        let out = String::from_utf8_lossy(&ended.stdout).into_owned();
        if ended.status.code() == Some(0) {
            let id = out
                .strip_prefix("added ")
                .unwrap()
                .split_once(':')
                .unwrap()
                .0;
            added.push(format!(
                "{id}: 3 entries, stack 2 of 32, 48 bytes; Op == {k}"
            ));
        }
    }
    let number = |line: &String| line.split_once(':').unwrap().0.parse::<usize>().unwrap();
    added.sort_by_key(number);
    let listed = store(&folder, &["list", "s"]).out;
    let held: Vec<&str> = listed.lines().collect();
    assert_eq!(held[..held.len() - 1], added);
    assert!(!added.is_empty());
}

/// A change stands, also if nobody reads what is said of it.
#[test]
fn a_change_stands_where_the_output_is_full() {
    let folder = Folder::new("store-full-output");
    store(&folder, &["make", "s"]);
    for words in [
        &["store", "add", "s", "Op == 42"][..],
        &["store", "list", "s"],
        &["store", "match", "s", "-n", ""],
    ] {
        let full = File::options().write(true).open("/dev/full").unwrap();
        let mut command = Command::new(BINARY);
        command.args(words).current_dir(folder.path());
        let ended = command.stdin(Stdio::null()).stdout(full).output().unwrap();
        assert_eq!(ended.status.code(), Some(2));
        let said = String::from_utf8_lossy(&ended.stderr);
        assert!(said.starts_with("virentolex: standard output: "), "{said}");
    }
    assert_eq!(store(&folder, &["list", "s"]).out.lines().count(), 2);
}

/// What a plain list of 64 places would hold: numbers of texts.
struct Places {
    held: Vec<Option<usize>>,
    /// The verdict of each text on each notice, by `match`.
    verdicts: [[String; TEXTS.len()]; NOTICES.len()],
}

impl Places {
    fn new(folder: &Folder) -> Places {
        let verdict = |text: &str, notice: &str| {
            let ran = folder.run(&["match", text, "-n", notice], b"");
            let said = ran.out.strip_prefix("notice 1: ").unwrap();
            said.split(',').next().unwrap().to_string()
        };
        Places {
            held: vec![None; 64],
            verdicts: NOTICES.map(|notice| TEXTS.map(|(text, _)| verdict(text, notice))),
        }
    }

    /// The numbers of those whose verdict is this one.
    fn of(&self, notice: usize, wanted: &str) -> String {
        let is = |text: usize| self.verdicts[notice][text] == wanted;
        let ids = (0..64).filter(|id| self.held[*id].is_some_and(is));
        ids.map(|id| id.to_string()).collect::<Vec<_>>().join(", ")
    }

    fn line(&self, notice: usize) -> String {
        let to = match self.of(notice, "true") {
            ids if ids.is_empty() => "nobody".to_string(),
            ids => ids,
        };
        match self.of(notice, "bottom") {
            ids if ids.is_empty() => format!("notice 1: delivered to {to}\n"),
            ids => format!("notice 1: delivered to {to}; bottom for {ids}\n"),
        }
    }

    /// The numbers, and what `store list` calls the texts.
    fn listed(&self) -> Vec<(String, String)> {
        let held = self.held.iter().enumerate();
        held.filter_map(|(id, text)| Some((id.to_string(), TEXTS[(*text)?].1.to_string())))
            .collect()
    }
}

/// Random calls, held to a plain list, and each match to `match` of every text by itself.
#[test]
fn random_calls() {
    let folder = Folder::new("random-store");
    let mut random = Random::new(3);
    let mut places = Places::new(&folder);
    store(&folder, &["make", "s"]);
    for _ in 0..150 {
        match random.below(4) {
            0 | 1 => {
                let text = random.below(TEXTS.len());
                let id = places.held.iter().position(Option::is_none).unwrap();
                places.held[id] = Some(text);
                let ran = store(&folder, &["add", "s", TEXTS[text].0]);
                assert!(ran.out.starts_with(&format!("added {id}: ")), "{ran:?}");
            }
            2 => {
                let id = random.below(12);
                let ran = store(&folder, &["remove", "s", &id.to_string()]);
                let status = if places.held[id].take().is_some() {
                    0
                } else {
                    2
                };
                assert_eq!(ran.status, Some(status), "{ran:?}");
            }
            _ => {
                let notice = random.below(NOTICES.len());
                let ran = store(&folder, &["match", "s", "-n", NOTICES[notice]]);
                assert_eq!(ran.out, places.line(notice));
            }
        }
        let out = store(&folder, &["list", "s"]).out;
        let lines = out.lines().filter_map(|line| line.split_once(": "));
        let listed = lines.map(|(id, rest)| (id.into(), rest.split_once("; ").unwrap().1.into()));
        assert_eq!(listed.collect::<Vec<(String, String)>>(), places.listed());
    }
}

/// Bytes changed at random, those of the first records more often, and some cut off.
fn spoiled(random: &mut Random, whole: &[u8]) -> Vec<u8> {
    let mut bytes = whole.to_vec();
    for _ in 0..1 + random.below(3) {
        let among = *random.of(&[24, bytes.len()]);
        let at = random.below(among);
        bytes[at] = random.below(256) as u8;
    }
    if random.below(4) == 0 {
        bytes.truncate(random.below(whole.len()));
    }
    bytes
}

/// Whatever the file holds, the tool ends with 0, 1 or 2, and what is refused changes no byte.
#[test]
fn spoiled_stores() {
    let folder = Folder::new("spoiled");
    let mut random = Random::new(9);
    store(&folder, &["make", "--size", "400", "s"]);
    for (text, _) in &TEXTS[..4] {
        store(&folder, &["add", "s", text]);
    }
    let whole = folder.read("s");
    for run in 0..120 {
        let bytes = spoiled(&mut random, &whole);
        folder.write("s", &bytes);
        let words: &[&str] = match random.below(4) {
            0 => &["list", "s"],
            1 => &["match", "s", "-n", "Op: 42"],
            2 => &["add", "s", "1 == 2"],
            _ => &["remove", "s", "1"],
        };
        let ran = store(&folder, words);
        assert!(matches!(ran.status, Some(0..=2)), "{run}: {ran:?}");
        assert!(!ran.err.contains("panicked"), "{run}: {ran:?}");
        if ran.status == Some(2) {
            let said = ran.err + &ran.out;
            assert!(said.contains("refused "), "{run}: {said}");
            assert_eq!(folder.read("s"), bytes, "{run}: {words:?}");
        }
    }
}
