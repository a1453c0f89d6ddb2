//! Many notices through pipes, and pipes whose other end is closed.
mod common;
use common::{Folder, BINARY, EMPTY, OP42};
use std::fs::File;
use std::io::{BufRead, BufReader, Read, Write};
use std::process::{Command, Stdio};
use std::time::Duration;

fn child(folder: &Folder, words: &[&str]) -> Command {
    let mut command = Command::new(BINARY);
    command.args(words).current_dir(folder.path());
    command
        .stdin(Stdio::piped())
        .stdout(Stdio::piped())
        .stderr(Stdio::piped());
    command
}

#[test]
fn a_hundred_thousand_notices() {
    let folder = Folder::new("many");
    let all = [OP42, EMPTY].concat().repeat(50_000);
    let ran = folder.run(&["match", "Op == 42", "-"], &all);
    assert_eq!(ran.status, Some(1));
    assert_eq!(ran.err, "100,000 notices: 50,000 true, 50,000 bottom\n");
    assert_eq!(ran.out.lines().count(), 100_000);
    assert!(ran
        .out
        .ends_with("-#100000: bottom, 3 steps; entry 0: there is no field Op\n"));
    let shown = folder.run(&["notice", "show", "-"], &all);
    let made = folder.run(&["notice", "make", "-o", "made", "-"], shown.out.as_bytes());
    made.is(0, "", "");
    assert!(folder.read("made") == all);
}

/// A verdict is told when its notice is there, and not when the pipe ends.
#[test]
fn a_slow_pipe_is_answered_at_once() {
    let folder = Folder::new("slow");
    let pairs: [(&[u8], &[u8]); 3] = [
        (OP42, EMPTY),
        (b"{\"Op\" 42}$", b"{}$"),
        (b"Op: 42\n\n", b"(no fields)\n\n"),
    ];
    for (first, second) in pairs {
        let mut child = child(&folder, &["match", "Op == 42", "-"]).spawn().unwrap();
        let mut input = child.stdin.take().unwrap();
        let output = BufReader::new(child.stdout.take().unwrap());
        let (sender, lines) = std::sync::mpsc::channel();
        std::thread::spawn(move || {
            output
                .lines()
                .map_while(Result::ok)
                .try_for_each(|line| sender.send(line))
        });
        for (notice, verdict) in [
            (first, "-: true, 3 steps"),
            (second, "-#2: bottom, 3 steps; "),
        ] {
            input.write_all(notice).unwrap();
            match lines.recv_timeout(Duration::from_secs(60)) {
                Ok(line) => assert!(line.starts_with(verdict), "{line}"),
                Err(_) => {
                    child.kill().unwrap();
                    panic!("no answer to {notice:?}");
                }
            }
        }
        drop(input);
        assert_eq!(child.wait().unwrap().code(), Some(1));
    }
}

/// A reader that ends early ends the tool, with no word of it.
#[test]
fn a_closed_pipe_is_no_panic() {
    let folder = Folder::new("closed");
    folder.write("many", OP42.repeat(60_000));
    std::fs::create_dir(folder.path().join("subs")).unwrap();
    folder.write("subs/a", "Op == 42");
    folder.run(&["store", "make", "store"], b"").is(
        0,
        "made: 0 held, 65,528 of 65,536 bytes free\n",
        "",
    );
    for words in [
        &["match", "Op == 42", "many"][..],
        &["deliver", "subs", "many"],
        &["store", "match", "store", "many"],
        &["notice", "find", "Op", "many"],
        &["notice", "mend", "many"],
        &["notice", "show", "many"],
        &["notice", "make", "many"],
        &["notice", "to-ubf", "many"],
        &[
            "quorum",
            "1",
            "Op == 42 && require (None) || Op == 41",
            "many",
        ],
    ] {
        let mut child = child(&folder, words).spawn().unwrap();
        let mut output = child.stdout.take().unwrap();
        output.read_exact(&mut [0; 10]).unwrap();
        drop(output);
        let ended = child.wait_with_output().unwrap();
        let said = String::from_utf8_lossy(&ended.stderr);
        assert_eq!(
            (ended.status.code(), said.as_ref()),
            (Some(2), ""),
            "{words:?}"
        );
    }
}

#[test]
fn output_that_takes_nothing_is_told_of() {
    let folder = Folder::new("full");
    for words in [
        &["--help"][..],
        &["table", "Op == 42"],
        &["lint", "Op != 42"],
        &["match", "Op == 42", "-n", "Op: 42"],
    ] {
        let full = File::options().write(true).open("/dev/full").unwrap();
        let ended = child(&folder, words).stdout(full).output().unwrap();
        let said = String::from_utf8_lossy(&ended.stderr);
        assert_eq!(ended.status.code(), Some(2), "{words:?}");
        assert!(said.starts_with("virentolex: standard output: "), "{said}");
    }
    let full = File::options().write(true).open("/dev/full").unwrap();
    let ended = child(&folder, &["check", "Op ="])
        .stderr(full)
        .output()
        .unwrap();
    assert_eq!(ended.status.code(), Some(2));
}

/// An input without end is no reason to take memory without end.
#[test]
fn inputs_without_end() {
    let folder = Folder::new("endless");
    folder
        .run(&["check", "-f", "/dev/zero"], b"")
        .refuses("refused 10: ");
    folder
        .run(&["notice", "mend", "/dev/zero"], b"")
        .refuses("refused 10: ");
    let long = vec![b'a'; 2 << 20];
    folder
        .run(&["match", "Op == 42", "-"], &long)
        .refuses("1,048,576");
    folder
        .run(&["notice", "show", "--form", "ubf", "-"], &long)
        .refuses("1,048,576");
    folder
        .run(&["notice", "show", "--form", "binary", "-"], &long)
        .refuses("refused 11: ");
}
