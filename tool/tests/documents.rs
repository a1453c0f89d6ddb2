//! The transcripts of the manual and of the README, and the manual's table of refusals.
mod common;
use common::{Folder, BINARY};
use std::fs::{self, File};
use std::path::Path;
use std::process::Command;
use virentolex::Refusal;

fn document(name: &str) -> String {
    let path = Path::new(env!("CARGO_MANIFEST_DIR")).join("..").join(name);
    fs::read_to_string(path).unwrap()
}

/// A command of a transcript, and what is printed after it.
#[derive(Debug, Default, PartialEq, Eq)]
struct Step {
    command: String,
    printed: String,
}

/// The steps of the fenced blocks that begin with a command: `$ ` starts it, and `>` goes on with it.
fn steps(document: &str) -> Vec<Step> {
    let mut steps: Vec<Step> = Vec::new();
    let (mut fenced, mut begun) = (false, false);
    for line in document.lines() {
        if line.starts_with("```") {
            (fenced, begun) = (!fenced, false);
        } else if !fenced {
            continue;
        } else if let Some(command) = line.strip_prefix("$ ") {
            begun = true;
            steps.push(Step {
                command: command.into(),
                printed: String::new(),
            });
        } else if let Some(step) = steps.last_mut().filter(|_| begun) {
            match line
                .strip_prefix('>')
                .filter(|_| step.printed.is_empty() && step.command.contains("<<"))
            {
                Some(more) => {
                    step.command += &format!("\n{}", more.strip_prefix(' ').unwrap_or(more))
                }
                None => step.printed += &format!("{line}\n"),
            }
        }
    }
    steps
}

/// Runs a command line in the folder, and gives what it prints, both outputs in their order.
fn printed(folder: &Folder, command: &str) -> (Option<i32>, String) {
    let tools = Path::new(BINARY).parent().unwrap().display().to_string();
    let path = format!("{tools}:{}", std::env::var("PATH").unwrap_or_default());
    let output = folder.path().join(".printed");
    let file = File::create(&output).unwrap();
    let mut shell = Command::new("sh");
    shell
        .arg("-c")
        .arg(command)
        .env("PATH", path)
        .current_dir(folder.path());
    shell.stdin(std::process::Stdio::null());
    shell.stdout(file.try_clone().unwrap()).stderr(file);
    let status = shell.status().unwrap();
    (
        status.code(),
        String::from_utf8_lossy(&fs::read(&output).unwrap()).into_owned(),
    )
}

/// Runs the steps of a document, at least so many with the tool in them.
fn run(name: &str, least: usize) {
    let folder = Folder::new(&name.replace('/', "-"));
    let steps = steps(&document(name));
    let mut wrong = String::new();
    for step in &steps {
        let (_, printed) = printed(&folder, &step.command);
        if printed != step.printed {
            wrong += &format!(
                "$ {}\nis said to print\n{}and prints\n{printed}\n",
                step.command, step.printed
            );
        }
    }
    assert!(wrong.is_empty(), "{name}:\n{wrong}");
    let ours = steps
        .iter()
        .filter(|step| step.command.starts_with("virentolex "))
        .count();
    assert!(ours >= least, "{name}: {ours} commands");
}

#[test]
fn the_manual() {
    run("docs/MANUAL.md", 40);
}

#[test]
fn the_readme() {
    run("README.md", 2);
}

/// The rows of the manual's table of refusals: number, words and example.
fn rows() -> Vec<(u8, String, String)> {
    let manual = document("docs/MANUAL.md");
    let table = manual
        .lines()
        .filter(|line| line.starts_with("| ") && line.ends_with(" |"));
    table
        .filter_map(|line| {
            let cells: Vec<&str> = line.trim_matches('|').split(" | ").map(str::trim).collect();
            let number = cells.first()?.parse().ok()?;
            assert_eq!(cells.len(), 4, "{line}");
            Some((number, cells[1].into(), cells[3].trim_matches('`').into()))
        })
        .collect()
}

#[test]
fn every_refusal_is_in_the_manual_in_the_words_of_the_tool() {
    let rows = rows();
    let numbers: Vec<u8> = rows.iter().map(|(number, ..)| *number).collect();
    assert_eq!(numbers, (1..=30).collect::<Vec<u8>>());
    for (number, words, _) in rows {
        let refusal = Refusal::from_number(number, 0).unwrap();
        assert_eq!(
            (refusal.number(), words.as_str()),
            (number, refusal.reason())
        );
    }
    assert_eq!(Refusal::from_number(31, 0), Some(Refusal::Unknown(31)));
}

#[test]
fn the_examples_of_refusals_are_refused_so() {
    let folder = Folder::new("refusals");
    let mut examples = 0;
    for (number, words, example) in rows() {
        if example.is_empty() {
            continue;
        }
        let (status, said) = match example.starts_with("virentolex ") {
            true => printed(&folder, &example),
            false => {
                let ran = folder.run(&["check", "--", &example], b"");
                (ran.status, ran.err)
            }
        };
        assert_eq!(status, Some(2), "{example}");
        assert!(
            said.contains(&format!("refused {number}: {words}")),
            "{example}: {said}"
        );
        examples += 1;
    }
    assert!(examples >= 15, "{examples}");
}

#[test]
fn steps_of_a_transcript() {
    let text = "a\n```\n$ cat > x <<'END'\n> one\n>\n> END\n$ virentolex check\nout\n> out\n```\n$ no\n```text\n$not\n```\n";
    let wanted = [
        ("cat > x <<'END'\none\n\nEND", ""),
        ("virentolex check", "out\n> out\n"),
    ];
    let found: Vec<(String, String)> = steps(text)
        .into_iter()
        .map(|s| (s.command, s.printed))
        .collect();
    assert_eq!(found, wanted.map(|(a, b)| (a.to_string(), b.to_string())));
}
