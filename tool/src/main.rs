//! The command `virentolex`: checks subscriptions, matches notices and says why, over the verified router core.
//! Exit status: 0 true or done, 1 false or bottom, 2 refused or wrong use.
#![forbid(unsafe_code)]

mod args;
mod caret;
mod delivery;
mod fault;
mod find;
mod help;
mod hint;
mod keeping;
mod lint;
mod matching;
mod mend;
mod notices;
mod program;
mod quorum;
#[cfg(test)]
mod random;
mod reading;
mod report;
mod source;
mod spell;
mod store;
mod subscription;
mod table;
mod tables;
mod tally;
#[cfg(test)]
mod vectors;
mod why;
mod wording;

use crate::args::Args;
use crate::report::{complain, line, Answer, Failure, Out, Status};
use std::ffi::OsString;
use std::process::ExitCode;

/// A command: its name, the options that it takes, the words of its help, and what it does.
struct Command {
    name: &'static str,
    takes: &'static [&'static str],
    help: &'static str,
    act: fn(&mut Args, &mut Out) -> Answer,
}

const COMMANDS: [Command; 17] = [
    Command {
        name: "check",
        takes: &["edition", "file", "table"],
        help: help::CHECK,
        act: table::check,
    },
    Command {
        name: "lint",
        takes: &["edition", "file", "table"],
        help: help::LINT,
        act: lint::lint,
    },
    Command {
        name: "table",
        takes: &["edition", "file", "table", "output", "hex"],
        help: help::TABLE,
        act: table::table,
    },
    Command {
        name: "match",
        takes: &[
            "edition", "file", "table", "form", "notice", "only", "quiet",
        ],
        help: help::MATCH,
        act: matching::matching,
    },
    Command {
        name: "quorum",
        takes: &[
            "edition", "file", "table", "form", "notice", "state", "quiet",
        ],
        help: help::QUORUM,
        act: quorum::quorum,
    },
    Command {
        name: "deliver",
        takes: &["edition", "form", "notice", "quiet"],
        help: help::DELIVER,
        act: delivery::deliver,
    },
    Command {
        name: "store make",
        takes: &["size"],
        help: help::STORE_MAKE,
        act: store::make,
    },
    Command {
        name: "store add",
        takes: &["edition", "file", "table"],
        help: help::STORE_ADD,
        act: store::add,
    },
    Command {
        name: "store remove",
        takes: &[],
        help: help::STORE_REMOVE,
        act: store::remove,
    },
    Command {
        name: "store list",
        takes: &[],
        help: help::STORE_LIST,
        act: store::list,
    },
    Command {
        name: "store match",
        takes: &["form", "notice", "quiet"],
        help: help::STORE_MATCH,
        act: store::matching,
    },
    Command {
        name: "notice show",
        takes: &["form", "notice", "hex"],
        help: help::SHOW,
        act: notices::show,
    },
    Command {
        name: "notice find",
        takes: &["form", "notice", "quiet"],
        help: help::FIND,
        act: find::find,
    },
    Command {
        name: "notice make",
        takes: &["form", "notice", "output", "hex"],
        help: help::MAKE,
        act: notices::make,
    },
    Command {
        name: "notice mend",
        takes: &["output", "hex"],
        help: help::MEND,
        act: mend::mend,
    },
    Command {
        name: "notice from-ubf",
        takes: &["notice", "output", "hex"],
        help: help::FROM_UBF,
        act: notices::from_ubf,
    },
    Command {
        name: "notice to-ubf",
        takes: &["form", "notice"],
        help: help::TO_UBF,
        act: notices::to_ubf,
    },
];

fn main() -> ExitCode {
    let words: Vec<OsString> = std::env::args_os().skip(1).collect();
    let mut out = Out::new();
    let answer = run(&words, &mut out).and_then(|status| {
        out.flush()?;
        Ok(status)
    });
    let status = answer.unwrap_or_else(|failure| {
        // what was written before the failure is shown before it
        let flushed = out.flush();
        match (failure, flushed) {
            (Failure::Output(e), _) if e.kind() == std::io::ErrorKind::BrokenPipe => (),
            (Failure::Output(e), _) => complain(&format!("virentolex: standard output: {e}")),
            (Failure::Use(why), _) => {
                complain(&format!("virentolex: {why}\ntry: {}", try_help(&words)))
            }
            (Failure::Told(why), _) => complain(&why),
        }
        Status::Refused
    });
    ExitCode::from(status.code())
}

/// The command that would help.
fn try_help(words: &[OsString]) -> String {
    match named(words) {
        Some((command, _)) => format!("virentolex {} --help", command.name),
        None => "virentolex --help".to_string(),
    }
}

/// The command that the first words name, and the words after them.
fn named(words: &[OsString]) -> Option<(&'static Command, &[OsString])> {
    COMMANDS.iter().find_map(|command| {
        let count = command.name.split(' ').count();
        let (name, rest) = words.split_at_checked(count)?;
        let same = command.name.split(' ').zip(name).all(|(a, b)| b == a);
        same.then_some((command, rest))
    })
}

fn run(words: &[OsString], out: &mut Out) -> Answer {
    if let Some((command, rest)) = named(words) {
        let mut args = Args::read(rest, command.takes).map_err(Failure::Use)?;
        return match args.help {
            true => helped(out, command.help),
            false => (command.act)(&mut args, out),
        };
    }
    let words: Vec<&str> = words
        .iter()
        .map(|w| w.to_str().unwrap_or("\u{fffd}"))
        .collect();
    match words.as_slice() {
        ["--help" | "-h" | "help"] => helped(out, help::MAIN),
        ["--version" | "-V"] => {
            helped(out, concat!("virentolex ", env!("CARGO_PKG_VERSION"), "\n"))
        }
        ["notice", "--help" | "-h"] | ["help", "notice"] => helped(out, help::NOTICE),
        ["store", "--help" | "-h"] | ["help", "store"] => helped(out, help::STORE),
        ["help", rest @ ..] => match named(&rest.iter().map(OsString::from).collect::<Vec<_>>()) {
            Some((command, _)) => helped(out, command.help),
            None => Err(unknown(rest)),
        },
        [] => Err(Failure::Use("a command is lacking".into())),
        ["notice"] => Err(Failure::Use(
            "notice takes show, find, make, mend, from-ubf or to-ubf".into(),
        )),
        ["store"] => Err(Failure::Use(
            "store takes make, add, remove, list or match".into(),
        )),
        words => Err(unknown(words)),
    }
}

/// What is said of words that name no command, and which may be meant.
fn unknown(words: &[&str]) -> Failure {
    let count = match words.first() {
        Some(&("notice" | "store")) => 2,
        _ => 1,
    };
    let word = words[..words.len().min(count)].join(" ");
    let names = COMMANDS.iter().map(|command| command.name);
    let ends = |name: &&str| name.split(' ').next_back() == Some(&word);
    let mut meant: Vec<&str> = names.clone().filter(ends).collect();
    if meant.is_empty() {
        meant.extend(hint::cures::nearest(&word, names));
    }
    let meant = match meant.is_empty() {
        true => String::new(),
        false => format!("; did you mean {}?", meant.join(" or ")),
    };
    Failure::Use(format!("there is no command {}{meant}", line(&word)))
}

fn helped(out: &mut Out, words: &str) -> Answer {
    out.bytes(words.as_bytes())?;
    Ok(Status::Yes)
}
