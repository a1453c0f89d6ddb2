//! Cases with their answers from files, one case a line: byte strings in hex, `-` for none, numbers in
//! decimal. A file's name tells what its lines hold.
//!
//! - `translate.txt`: text, buffer length, number, place, table
//! - `run.txt`: table, notice, number, place, verdict, steps
//! - `read.txt`: notice, k, number, place, kind, name, value
//! - `write.txt`: buffer, named length, name, kind, value, number, place, new length, buffer afterwards
//! - `program.txt`: standard input, standard output of `verdict`
//! - `01-translate.txt`, `01-run.txt`: as without the number, of texts and tables with `wildcard`
//! - `01-check.txt`: table, number
//! - `01-patterns.txt`: pattern, value, whether the pattern is well-formed (1, 0), whether the value fits
//! - `02-run.txt`: as `run.txt`, of tables with `size`
//! - `03-quorum.txt`: table, needed number, number of notices, the notices, `:`, then for the opening and
//!   each notice number, place, count, reached, parted by `|`
//! - `03-states.txt`: a decision (table, needed number, values parted by commas), a notice, then number,
//!   place, count, reached
//! - `05-read.txt`: UBF(A) text, buffer length, number, place, notice
//! - `05-write.txt`: notice, buffer length, number, place, UBF(A) text
//! - `06-run.txt`: as `run.txt`, of tables with integers beside reals and results beyond int64
//! - `07-run.txt`: as `run.txt`, then the undecided entry; `07-quorum.txt`: as `03-quorum.txt`, each answer
//!   with the entry at its end; `07-program.txt`: as `program.txt`, each `N` line with the entry at its end
//! - `08-many.txt`: tables end to end, notice, verdict buffer's length, number, place, count, verdict bytes
//! - `09-translate.txt`: edition, text, buffer length, number, place, table; `09-run.txt`, `09-check.txt`: as
//!   `07-run.txt` and `01-check.txt`, of tables of both editions
//! - `10-more.txt`: edition, text, notice, larger notice, both verdicts
//! - `11-find.txt`: notice, name, index of the field that has it or `-`, names looked at
//! - `12-store.txt`: buffer length, number of calls, the calls (`a` table, `r` number, `f` number), `:`, the number of
//!   making the store empty, then for each call number:answer: of `a` the table's number, of `r` 0, of `f` the table
//! - `13-translate.txt`, `13-run.txt`, `13-check.txt`, `13-patterns.txt`: as those of 09 and `01-patterns.txt`, of
//!   texts, tables and patterns of `regex`
//! - `14-mend.txt`: bytes, list buffer's length, notice buffer's length, number, place, notice, fields listed, the
//!   list's bytes
//!
//! Runs of files without 07, 09 or 13 in front are from before request 7, so that their answers have no entry.
//! Texts of files without 09, 10 or 13 in front are from before request 9: of the first edition.

use crate::mend::LISTED;
use crate::quorum::{self, Decision, Shown};
use crate::regex::Regex;
use crate::store;
use crate::wildcard::Pattern;
use crate::Truth;

/// Whether the lines of the file of that name agree; the number of lines, or the first that differs.
pub fn agree(file: &str, lines: &str) -> Result<usize, String> {
    for (at, line) in lines.lines().enumerate() {
        let words: Vec<&str> = line.split(' ').collect();
        let (given, answer) = answer(file, &words).ok_or(format!("line {}: no case", at + 1))?;
        if words[given..].join(" ") != answer {
            return Err(format!("line {}: answered {answer}: {line}", at + 1));
        }
    }
    Ok(lines.lines().count())
}

/// How many words of the line are given, and the answer in words.
fn answer(file: &str, words: &[&str]) -> Option<(usize, String)> {
    match (file, words.len()) {
        ("translate.txt" | "01-translate.txt", 5) => Some((2, translate(1, words)?)),
        ("09-translate.txt" | "13-translate.txt", 6) => {
            Some((3, translate(words[0].parse().ok()?, &words[1..])?))
        }
        ("run.txt" | "01-run.txt" | "02-run.txt" | "06-run.txt", 6) => {
            Some((2, without_last(&run(words)?)))
        }
        ("07-run.txt" | "09-run.txt" | "13-run.txt", 7) => Some((2, run(words)?)),
        ("01-check.txt" | "09-check.txt" | "13-check.txt", 2) => {
            Some((1, crate::check(&bytes(words[0])?).to_string()))
        }
        ("01-patterns.txt", 4) => Some((2, pattern(words, wildcard)?)),
        ("13-patterns.txt", 4) => Some((2, pattern(words, regex)?)),
        ("read.txt", 7) => Some((2, read(words)?)),
        ("write.txt", 9) => Some((5, write(words)?)),
        ("program.txt", 2) => Some((1, hex(without_entries(&program(words)?).as_bytes()))),
        ("07-program.txt", 2) => Some((1, hex(program(words)?.as_bytes()))),
        ("03-quorum.txt", _) => quorum(words, without_last),
        ("07-quorum.txt", _) => quorum(words, str::to_string),
        ("03-states.txt", 8) => Some((4, without_last(&state(words)?))),
        ("05-read.txt", 5) => Some((2, ubf(words, crate::ubf::read)?)),
        ("05-write.txt", 5) => Some((2, ubf(words, crate::ubf::write)?)),
        ("08-many.txt", 7) => Some((3, many(words)?)),
        ("10-more.txt", 6) => Some((4, more(words)?)),
        ("11-find.txt", 4) => Some((2, find(words)?)),
        ("12-store.txt", _) => store(words),
        ("14-mend.txt", 8) => Some((3, mend(words)?)),
        _ => None,
    }
}

fn translate(edition: usize, words: &[&str]) -> Option<String> {
    let mut buffer = vec![0; words[1].parse().ok()?];
    let answer = crate::translate(edition, &bytes(words[0])?, &mut buffer);
    Some(format!(
        "{} {} {}",
        answer.number,
        answer.place,
        hex(&buffer[..answer.length])
    ))
}

fn run(words: &[&str]) -> Option<String> {
    let answer = crate::run(&bytes(words[0])?, &bytes(words[1])?);
    let verdict = verdict(answer.verdict);
    Some(format!(
        "{} {} {verdict} {} {}",
        answer.number, answer.place, answer.steps, answer.undecided
    ))
}

fn verdict(verdict: Truth) -> &'static str {
    match verdict {
        Truth::True => "true",
        Truth::False => "false",
        Truth::Bottom => "bottom",
    }
}

/// The words but the last, which request 7 has added.
fn without_last(words: &str) -> String {
    words.rsplit_once(' ').map_or("", |(rest, _)| rest).into()
}

fn program(words: &[&str]) -> Option<String> {
    String::from_utf8(crate::verdict(&bytes(words[0])?)).ok()
}

/// The lines, those of notices without their last words.
fn without_entries(printed: &str) -> String {
    let line = |line: &str| match line.starts_with('N') {
        true => without_last(line) + "\n",
        false => line.to_string() + "\n",
    };
    printed.lines().map(line).collect()
}

fn read(words: &[&str]) -> Option<String> {
    let notice = bytes(words[0])?;
    let answer = crate::read(&notice, words[1].parse().ok()?);
    let (name, value) = (hex(&notice[answer.name]), hex(&notice[answer.value]));
    Some(format!(
        "{} {} {} {name} {value}",
        answer.number, answer.place, answer.kind
    ))
}

fn write(words: &[&str]) -> Option<String> {
    let mut buffer = bytes(words[0])?;
    let (length, kind) = (words[1].parse().ok()?, words[3].parse().ok()?);
    let answer = crate::write(
        &mut buffer,
        length,
        &bytes(words[2])?,
        kind,
        &bytes(words[4])?,
    );
    Some(format!(
        "{} {} {} {}",
        answer.number,
        answer.place,
        answer.length,
        hex(&buffer)
    ))
}

/// Whether the pattern is well-formed, and whether the value fits it.
fn pattern(words: &[&str], fits: fn(&[u8], &[u8]) -> Option<bool>) -> Option<String> {
    let fits = fits(&bytes(words[0])?, &bytes(words[1])?);
    let (right, fits) = (fits.is_some(), fits == Some(true));
    Some(format!("{} {}", u8::from(right), u8::from(fits)))
}

fn wildcard(pattern: &[u8], value: &[u8]) -> Option<bool> {
    Some(Pattern::of(pattern).ok()?.fits(value))
}

fn regex(pattern: &[u8], value: &[u8]) -> Option<bool> {
    Some(Regex::of(pattern).ok()?.fits(value))
}

/// A decision in a buffer of its size, opened and shown each notice; the answers as the file has them.
/// Between the number of no notices and `:` stands an empty word.
fn quorum(words: &[&str], as_stored: fn(&str) -> String) -> Option<(usize, String)> {
    let given = words.iter().position(|word| *word == ":")? + 1;
    let (table, needed) = (bytes(words[0])?, words.get(1)?.parse().ok()?);
    let mut notices = words.get(3..given - 1)?.to_vec();
    notices.retain(|notice| !notice.is_empty());
    if words[2].parse() != Ok(notices.len()) {
        return None;
    }
    let mut buffer = vec![0; quorum::HEAD + table.len()];
    let mut answers = vec![shown(quorum::open(&mut buffer, &table, needed))];
    for notice in notices {
        answers.push(shown(quorum::show(&mut buffer, &bytes(notice)?)));
    }
    let stored: Vec<String> = answers.iter().map(|answer| as_stored(answer)).collect();
    Some((given, stored.join(" | ")))
}

/// A decision made by hand, which need not be right, shown one notice.
fn state(words: &[&str]) -> Option<String> {
    let values: Option<Vec<Vec<u8>>> = match words[2] {
        "-" => Some(Vec::new()),
        values => values.split(',').map(bytes).collect(),
    };
    let mut decision = Decision {
        table: bytes(words[0])?,
        needed: words[1].parse().ok()?,
        values: values?,
    };
    Some(shown(decision.show(&bytes(words[3])?)))
}

/// A UBF(A) text read, or a notice written as one.
fn ubf(words: &[&str], call: fn(&[u8], &mut [u8]) -> crate::Writing) -> Option<String> {
    let mut buffer = vec![0; words[1].parse().ok()?];
    let answer = call(&bytes(words[0])?, &mut buffer);
    Some(format!(
        "{} {} {}",
        answer.number,
        answer.place,
        hex(&buffer[..answer.length])
    ))
}

/// Tables end to end, run on one notice.
fn many(words: &[&str]) -> Option<String> {
    let mut verdicts = vec![0; words[2].parse().ok()?];
    let answer = crate::run_many(&bytes(words[0])?, &bytes(words[1])?, &mut verdicts);
    Some(format!(
        "{} {} {} {}",
        answer.number,
        answer.place,
        answer.count,
        hex(&verdicts[..answer.count])
    ))
}

/// A text's meaning on a notice and on a larger one.
fn more(words: &[&str]) -> Option<String> {
    let (edition, text) = (words[0].parse().ok()?, bytes(words[1])?);
    let meaning = |notice| Some(verdict(crate::meaning(edition, &text, &bytes(notice)?)?));
    Some(format!("{} {}", meaning(words[2])?, meaning(words[3])?))
}

/// A name sought in a notice; no case is refused.
fn find(words: &[&str]) -> Option<String> {
    let answer = crate::find(&bytes(words[0])?, &bytes(words[1])?);
    let index = answer.index.map_or("-".into(), |k| k.to_string());
    (answer.number == 0).then(|| format!("{index} {}", answer.looked))
}

/// A store made empty in a buffer of that length, and the calls on it. With no calls an empty word stands for them.
fn store(words: &[&str]) -> Option<(usize, String)> {
    let given = words.iter().position(|word| *word == ":")? + 1;
    let mut calls = words.get(2..given - 1)?.to_vec();
    calls.retain(|call| !call.is_empty());
    if words[1].parse() != Ok(calls.len()) {
        return None;
    }
    let mut buffer = vec![0; words[0].parse().ok()?];
    let mut answers = vec![store::make(&mut buffer).to_string()];
    for call in calls {
        answers.push(store_call(&mut buffer, call)?);
    }
    Some((given, answers.join(" ")))
}

/// One call on the store in the buffer, and its answer.
fn store_call(buffer: &mut [u8], call: &str) -> Option<String> {
    let rest = call.get(1..)?;
    Some(match call.as_bytes()[0] {
        b'a' => {
            let added = store::add(buffer, &bytes(rest)?);
            format!("{}:{}", added.number, added.id)
        }
        b'r' => format!("{}:0", store::remove(buffer, rest.parse().ok()?)),
        b'f' => {
            let (number, part) = store::fetch(buffer, rest.parse().ok()?);
            format!("{number}:{}", hex(&buffer[part]))
        }
        _ => return None,
    })
}

/// Bytes mended.
fn mend(words: &[&str]) -> Option<String> {
    let mut list = vec![0; words[1].parse().ok()?];
    let mut notice = vec![0; words[2].parse().ok()?];
    let answer = crate::mend(&bytes(words[0])?, &mut list, &mut notice);
    Some(format!(
        "{} {} {} {} {}",
        answer.number,
        answer.place,
        hex(&notice[..answer.length]),
        answer.fields,
        hex(&list[..LISTED * answer.fields])
    ))
}

fn shown(answer: Shown) -> String {
    let reached = u8::from(answer.reached);
    format!(
        "{} {} {} {reached} {}",
        answer.number, answer.place, answer.count, answer.undecided
    )
}

fn hex(bytes: &[u8]) -> String {
    if bytes.is_empty() {
        return "-".to_string();
    }
    bytes.iter().map(|byte| format!("{byte:02x}")).collect()
}

fn bytes(word: &str) -> Option<Vec<u8>> {
    let digits = if word == "-" { "" } else { word };
    let byte = |at: usize| u8::from_str_radix(digits.get(at..at + 2)?, 16).ok();
    (0..digits.len()).step_by(2).map(byte).collect()
}

#[cfg(test)]
mod tests {
    use super::*;

    #[test]
    fn a_difference_is_reported() {
        assert_eq!(agree("translate.txt", "4f70 100 5 0 -\n- 0 2 0 -"), Ok(2));
        assert!(agree("translate.txt", "4f70 100 5 1 -").is_err());
        assert!(agree("other.txt", "4f70 100 5 0 -").is_err());
        for (edition, number) in [("0", 25), ("1", 5), ("2", 5), ("3", 25)] {
            let line = format!("{edition} 4f70 100 {number} 0 -");
            assert_eq!(agree("09-translate.txt", &line), Ok(1));
        }
        assert!(agree("09-translate.txt", "3 4f70 100 5 0 -").is_err());
        assert_eq!(agree("program.txt", "020000000700 5820370a"), Ok(1));
        // "N 12 bottom 0 0", and with request 7 " 65535"
        let (input, line) = ("0400000001000000", "4e20313220626f74746f6d20302030");
        for (file, end) in [("program.txt", ""), ("07-program.txt", "203635353335")] {
            assert_eq!(agree(file, &format!("{input} {line}{end}0a")), Ok(1));
        }
        for (file, answer) in [("run.txt", ""), ("07-run.txt", " 65535")] {
            let line = format!("- - 12 0 bottom 0{answer}");
            assert_eq!(agree(file, &line), Ok(1));
        }
        assert!(agree("07-run.txt", "- - 12 0 bottom 0 0").is_err());
        assert_eq!(agree("read.txt", "0400000001000000 2 17 0 0 - -"), Ok(1));
        let lines = "8 0  : 0\n7 1 f0 : 26 26:-\n8 2 a- r64 : 0 12:64 29:0";
        assert_eq!(agree("12-store.txt", lines), Ok(3));
        assert!(agree("12-store.txt", "8 1 f0 : 0 0:-").is_err());
        assert!(agree("12-store.txt", "8 2 f0 : 0 29:-").is_err());
        let mended = "00000000000000000500 3 8 0 0 0400000001000000 1 080004";
        assert_eq!(agree("14-mend.txt", mended), Ok(1));
        assert!(agree("14-mend.txt", &mended.replace("80004", "80003")).is_err());
        assert_eq!(agree("14-mend.txt", "00 0 0 30 0 - 0 -"), Ok(1));
    }
}
