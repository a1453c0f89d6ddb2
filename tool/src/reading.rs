//! The notices that a command names, one after the other.
use crate::args::{Args, Form, Word};
use crate::caret::Excerpt;
use crate::report::{file_error, line, Answer, Failure, Out, Status};
use crate::source::{self, Source};
use std::borrow::Cow;
use std::ffi::OsStr;
use std::fmt;
use std::io::{self, Cursor};
use std::os::unix::ffi::OsStrExt;
use virentolex::{Notice, Refusal};

/// What a notice is called: its file, with `#2` for the second in it, or `notice 2` for the second of `-n`.
pub struct Label<'a> {
    file: Option<&'a str>,
    number: u64,
    /// Where in the file its bytes start; 0 in the text form, which counts lines.
    start: usize,
}

impl Label<'_> {
    /// The label where the notice is refused, with the place that its own places count from.
    pub fn of_refused(&self) -> String {
        match self.start {
            0 => self.to_string(),
            start => format!("{self} from byte {start}"),
        }
    }
}

impl fmt::Display for Label<'_> {
    fn fmt(&self, f: &mut fmt::Formatter) -> fmt::Result {
        match (self.file, self.number) {
            (None, number) => write!(f, "notice {number}"),
            (Some(file), 1) => f.write_str(file),
            (Some(file), number) => write!(f, "{file}#{number}"),
        }
    }
}

/// A notice's bytes, which may break the layout; or what is wrong with the text that should be one.
pub type Record<'a> = Result<&'a [u8], &'a str>;

/// Holds the words that name notices to their use: there is one, and standard input, which the subscription may
/// have taken, is named once.
pub fn named(args: &Args, taken: bool) -> Result<(), Failure> {
    let inputs = args
        .words
        .iter()
        .filter(|w| matches!(w, Word::Plain(f) if f == "-"));
    match inputs.count() + usize::from(taken) {
        _ if args.words.is_empty() => {
            let why =
                "a notice is lacking: name a file, `-` for standard input, or -n 'NAME: VALUE'";
            Err(Failure::Use(why.into()))
        }
        0 | 1 => Ok(()),
        _ => Err(Failure::Use("standard input is named twice".into())),
    }
}

/// Gives each notice to `act`. A file that cannot be read, or has no notice, is told of; the answer is then refused.
pub fn each(
    args: &Args,
    out: &mut Out,
    mut act: impl FnMut(&mut Out, &Label, Record) -> Result<(), Failure>,
) -> Answer {
    let mut status = Status::Yes;
    let mut number = 0;
    for word in &args.words {
        match word {
            Word::Plain(file) => match of_file(file, args.form, out, &mut act) {
                Err(Failure::Told(why)) => {
                    out.tell(&why)?;
                    status = Status::Refused;
                }
                done => done?,
            },
            Word::Notice(text) => {
                number += 1;
                let made = of_word(text.as_bytes(), args.form);
                let label = Label {
                    file: None,
                    number,
                    start: 0,
                };
                act(out, &label, made.as_deref().map_err(String::as_str))?;
            }
        }
    }
    Ok(status)
}

/// The notices of a file.
fn of_file(
    file: &OsStr,
    form: Option<Form>,
    out: &mut Out,
    act: &mut impl FnMut(&mut Out, &Label, Record) -> Result<(), Failure>,
) -> Result<(), Failure> {
    let name = line(&file.to_string_lossy());
    let told = |e| file_error(file, &e);
    let input = source::open(file).map_err(|e| unopened(file, &e))?;
    let mut source = Source::new(input, form).map_err(told)?;
    let mut record = Vec::new();
    let mut number = 0;
    loop {
        if source.may_wait() {
            out.flush()?;
        }
        if !source.next(&mut record).map_err(told)? {
            break;
        }
        if let Some(made) = made(&source, &record) {
            number += 1;
            let start = match source.form {
                Form::Text => 0,
                Form::Binary | Form::Ubf => source.start,
            };
            let label = Label {
                file: Some(&name),
                number,
                start,
            };
            act(out, &label, made.as_deref().map_err(String::as_str))?;
        }
    }
    match number {
        0 => Err(Failure::Told(format!("{name}: there is no notice in it"))),
        _ => Ok(()),
    }
}

/// What is said of a file that cannot be opened; its name may be a notice.
fn unopened(file: &OsStr, error: &io::Error) -> Failure {
    let word = file.as_bytes();
    let spelled = match Notice::from_text(word) {
        Ok(_) => !is_blank(word),
        Err(fault) => fault.refusal().is_some(),
    };
    let is_notice = word.starts_with(b"{") || spelled;
    match file_error(file, error) {
        Failure::Told(why) if is_notice => {
            Failure::Told(format!("{why}; a notice itself stands behind -n"))
        }
        failure => failure,
    }
}

/// The notice of a record; none if the record has comments alone.
fn made<'a>(source: &Source, record: &'a [u8]) -> Option<Result<Cow<'a, [u8]>, String>> {
    let notice = match source.form {
        Form::Binary => return Some(Ok(record.into())),
        Form::Ubf => Some(of_ubf(record)),
        Form::Text => of_text(record, source.start).transpose(),
    };
    notice.map(|notice| notice.map(|n| n.into_bytes().into()))
}

/// The one notice of a word.
fn of_word(text: &[u8], form: Option<Form>) -> Result<Vec<u8>, String> {
    let shown = || Source::new(Box::new(Cursor::new(text.to_vec())), None).map(|s| s.form);
    let notice = match form.or_else(|| shown().ok()) {
        Some(Form::Binary) => return Ok(text.to_vec()),
        Some(Form::Ubf) => of_ubf(text.trim_ascii()),
        _ => of_text(text, 1).map(|made| made.unwrap_or_default()),
    };
    notice.map(Notice::into_bytes)
}

fn of_ubf(text: &[u8]) -> Result<Notice, String> {
    Notice::from_ubf(text).map_err(|refusal| match refusal {
        Refusal::UbfSyntax if is_json(text) => format!(
            "{}; it is JSON: write fields as NAME: VALUE, or UBF(A) as {{\"Op\" 42}}$",
            refused(refusal)
        ),
        Refusal::UbfSyntax if !text.ends_with(b"$") => {
            format!("{}; it has no $ at its end", refused(refusal))
        }
        _ => refused(refusal),
    })
}

/// Whether a text starts as an object of JSON does, with a string and a colon.
fn is_json(text: &[u8]) -> bool {
    let Some(rest) = text.trim_ascii_start().strip_prefix(b"{") else {
        return false;
    };
    let mut bytes = rest.trim_ascii_start().iter();
    if bytes.next() != Some(&b'"') {
        return false;
    }
    while let Some(byte) = bytes.next() {
        match byte {
            b'\\' => drop(bytes.next()),
            b'"' => return bytes.as_slice().trim_ascii_start().starts_with(b":"),
            _ => (),
        }
    }
    false
}

/// Whether a text has blank lines and comments alone.
fn is_blank(text: &[u8]) -> bool {
    let blank = |line: &[u8]| matches!(line.trim_ascii(), [] | [b'#', ..]);
    text.split(|b| *b == b'\n').all(blank)
}

/// A notice in the text form, which starts at a line of its file; none if there are only comments.
fn of_text(text: &[u8], line: usize) -> Result<Option<Notice>, String> {
    let at = |place: usize, why: &str| {
        let mut excerpt = Excerpt::of(text, place);
        excerpt.line += line - 1;
        format!("{}: {why}\n{}", excerpt.whereabouts(), excerpt.picture())
    };
    if is_blank(text) {
        return Ok(None);
    }
    let notice = Notice::from_text(text).map_err(|fault| match fault.refusal() {
        Some(refusal) => at(fault.place, &refused(refusal)),
        None => at(fault.place, fault.reason()),
    });
    notice.map(Some)
}

/// `refused 14: a field of that name is already there`.
pub fn refused(refusal: Refusal) -> String {
    format!("refused {}: {}", refusal.number(), refusal.reason())
}

#[cfg(test)]
mod tests {
    use super::*;
    use crate::random::Random;

    /// Of any bytes it is said which line is wrong, with a caret, or they are a notice that is written as text again.
    #[test]
    fn any_bytes_as_a_text() {
        let mut random = Random::new(3);
        let (mut right, mut wrong) = (0, 0);
        for _ in 0..3_000 {
            let mut text = b"# from the yard\nConsole: \"yard\"; Trip: 7L\nKey: [00 ff]\n".to_vec();
            let (at, count) = (random.below(text.len()), random.below(4));
            let end = text.len().min(at + random.below(4));
            text.splice(at..end, random.bytes(count));
            match of_text(&text, 1) {
                Ok(notice) => {
                    let notice = notice.expect("a line is neither blank nor a comment");
                    assert_eq!(of_text(notice.to_string().as_bytes(), 1), Ok(Some(notice)));
                    right += 1;
                }
                Err(said) => {
                    assert!(said.starts_with("line ") && said.ends_with('^'), "{said}");
                    wrong += 1;
                }
            }
        }
        assert!(right > 300 && wrong > 300, "{right} {wrong}");
    }

    #[test]
    fn blank_lines_and_comments_are_no_notice() {
        assert_eq!(of_text(b"# a: 1\n \n\t# b\n", 1), Ok(None));
        assert_eq!(of_text(b"", 1), Ok(None));
        assert_eq!(of_text(b"# a\n(no fields)\n", 1), Ok(Some(Notice::new())));
    }

    #[test]
    fn a_second_notice_in_a_text() {
        let said = of_text(b"a: 1\n\nb: 2", 1).unwrap_err();
        let meant =
            "line 3, column 1: a blank line ends a notice, and another begins here\n  b: 2\n  ^";
        assert_eq!(said, meant);
    }
}
