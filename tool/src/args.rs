//! The words of the command line: options, and what stands between them.
use std::ffi::{OsStr, OsString};
use std::os::unix::ffi::{OsStrExt, OsStringExt};
use virentolex::{Edition, Refusal, Verdict};

/// A form of notices.
#[derive(Debug, Clone, Copy, PartialEq, Eq)]
pub enum Form {
    Binary,
    Ubf,
    Text,
}

/// A word that is no option: a word of its own, or the notice of an `-n`.
#[derive(Debug, Clone, PartialEq, Eq)]
pub enum Word {
    Plain(OsString),
    Notice(OsString),
}

/// What the command line says.
#[derive(Debug, Clone, PartialEq, Eq)]
pub struct Args {
    pub edition: Edition,
    pub form: Option<Form>,
    pub file: Option<OsString>,
    pub output: Option<OsString>,
    pub table: Option<OsString>,
    pub state: Option<OsString>,
    pub size: Option<usize>,
    pub only: Option<Verdict>,
    pub hex: bool,
    pub quiet: bool,
    pub help: bool,
    pub words: Vec<Word>,
}

/// The options, by their long names; a command takes some of them, and `help` always.
const OPTIONS: [(&str, Option<u8>, bool); 12] = [
    ("edition", None, true),
    ("form", None, true),
    ("file", Some(b'f'), true),
    ("notice", Some(b'n'), true),
    ("output", Some(b'o'), true),
    ("only", None, true),
    ("table", None, true),
    ("state", None, true),
    ("size", None, true),
    ("hex", None, false),
    ("quiet", Some(b'q'), false),
    ("help", Some(b'h'), false),
];

impl Args {
    fn new() -> Args {
        Args {
            edition: Edition::First,
            form: None,
            file: None,
            output: None,
            table: None,
            state: None,
            size: None,
            only: None,
            hex: false,
            quiet: false,
            help: false,
            words: Vec::new(),
        }
    }

    /// Reads the words of a command that takes the options of these names.
    pub fn read(words: &[OsString], takes: &[&str]) -> Result<Args, String> {
        let mut args = Args::new();
        let mut words = words.iter();
        let mut options = true;
        while let Some(word) = words.next() {
            match option(word).filter(|_| options) {
                None => args.words.push(Word::Plain(word.clone())),
                Some(given) if given.name == b"-" => options = false,
                Some(given) => {
                    let (name, valued) = given.known(takes)?;
                    let value = match (valued, given.value) {
                        (true, Some(value)) => value,
                        (true, None) => words
                            .next()
                            .cloned()
                            .ok_or_else(|| format!("--{name} lacks its value"))?,
                        (false, None) => OsString::new(),
                        (false, Some(_)) => return Err(format!("--{name} takes no value")),
                    };
                    args.set(name, value)?;
                }
            }
        }
        Ok(args)
    }

    /// Takes the first word that is no notice of an `-n`.
    pub fn word(&mut self) -> Option<OsString> {
        let first = self.words.iter().position(|w| matches!(w, Word::Plain(_)));
        match first.map(|k| self.words.remove(k)) {
            Some(Word::Plain(word)) => Some(word),
            _ => None,
        }
    }

    /// That no word is left.
    pub fn spent(&self) -> Result<(), String> {
        match self.words.first() {
            None => Ok(()),
            Some(Word::Plain(word) | Word::Notice(word)) => {
                let word = crate::report::line(&word.to_string_lossy());
                Err(format!("{word} is one word too many"))
            }
        }
    }

    fn set(&mut self, name: &str, value: OsString) -> Result<(), String> {
        match name {
            "edition" => self.edition = edition(&value)?,
            "form" => self.form = Some(form(&value)?),
            "only" => self.only = Some(only(&value)?),
            "file" => once(&mut self.file, name, value)?,
            "output" => once(&mut self.output, name, value)?,
            "table" => once(&mut self.table, name, value)?,
            "state" => once(&mut self.state, name, value)?,
            "size" => self.size = Some(size(&value)?),
            "notice" => self.words.push(Word::Notice(value)),
            "hex" => self.hex = true,
            "quiet" => self.quiet = true,
            _ => self.help = true,
        }
        Ok(())
    }
}

/// A word that is an option: `-x`, `-xVALUE`, `--name`, `--name=VALUE`. The name of `--` is `-`.
struct Given {
    name: Vec<u8>,
    value: Option<OsString>,
    long: bool,
}

impl Given {
    /// The option's name, and whether it takes a value.
    fn known(&self, takes: &[&str]) -> Result<(&'static str, bool), String> {
        let same = |name: &str, short: Option<u8>| match self.long {
            true => name.as_bytes() == self.name,
            false => short.is_some_and(|b| [b] == *self.name),
        };
        let found = OPTIONS.iter().find(|(name, short, _)| same(name, *short));
        match found {
            Some((name, _, valued)) if *name == "help" || takes.contains(name) => {
                Ok((name, *valued))
            }
            _ => {
                let dashes = if self.long { "--" } else { "-" };
                let name = OsStr::from_bytes(&self.name).to_string_lossy();
                let names = takes.iter().copied().filter(|_| self.long);
                let meant = crate::hint::cures::nearest(&name, names.chain(["help"]));
                Err(format!(
                    "there is no option {dashes}{} here{}",
                    crate::report::line(&name),
                    meant.map_or(String::new(), |name| format!("; did you mean --{name}?"))
                ))
            }
        }
    }
}

/// The option that a word is, if it is one. `-` alone is a file, and `-5 < Op` a subscription.
fn option(word: &OsStr) -> Option<Given> {
    let os = |bytes: &[u8]| OsString::from_vec(bytes.to_vec());
    match word.as_bytes() {
        b"--" => Some(Given {
            name: b"-".to_vec(),
            value: None,
            long: false,
        }),
        [b'-', b'-', rest @ ..] => {
            let mut parts = rest.splitn(2, |b| *b == b'=');
            let name = parts.next().unwrap_or_default().to_vec();
            Some(Given {
                name,
                value: parts.next().map(os),
                long: true,
            })
        }
        [b'-', b'0'..=b'9', ..] | [b'-'] => None,
        [b'-', letter, rest @ ..] => Some(Given {
            name: vec![*letter],
            value: (!rest.is_empty()).then(|| os(rest)),
            long: false,
        }),
        _ => None,
    }
}

fn once(place: &mut Option<OsString>, name: &str, value: OsString) -> Result<(), String> {
    match place.replace(value) {
        None => Ok(()),
        Some(_) => Err(format!("--{name} is given twice")),
    }
}

fn edition(value: &OsStr) -> Result<Edition, String> {
    match value.as_bytes() {
        b"1" => Ok(Edition::First),
        b"2" => Ok(Edition::Second),
        _ => Err(crate::reading::refused(Refusal::Edition)),
    }
}

fn form(value: &OsStr) -> Result<Form, String> {
    match value.as_bytes() {
        b"binary" => Ok(Form::Binary),
        b"ubf" => Ok(Form::Ubf),
        b"text" => Ok(Form::Text),
        _ => Err("the form of notices is binary, ubf or text".into()),
    }
}

fn size(value: &OsStr) -> Result<usize, String> {
    let number = value.to_str().and_then(|word| word.parse().ok());
    number.ok_or_else(|| "--size takes a number of bytes, 8 to 65536".into())
}

fn only(value: &OsStr) -> Result<Verdict, String> {
    match value.as_bytes() {
        b"true" => Ok(Verdict::True),
        b"false" => Ok(Verdict::False),
        b"bottom" => Ok(Verdict::Bottom),
        _ => Err("--only takes true, false or bottom".into()),
    }
}

#[cfg(test)]
mod tests;
