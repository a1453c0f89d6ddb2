//! The subscription that a command names: a word, a file, or standard input.
use crate::args::{Args, Word};
use crate::hint;
use crate::reading::refused;
use crate::report::{line, Failure};
use crate::source;
use crate::tables;
use std::ffi::{OsStr, OsString};
use std::os::unix::ffi::{OsStrExt, OsStringExt};
use std::path::Path;
use virentolex::{Edition, Refusal, Subscription, TABLE_MAX};

/// Where a subscription is: its text in a word, its text or its table in a file, its table in a file.
pub enum Named {
    Word(OsString),
    File(OsString),
    Table(OsString),
}

impl Named {
    /// Takes what `-f` or `--table` names, or else the first word.
    pub fn take(args: &mut Args) -> Result<Named, Failure> {
        match (args.file.take(), args.table.take()) {
            (None, None) => (),
            (Some(file), None) => return Ok(Named::File(file)),
            (None, Some(file)) => return Ok(Named::Table(file)),
            (Some(_), Some(_)) => {
                return Err(Failure::Use("-f and --table name two subscriptions".into()))
            }
        }
        match args.word() {
            Some(word) if word == "-" => Ok(Named::File(word)),
            Some(word) => {
                unquoted(&word, args)?;
                Ok(Named::Word(word))
            }
            None => Err(Failure::Use("a subscription is lacking".into())),
        }
    }

    /// As `take`, where no word follows.
    pub fn only(args: &mut Args) -> Result<Named, Failure> {
        let named = Named::take(args)?;
        args.spent().map_err(|why| {
            let quotes = match named {
                Named::Word(_) => "; put a subscription of several words into quotes",
                Named::File(_) | Named::Table(_) => "",
            };
            Failure::Use(why + quotes)
        })?;
        Ok(named)
    }

    /// Whether the text is on standard input, which then holds no notices.
    pub fn is_standard_input(&self) -> bool {
        matches!(self, Named::File(file) | Named::Table(file) if file == "-")
    }

    /// Reads the text and translates it, or reads the table.
    pub fn translate(self, edition: Edition) -> Result<Subscription, Failure> {
        match self.read()? {
            Held::Text(text) => text.translate(edition),
            Held::Table(subscription) => Ok(subscription),
        }
    }

    /// Reads the text, or the table.
    pub fn read(self) -> Result<Held, Failure> {
        let (file, table) = match self {
            Named::Word(word) => {
                let bytes = word.into_vec();
                return Ok(Held::Text(Text { bytes, file: None }));
            }
            Named::File(file) => (file, false),
            Named::Table(file) => (file, true),
        };
        let bytes = source::read(&file, TABLE_MAX)?;
        if table || tables::is_binary(&bytes) {
            let called = line(&file.to_string_lossy());
            let told = |why| Failure::Told(format!("{called}: {why}"));
            return tables::subscription(&bytes).map_err(told).map(Held::Table);
        }
        let file = Some(file);
        Ok(Held::Text(Text { bytes, file }))
    }
}

/// What a name stood for.
pub enum Held {
    Text(Text),
    Table(Subscription),
}

/// Refuses a subscription of several words, which the shell has parted: an operator is behind the first.
fn unquoted(first: &OsStr, args: &Args) -> Result<(), Failure> {
    match args.words.first() {
        // `-` is standard input, and a file may have any name
        Some(Word::Plain(word))
            if hint::is_operator(word.as_bytes()) && word != "-" && !Path::new(word).exists() =>
        {
            let words = [first.to_string_lossy(), word.to_string_lossy()].join(" ");
            Err(Failure::Use(format!(
                "the subscription is one word for the shell: put it into quotes, '{} ..'",
                line(&words)
            )))
        }
        _ => Ok(()),
    }
}

/// A subscription's text, and the file that it is from.
pub struct Text {
    pub bytes: Vec<u8>,
    file: Option<OsString>,
}

impl Text {
    pub fn translate(&self, edition: Edition) -> Result<Subscription, Failure> {
        let refused = |refusal| Failure::Told(self.refused(refusal));
        Subscription::translate(&self.bytes, edition).map_err(refused)
    }

    /// The reason in words, the line with a caret, and what may be meant.
    fn refused(&self, refusal: Refusal) -> String {
        let file = match &self.file {
            Some(file) => format!("{}: ", line(&file.to_string_lossy())),
            None => String::new(),
        };
        let mut said = format!("{file}{}", refused(refusal));
        if let Some(hint) = hint::of(&self.bytes, refusal) {
            said += &format!("\n{hint}");
        }
        let word = OsStr::from_bytes(&self.bytes);
        if self.file.is_none() && Path::new(word).is_file() {
            said += &format!(
                "\nthere is a file {0}; to read it write -f {0}",
                line(&word.to_string_lossy())
            );
        }
        said
    }
}
