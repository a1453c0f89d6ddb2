//! What the tool answers: its exit status, what it prints, and what it says where it fails.
use std::ffi::OsStr;
use std::fmt;
use std::io::{self, BufWriter, IsTerminal, Stdout, Write};
use std::path::Path;

/// The exit status.
#[derive(Debug, Clone, Copy, PartialEq, Eq, PartialOrd, Ord)]
pub enum Status {
    /// True, or done.
    Yes,
    /// False or bottom.
    No,
    /// Something was refused.
    Refused,
}

impl Status {
    pub fn code(self) -> u8 {
        match self {
            Status::Yes => 0,
            Status::No => 1,
            Status::Refused => 2,
        }
    }
}

/// Why a command ended early.
#[derive(Debug)]
pub enum Failure {
    /// Wrong use: what is wrong with the words.
    Use(String),
    /// A refusal, or a file that could not be read: what is said of it.
    Told(String),
    /// Standard output takes no more.
    Output(io::Error),
}

impl From<io::Error> for Failure {
    fn from(error: io::Error) -> Failure {
        Failure::Output(error)
    }
}

pub type Answer = Result<Status, Failure>;

/// Standard output, buffered, and standard error.
pub struct Out {
    output: BufWriter<Stdout>,
    pub to_terminal: bool,
}

impl Out {
    pub fn new() -> Out {
        let stdout = io::stdout();
        Out {
            to_terminal: stdout.is_terminal(),
            output: BufWriter::with_capacity(1 << 16, stdout),
        }
    }

    /// Writes a line.
    pub fn line(&mut self, line: fmt::Arguments) -> io::Result<()> {
        self.output.write_fmt(line)?;
        self.output.write_all(b"\n")
    }

    /// Writes bytes as they are.
    pub fn bytes(&mut self, bytes: &[u8]) -> io::Result<()> {
        self.output.write_all(bytes)
    }

    pub fn flush(&mut self) -> io::Result<()> {
        self.output.flush()
    }

    /// Says something on standard error, after all that was written before.
    pub fn tell(&mut self, message: &str) -> io::Result<()> {
        self.flush()?;
        complain(message);
        Ok(())
    }
}

/// A message on standard error. If that is closed there is nobody to tell.
pub fn complain(message: &str) {
    let _ = writeln!(io::stderr(), "{message}");
}

/// What the system says of a file; where the folder that it should be in is missing, that.
pub fn file_error(file: &OsStr, error: &io::Error) -> Failure {
    let folder = Path::new(file).parent().unwrap_or(Path::new(""));
    let called = line(&folder.to_string_lossy());
    let why = match error.kind() {
        io::ErrorKind::NotFound if !called.is_empty() && !folder.exists() => {
            format!("there is no folder {called}")
        }
        io::ErrorKind::NotFound => "there is no such file".to_string(),
        io::ErrorKind::NotADirectory => format!("{called} is no folder"),
        io::ErrorKind::PermissionDenied => "it may not be read or written".to_string(),
        _ if Path::new(file).is_dir() => "it is a directory".to_string(),
        _ => error.to_string(),
    };
    Failure::Told(format!("{}: {why}", line(&file.to_string_lossy())))
}

/// A word of the command line, or a file's name, as one line that a terminal may show.
pub fn line(word: &str) -> String {
    let plain = |c: char| match crate::spell::prints(c) {
        true => c,
        false => char::REPLACEMENT_CHARACTER,
    };
    word.chars().map(plain).collect()
}
