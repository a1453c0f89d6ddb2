//! `notice show`, `make`, `from-ubf` and `to-ubf`: notices from one form to another.
use crate::args::{Args, Form, Word};
use crate::fault;
use crate::reading::{self, refused, Label, Record};
use crate::report::{file_error, line, Answer, Failure, Out, Status};
use crate::spell;
use std::ffi::{OsStr, OsString};
use std::fs::{self, File};
use std::io::{BufWriter, Write};
use std::os::unix::fs::MetadataExt;
use virentolex::{Notice, NoticeRef};

/// `notice show NOTICE..`: the text form, or the bytes in hex.
pub fn show(args: &mut Args, out: &mut Out) -> Answer {
    let mut first = true;
    let hex = args.hex;
    converted(args, out, |out, _, notice| {
        if !std::mem::take(&mut first) && !hex {
            out.bytes(b"\n")?;
        }
        match hex {
            true => out.line(format_args!("{}", spell::hex(notice.as_bytes())))?,
            false => out.bytes(notice.to_string().as_bytes())?,
        }
        Ok(Status::Yes)
    })
}

/// `notice make NOTICE..`: binary notices, one after the other.
pub fn make(args: &mut Args, out: &mut Out) -> Answer {
    reading::named(args, false)?;
    let mut target = Target::open(args, out)?;
    let status = converted(args, out, |out, _, notice| {
        target.write(out, notice.as_bytes())?;
        Ok(Status::Yes)
    })?;
    target.close()?;
    Ok(status)
}

/// `notice from-ubf NOTICE..`: as `make`, from UBF(A).
pub fn from_ubf(args: &mut Args, out: &mut Out) -> Answer {
    args.form = Some(Form::Ubf);
    make(args, out)
}

/// `notice to-ubf NOTICE..`: a UBF(A) text on each line.
pub fn to_ubf(args: &mut Args, out: &mut Out) -> Answer {
    converted(args, out, |out, label, notice| {
        match Notice::from(notice).to_ubf() {
            Ok(text) => {
                out.bytes(&text)?;
                out.bytes(b"\n")?;
                Ok(Status::Yes)
            }
            Err(refusal) => {
                out.tell(&format!("{}: {}", label.of_refused(), refused(refusal)))?;
                Ok(Status::Refused)
            }
        }
    })
}

/// Gives each well-formed notice to `act`; the others are told of.
pub fn converted(
    args: &Args,
    out: &mut Out,
    mut act: impl FnMut(&mut Out, &Label, NoticeRef) -> Answer,
) -> Answer {
    reading::named(args, false)?;
    let mut status = Status::Yes;
    let read = reading::each(args, out, |out, label, record| {
        match well_formed(record) {
            Ok(notice) => status = status.max(act(out, label, notice)?),
            Err(said) => {
                status = Status::Refused;
                out.tell(&format!("{}: {said}", label.of_refused()))?;
            }
        }
        Ok(())
    })?;
    Ok(status.max(read))
}

fn well_formed(record: Record) -> Result<NoticeRef, String> {
    let bytes = record?;
    NoticeRef::from_bytes(bytes).map_err(|refusal| fault::refused(bytes, refusal))
}

/// Where binary notices go: a file, standard output, or hex on it.
pub enum Target {
    File(OsString, BufWriter<File>),
    Output,
    Hex,
}

impl Target {
    pub fn open(args: &Args, out: &Out) -> Result<Target, Failure> {
        match &args.output {
            Some(_) if args.hex => Err(Failure::Use("-o and --hex exclude each other".into())),
            None if args.hex => Ok(Target::Hex),
            Some(name) if is_read(args, name) => {
                let name = line(&name.to_string_lossy());
                Err(Failure::Use(format!(
                    "{name} is read, and cannot be written"
                )))
            }
            Some(name) if name != "-" => match File::create(name) {
                Ok(file) => Ok(Target::File(name.clone(), BufWriter::new(file))),
                Err(e) => Err(file_error(name, &e)),
            },
            None if out.to_terminal => {
                let why = "a notice is no text for a terminal: name a file with -o, or take --hex";
                Err(Failure::Use(why.into()))
            }
            _ => Ok(Target::Output),
        }
    }

    pub fn write(&mut self, out: &mut Out, bytes: &[u8]) -> Result<(), Failure> {
        match self {
            Target::File(name, file) => file.write_all(bytes).map_err(|e| file_error(name, &e))?,
            Target::Output => out.bytes(bytes)?,
            Target::Hex => out.line(format_args!("{}", spell::hex(bytes)))?,
        }
        Ok(())
    }

    pub fn close(self) -> Result<(), Failure> {
        match self {
            Target::File(name, mut file) => file.flush().map_err(|e| file_error(&name, &e)),
            _ => Ok(()),
        }
    }
}

/// Whether a file is one of those that are read, by this name or another.
fn is_read(args: &Args, output: &OsStr) -> bool {
    let place = |file: &OsStr| fs::metadata(file).ok().map(|m| (m.dev(), m.ino()));
    let output = place(output);
    let same = |word: &Word| matches!(word, Word::Plain(file) if place(file) == output);
    output.is_some() && args.words.iter().any(same)
}
