//! `deliver`: who of a folder of subscriptions gets which notice, by one call of the store's match for each.
use crate::args::Args;
use crate::fault;
use crate::reading::{self, refused, Record};
use crate::report::{line, Answer, Failure, Out, Status};
use crate::spell::{count, thousands};
use crate::subscription::Named;
use std::ffi::{OsStr, OsString};
use std::fs;
use std::io;
use std::os::unix::ffi::OsStrExt;
use std::path::Path;
use virentolex::{Edition, Store, Verdict, Verdicts, STORE_MAX};

/// `deliver FOLDER NOTICE..`.
pub fn deliver(args: &mut Args, out: &mut Out) -> Answer {
    let folder = args.word();
    let folder =
        folder.ok_or_else(|| Failure::Use("a folder of subscription files comes first".into()))?;
    reading::named(args, false)?;
    let mut names = Vec::new();
    let mut store = Store::make(vec![0; STORE_MAX]).map_err(|r| Failure::Told(refused(r)))?;
    let mut status = Status::Yes;
    for file in files(&folder)? {
        match subscribed(&mut store, Path::new(&folder).join(&file), args.edition) {
            // nothing is removed, so that the numbers are those of the names
            Ok(_) => names.push(line(&file.to_string_lossy())),
            Err(Failure::Told(why)) => {
                out.tell(&why)?;
                status = Status::Refused;
            }
            Err(failure) => return Err(failure),
        }
    }
    let name = |id: usize| names.get(id).cloned().unwrap_or_default();
    Ok(status.max(delivered(args, out, &store, name)?))
}

/// The files of a folder, by their names; not those whose names start with a point, nor the folders in it.
fn files(folder: &OsStr) -> Result<Vec<OsString>, Failure> {
    let called = line(&folder.to_string_lossy());
    let told = |e: io::Error| {
        let why = match e.kind() {
            io::ErrorKind::NotFound => "there is no such folder".to_string(),
            io::ErrorKind::NotADirectory => "it is no folder".to_string(),
            io::ErrorKind::PermissionDenied => "it may not be read".to_string(),
            _ => e.to_string(),
        };
        Failure::Told(format!("{called}: {why}"))
    };
    let mut files = Vec::new();
    for entry in fs::read_dir(folder).map_err(told)? {
        let entry = entry.map_err(told)?;
        let hidden = entry.file_name().as_bytes().starts_with(b".");
        if !hidden && !entry.path().is_dir() {
            files.push(entry.file_name());
        }
    }
    files.sort();
    match files.is_empty() {
        true => Err(Failure::Told(format!(
            "{called}: there is no subscription in it"
        ))),
        false => Ok(files),
    }
}

/// Adds the subscription of a file.
fn subscribed(
    store: &mut Store<Vec<u8>>,
    file: std::path::PathBuf,
    edition: Edition,
) -> Result<usize, Failure> {
    let called = line(&file.to_string_lossy());
    let subscription = Named::File(file.into_os_string()).translate(edition)?;
    let added = store.add(&subscription);
    added.map_err(|refusal| Failure::Told(format!("{called}: {}", refused(refusal))))
}

/// A line for each notice: to whom it is delivered, and for whom it is bottom.
pub fn delivered(
    args: &Args,
    out: &mut Out,
    store: &Store<Vec<u8>>,
    name: impl Fn(usize) -> String,
) -> Answer {
    let mut totals = Totals::default();
    let read = reading::each(args, out, |out, label, record| {
        match matched(store, record) {
            Ok(verdicts) => {
                totals.count(&verdicts);
                if !args.quiet {
                    out.line(format_args!("{label}: {}", receivers(&verdicts, &name)))?;
                }
            }
            Err(said) => {
                totals.refused += 1;
                out.tell(&format!("{}: {said}", label.of_refused()))?;
            }
        }
        Ok(())
    })?;
    if !args.quiet && totals.all() > 1 {
        out.tell(&totals.words())?;
    }
    Ok(totals.status().max(read))
}

fn matched(store: &Store<Vec<u8>>, record: Record) -> Result<Verdicts, String> {
    let bytes = record?;
    store
        .run(bytes)
        .map_err(|refusal| fault::refused(bytes, refusal))
}

/// `delivered to dispatch, yard; bottom for office`.
fn receivers(verdicts: &Verdicts, name: &impl Fn(usize) -> String) -> String {
    let of = |wanted: Option<Verdict>| {
        let these = verdicts.iter().filter(|(_, v)| v.ok() == wanted);
        these.map(|(id, _)| name(id)).collect::<Vec<_>>().join(", ")
    };
    let mut said = match of(Some(Verdict::True)) {
        names if names.is_empty() => "delivered to nobody".to_string(),
        names => format!("delivered to {names}"),
    };
    for (wanted, words) in [
        (Some(Verdict::Bottom), "bottom for"),
        (None, "refused 12 for"),
    ] {
        let names = of(wanted);
        if !names.is_empty() {
            said += &format!("; {words} {names}");
        }
    }
    said
}

/// The notices counted.
#[derive(Default)]
struct Totals {
    delivered: u64,
    nobody: u64,
    refused: u64,
    /// Whether a table was refused.
    tables: bool,
}

impl Totals {
    fn count(&mut self, verdicts: &Verdicts) {
        match verdicts.delivered().next() {
            Some(_) => self.delivered += 1,
            None => self.nobody += 1,
        }
        self.tables |= verdicts.iter().any(|(_, verdict)| verdict.is_err());
    }

    fn all(&self) -> u64 {
        self.delivered + self.nobody + self.refused
    }

    /// `3 notices: 2 delivered, 1 to nobody`.
    fn words(&self) -> String {
        let parts: Vec<String> = [
            (self.delivered, "delivered"),
            (self.nobody, "to nobody"),
            (self.refused, "refused"),
        ]
        .into_iter()
        .filter(|(n, _)| *n > 0)
        .map(|(n, word)| format!("{} {word}", thousands(n)))
        .collect();
        format!(
            "{}: {}",
            count(self.all(), "notice", "notices"),
            parts.join(", ")
        )
    }

    /// Yes if every notice was delivered to somebody.
    fn status(&self) -> Status {
        match (self.refused > 0 || self.tables, self.nobody) {
            (true, _) => Status::Refused,
            (false, 0) => Status::Yes,
            (false, _) => Status::No,
        }
    }
}
