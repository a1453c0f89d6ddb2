//! A file that is kept between calls. Each change is written to a new file beside it, which is then renamed: a call
//! that is cut off leaves the old file, and of two calls at once one waits for the other.
use crate::report::{file_error, line, Failure};
use std::ffi::OsString;
use std::fs::{self, File};
use std::io::{self, Read, Write};
use std::path::{Path, PathBuf};
use std::thread::sleep;
use std::time::Duration;

/// How often another call is waited for, and how long each time.
const TRIES: u32 = 100;
const PAUSE: Duration = Duration::from_millis(20);

/// A file of at most so many bytes.
pub struct Kept {
    name: OsString,
    /// The file itself, where its name is a link.
    path: PathBuf,
    most: usize,
}

impl Kept {
    pub fn new(name: OsString, most: usize) -> Result<Kept, Failure> {
        if name == "-" {
            let why = "what is kept between calls is in a file, and `-` names none";
            return Err(Failure::Use(why.into()));
        }
        let path = match fs::read_link(&name) {
            Ok(_) => fs::canonicalize(&name).map_err(|e| file_error(&name, &e))?,
            Err(_) => PathBuf::from(&name),
        };
        Ok(Kept { name, path, most })
    }

    /// The file's name, as one line.
    pub fn called(&self) -> String {
        line(&self.name.to_string_lossy())
    }

    /// What the file holds, none if there is no such file; of one that is too long, one byte more than the most.
    pub fn read(&self) -> Result<Option<Vec<u8>>, Failure> {
        let mut bytes = Vec::new();
        let opened = File::open(&self.path);
        let read = opened.and_then(|file| file.take(self.most as u64 + 1).read_to_end(&mut bytes));
        match read {
            Ok(_) => Ok(Some(bytes)),
            Err(e) if e.kind() == io::ErrorKind::NotFound => Ok(None),
            Err(e) => Err(self.failed(&e)),
        }
    }

    /// Replaces what the file holds by what `act` makes of it. Nobody else changes it in between.
    pub fn change<T>(
        &self,
        act: impl FnOnce(Option<Vec<u8>>) -> Result<(Vec<u8>, T), Failure>,
    ) -> Result<T, Failure> {
        let new = New::beside(self)?;
        let (bytes, answer) = act(self.read()?)?;
        new.replace(&self.path, &bytes)
            .map_err(|e| self.failed(&e))?;
        Ok(answer)
    }

    fn failed(&self, error: &io::Error) -> Failure {
        file_error(&self.name, error)
    }
}

/// The new file, which is removed if it does not replace the old one.
struct New {
    path: PathBuf,
    file: File,
    renamed: bool,
}

impl New {
    /// Makes the file, when no other call has made it.
    fn beside(kept: &Kept) -> Result<New, Failure> {
        let mut path = kept.path.clone().into_os_string();
        path.push(".new");
        let path = PathBuf::from(path);
        for _ in 0..TRIES {
            match File::create_new(&path) {
                Ok(file) => {
                    return Ok(New {
                        path,
                        file,
                        renamed: false,
                    })
                }
                Err(e) if e.kind() == io::ErrorKind::AlreadyExists => sleep(PAUSE),
                Err(e) => return Err(kept.failed(&e)),
            }
        }
        let (new, old) = (line(&path.to_string_lossy()), kept.called());
        Err(Failure::Told(format!(
            "{new} is there: another call changes {old}, or one was cut off; if none runs, remove it"
        )))
    }

    /// Writes the bytes and takes the old file's place, with its permissions.
    fn replace(mut self, old: &Path, bytes: &[u8]) -> io::Result<()> {
        match fs::metadata(old) {
            Ok(found) if !found.is_file() => return Err(io::Error::other("it is no plain file")),
            Ok(found) => self.file.set_permissions(found.permissions())?,
            Err(_) => (),
        }
        self.file.write_all(bytes)?;
        self.file.sync_all()?;
        fs::rename(&self.path, old)?;
        self.renamed = true;
        // the change is made: where the folder cannot be synced, the system does it later
        let folder = old.parent().filter(|p| *p != Path::new(""));
        let _ = File::open(folder.unwrap_or(Path::new("."))).and_then(|f| f.sync_all());
        Ok(())
    }
}

impl Drop for New {
    fn drop(&mut self) {
        // after the rename a file of this name is another call's
        if !self.renamed {
            let _ = fs::remove_file(&self.path);
        }
    }
}
