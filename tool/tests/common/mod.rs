//! Runs the binary, in a folder of its own.
#![allow(dead_code)]
use std::ffi::OsStr;
use std::fs;
use std::io::Write;
use std::path::{Path, PathBuf};
use std::process::{Command, Output, Stdio};

pub const BINARY: &str = env!("CARGO_BIN_EXE_virentolex");

/// The notices of document 01: the int32 field Op of 42, and no field.
pub const OP42: &[u8] = b"\x0f\0\0\0\x01\0\x01\0\x09\0\x01\0\x02Op\x2a\0\0\0";
pub const EMPTY: &[u8] = b"\x04\0\0\0\x01\0\0\0";

/// What a run answers.
#[derive(Debug, PartialEq, Eq)]
pub struct Ran {
    pub status: Option<i32>,
    pub out: String,
    pub err: String,
}

impl Ran {
    fn of(output: Output) -> Ran {
        Ran {
            status: output.status.code(),
            out: String::from_utf8_lossy(&output.stdout).into_owned(),
            err: String::from_utf8_lossy(&output.stderr).into_owned(),
        }
    }

    /// Holds the answer to a status, standard output and standard error.
    #[track_caller]
    pub fn is(&self, status: i32, out: &str, err: &str) {
        let wanted = (Some(status), out, err);
        assert_eq!((self.status, self.out.as_str(), self.err.as_str()), wanted);
    }

    /// Holds the answer to a refusal or wrong use: nothing on standard output, these words on standard error.
    #[track_caller]
    pub fn refuses(&self, words: &str) {
        assert_eq!(
            (self.status, self.out.as_str()),
            (Some(2), ""),
            "{}",
            self.err
        );
        assert!(self.err.contains(words), "{}", self.err);
    }
}

/// A folder that is removed in the end.
pub struct Folder(PathBuf);

impl Folder {
    pub fn new(name: &str) -> Folder {
        let path =
            Path::new(env!("CARGO_TARGET_TMPDIR")).join(format!("{name}-{}", std::process::id()));
        let _ = fs::remove_dir_all(&path);
        fs::create_dir_all(&path).unwrap();
        Folder(path)
    }

    pub fn path(&self) -> &Path {
        &self.0
    }

    pub fn write(&self, file: &str, bytes: impl AsRef<[u8]>) {
        fs::write(self.0.join(file), bytes).unwrap();
    }

    pub fn read(&self, file: &str) -> Vec<u8> {
        fs::read(self.0.join(file)).unwrap()
    }

    /// Runs the binary with words, and bytes on standard input.
    pub fn run<W: AsRef<OsStr>>(&self, words: &[W], input: &[u8]) -> Ran {
        let mut command = Command::new(BINARY);
        command.args(words).current_dir(&self.0);
        command
            .stdin(Stdio::piped())
            .stdout(Stdio::piped())
            .stderr(Stdio::piped());
        let mut child = command.spawn().unwrap();
        let mut stdin = child.stdin.take().unwrap();
        let input = input.to_vec();
        let writer = std::thread::spawn(move || {
            // a run that does not read its input closes it
            let _ = stdin.write_all(&input);
        });
        let output = child.wait_with_output().unwrap();
        writer.join().unwrap();
        Ran::of(output)
    }
}

impl Drop for Folder {
    fn drop(&mut self) {
        let _ = fs::remove_dir_all(&self.0);
    }
}

/// Runs the binary in no folder of its own, with nothing on standard input.
pub fn run(words: &[&str]) -> Ran {
    let output = Command::new(BINARY)
        .args(words)
        .stdin(Stdio::null())
        .output()
        .unwrap();
    Ran::of(output)
}
