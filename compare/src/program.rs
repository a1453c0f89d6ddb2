//! Runs the program `verdict` on a standard input.

use std::io::{ErrorKind, Read, Write};
use std::process::{Child, Command, Stdio};

/// Starts the program at `path` once, on an empty input. Where that fails: why, and what to do.
pub fn started(path: &str) -> Result<(), String> {
    let mut command = Command::new(path);
    command.stdin(Stdio::null()).stdout(Stdio::null());
    match command.status() {
        Ok(_) => Ok(()),
        Err(error) if error.kind() == ErrorKind::NotFound => Err(format!(
            "{path} is not built: run `tools/program verdict`, or name the program by --program"
        )),
        Err(error) => Err(format!("{path} cannot be run: {error}")),
    }
}

/// What the program at `path` prints for the input, written to it in pieces of at most `piece` bytes.
pub fn output(path: &str, input: &[u8], piece: usize) -> Result<Vec<u8>, String> {
    let mut child = Command::new(path)
        .stdin(Stdio::piped())
        .stdout(Stdio::piped())
        .spawn()
        .map_err(|error| format!("{path}: {error}"))?;
    let printed = exchange(&mut child, input, piece);
    let status = child.wait().map_err(|error| format!("{path}: {error}"))?;
    match (printed, status.code()) {
        (Ok(printed), Some(0)) => Ok(printed),
        (Ok(_), _) => Err(format!("{path}: ended with {status}")),
        (Err(error), _) => Err(format!("{path}: {error}")),
    }
}

/// Writes the input and reads the output at the same time, so that neither waits for the other.
fn exchange(child: &mut Child, input: &[u8], piece: usize) -> std::io::Result<Vec<u8>> {
    let mut stdin = child.stdin.take().expect("it is piped");
    let mut stdout = child.stdout.take().expect("it is piped");
    std::thread::scope(|scope| {
        // After `E` the program reads no more, so a refused piece is no fault.
        scope.spawn(move || {
            input
                .chunks(piece)
                .try_for_each(|part| stdin.write_all(part))
        });
        let mut printed = Vec::new();
        stdout.read_to_end(&mut printed).map(|_| printed)
    })
}
