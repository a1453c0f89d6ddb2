//! `vectors FILE..`: runs the second implementation on the cases of each file. See `reference::vectors`.

use std::path::Path;
use std::process::ExitCode;

fn main() -> ExitCode {
    let paths: Vec<String> = std::env::args().skip(1).collect();
    let results: Vec<bool> = paths.iter().map(|path| agrees(path)).collect();
    match results.iter().all(|agrees| *agrees) {
        true if !paths.is_empty() => ExitCode::SUCCESS,
        _ => ExitCode::FAILURE,
    }
}

fn agrees(path: &str) -> bool {
    let file = Path::new(path)
        .file_name()
        .unwrap_or_default()
        .to_string_lossy();
    let lines = std::fs::read_to_string(path).map_err(|error| error.to_string());
    match lines.and_then(|lines| reference::vectors::agree(&file, &lines)) {
        Ok(count) => println!("{path}: {count} cases agree"),
        Err(difference) => {
            println!("{path}: {difference}");
            return false;
        }
    }
    true
}
