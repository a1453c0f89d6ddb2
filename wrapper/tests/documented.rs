//! Every public item has a doc comment with an example, which cargo runs.

use std::fs::{read_dir, read_to_string};
use std::path::{Path, PathBuf};

/// The sources whose public items are the crate's. `raw/library.rs` and `spell.rs` are for itself.
fn sources(folder: &Path, found: &mut Vec<PathBuf>) {
    for entry in read_dir(folder).expect("the sources").flatten() {
        let path = entry.path();
        let inner = ["tests.rs", "library.rs", "spell.rs"]
            .iter()
            .any(|name| path.ends_with(name));
        match path.is_dir() {
            true => sources(&path, found),
            false if !inner => found.push(path),
            false => (),
        }
    }
}

/// Whether a line declares something public; a field and what is brought in from elsewhere are part of others.
fn declares(line: &str) -> bool {
    let item = line.trim_start().strip_prefix("pub ").unwrap_or_default();
    let words = ["fn ", "struct ", "enum ", "const ", "trait ", "type "];
    words.iter().any(|word| item.starts_with(word))
}

#[test]
fn every_public_item_has_an_example() {
    let mut found = Vec::new();
    sources(
        &Path::new(env!("CARGO_MANIFEST_DIR")).join("src"),
        &mut found,
    );
    let mut items = 0;
    for path in found {
        let text = read_to_string(&path).expect("a source");
        let lines: Vec<&str> = text.lines().collect();
        for at in (0..lines.len()).filter(|at| declares(lines[*at])) {
            items += 1;
            let above = lines[..at].iter().rev().map(|line| line.trim_start());
            let mut comment =
                above.take_while(|line| line.starts_with("///") || line.starts_with("#["));
            let example = comment.any(|line| line.starts_with("/// ```"));
            assert!(
                example,
                "{}:{}: {}",
                path.display(),
                at + 1,
                lines[at].trim()
            );
        }
    }
    assert!(items > 150, "{items} items");
}
