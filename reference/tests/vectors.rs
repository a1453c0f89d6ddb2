//! The second implementation on the vectors of tests/vectors, whose answers are from elsewhere.

use std::fs::read_to_string;

#[test]
fn the_vectors_agree() {
    let folder = concat!(env!("CARGO_MANIFEST_DIR"), "/../tests/vectors");
    let files = [
        ("translate.txt", 1500),
        ("run.txt", 1493),
        ("read.txt", 700),
        ("write.txt", 700),
        ("program.txt", 149),
        ("01-translate.txt", 500),
        ("01-run.txt", 594),
        ("01-check.txt", 300),
        ("01-patterns.txt", 900),
        ("02-run.txt", 596),
        ("03-quorum.txt", 249),
        ("03-states.txt", 250),
        ("05-read.txt", 900),
        ("05-write.txt", 400),
        ("06-run.txt", 1200),
        ("07-run.txt", 700),
        ("07-quorum.txt", 120),
        ("07-program.txt", 120),
        ("08-many.txt", 350),
        ("09-translate.txt", 500),
        ("09-run.txt", 600),
        ("09-check.txt", 299),
        ("10-more.txt", 300),
        ("11-find.txt", 500),
        ("12-store.txt", 250),
        ("13-translate.txt", 500),
        ("13-run.txt", 600),
        ("13-check.txt", 300),
        ("13-patterns.txt", 1200),
        ("14-mend.txt", 450),
    ];
    for (file, cases) in files {
        let lines = read_to_string(format!("{folder}/{file}")).expect(file);
        assert_eq!(reference::vectors::agree(file, &lines), Ok(cases), "{file}");
    }
}
