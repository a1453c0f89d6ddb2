//! A build without the static library says so in one line.

use std::path::Path;
use std::process::Command;

#[test]
fn a_build_without_the_library_says_so_in_one_line() {
    let scratch = Path::new(env!("CARGO_TARGET_TMPDIR")).join("unbuilt");
    let ran = Command::new(env!("CARGO"))
        .args(["check", "--offline", "--locked", "--color", "never"])
        .current_dir(env!("CARGO_MANIFEST_DIR"))
        .env("CARGO_TARGET_DIR", &scratch)
        .env("VIRENTOLEX_LIB", scratch.join("no-such-folder"))
        .env("RUST_BACKTRACE", "1")
        .output()
        .expect("cargo");
    assert!(!ran.status.success());
    let told = String::from_utf8_lossy(&ran.stderr);
    let errors: Vec<&str> = told.lines().filter(|l| l.starts_with("error")).collect();
    let [missing, logged] = errors[..] else {
        panic!("{told}");
    };
    assert!(
        missing.contains("no-such-folder/librouter.a is missing: run `tools/staticlib router`")
    );
    assert_eq!(logged, "error: build script logged errors");
    assert!(
        !told.contains("panicked") && !told.contains("backtrace"),
        "{told}"
    );
}
