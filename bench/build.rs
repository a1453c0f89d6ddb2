//! Links the static libraries that `tools/staticlib router` and `tools/staticlib repeat` write, and says by how many bytes the program's code is moved.

use std::path::PathBuf;

fn main() {
    println!("cargo:rerun-if-env-changed=VIRENTOLEX_LIB");
    println!("cargo:rerun-if-env-changed=BENCH_PLACE");
    let place = std::env::var("BENCH_PLACE").unwrap_or("0".to_string());
    let bytes = 16 * place.parse::<usize>().expect("BENCH_PLACE: a number");
    println!("cargo:rustc-env=BENCH_SKIP={bytes}");
    let folder = match std::env::var("VIRENTOLEX_LIB") {
        Ok(folder) => PathBuf::from(folder),
        Err(_) => {
            PathBuf::from(std::env::var("CARGO_MANIFEST_DIR").unwrap()).join("../target/staticlib")
        }
    };
    println!("cargo:rustc-link-search=native={}", folder.display());
    for name in ["router", "repeat"] {
        println!(
            "cargo:rerun-if-changed={}",
            folder.join(format!("lib{name}.a")).display()
        );
        println!("cargo:rustc-link-lib=static={name}");
    }
}
