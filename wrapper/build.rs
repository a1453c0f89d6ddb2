//! Links librouter.a, which `tools/staticlib router` writes. VIRENTOLEX_LIB names its folder; without it
//! that is target/staticlib of the repository.
use std::env;
use std::path::{Path, PathBuf};

fn main() {
    println!("cargo::rerun-if-env-changed=VIRENTOLEX_LIB");
    let folder = match env::var_os("VIRENTOLEX_LIB") {
        Some(folder) => PathBuf::from(folder),
        None => {
            let wrapper = env::var_os("CARGO_MANIFEST_DIR").expect("cargo sets it");
            let repository = Path::new(&wrapper).parent().expect("wrapper/ is in it");
            repository.join("target/staticlib")
        }
    };
    let archive = folder.join("librouter.a");
    println!("cargo::rerun-if-changed={}", archive.display());
    if !archive.is_file() {
        println!(
            "cargo::error={} is missing: run `tools/staticlib router` in the repository, or name the library's folder by VIRENTOLEX_LIB",
            archive.display()
        );
        return;
    }
    println!("cargo::rustc-link-search=native={}", folder.display());
    println!("cargo::rustc-link-lib=static=router");
}
