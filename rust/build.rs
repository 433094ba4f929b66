//! Links the proved library. `rust/test` makes it first; BROTHOWL_LIB names another folder that has it.
use std::path::PathBuf;

fn main() {
    println!("cargo:rerun-if-env-changed=BROTHOWL_LIB");
    let here = PathBuf::from(std::env::var("CARGO_MANIFEST_DIR").expect("cargo sets it"));
    let folder = std::env::var_os("BROTHOWL_LIB")
        .map(PathBuf::from)
        .unwrap_or_else(|| here.join("../target/staticlib"));
    let archive = folder.join("libbrothowl.a");
    if !archive.is_file() {
        panic!(
            "{} is not there: run `tools/staticlib brothowl` in the top folder first (rust/test does)",
            archive.display()
        );
    }
    println!("cargo:rerun-if-changed={}", archive.display());
    println!("cargo:rustc-link-search=native={}", folder.display());
    println!("cargo:rustc-link-lib=static=brothowl");
}
