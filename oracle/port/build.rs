//! Links the tests' two libraries, of leaves and of what stands below the set's entries; the library that users link comes with the crate in rust/. oracle/differ and
//! oracle/bench-leaves make both first; BROTHOWL_LIB names another folder that has them.
use std::path::PathBuf;
use std::process::Command;

fn run(program: &str, arguments: &[&str]) {
    let done = Command::new(program).args(arguments).status();
    assert!(done.is_ok_and(|status| status.success()), "{program} failed");
}

fn main() {
    println!("cargo:rerun-if-env-changed=BROTHOWL_LIB");
    let here = PathBuf::from(std::env::var("CARGO_MANIFEST_DIR").expect("cargo sets it"));
    // The stage is target/oracle/stage.
    let folder = std::env::var_os("BROTHOWL_LIB")
        .map(PathBuf::from)
        .unwrap_or_else(|| here.join("../../../staticlib"));
    for name in ["leaves", "leaves_sets"] {
        let archive = folder.join(format!("lib{name}.a"));
        if !archive.is_file() {
            panic!("{} is not there: run `tools/staticlib {name}` in the top folder first", archive.display());
        }
        println!("cargo:rerun-if-changed={}", archive.display());
        println!("cargo:rustc-link-lib=static={name}");
    }
    println!("cargo:rustc-link-search=native={}", folder.display());

    // The plain loop in C that rank is held against.
    let out = std::env::var("OUT_DIR").expect("cargo sets it");
    let (object, archive) = (format!("{out}/plain.o"), format!("{out}/libplain.a"));
    let cc = std::env::var("BROTHOWL_CC").unwrap_or_else(|_| "cc".into());
    run(&cc, &["-O3", "-c", "src/plain.c", "-o", &object]);
    run("ar", &["crs", &archive, &object]);
    println!("cargo:rerun-if-changed=src/plain.c");
    println!("cargo:rerun-if-env-changed=BROTHOWL_CC");
    println!("cargo:rustc-link-search=native={out}");
    println!("cargo:rustc-link-lib=static=plain");
}
