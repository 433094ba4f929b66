// Compiles the C++ side with the machine's own g++, and names the Debian libraries.
use std::process::Command;

fn run(program: &str, arguments: &[&str]) {
    let done = Command::new(program).args(arguments).status();
    assert!(done.is_ok_and(|status| status.success()), "{program} failed");
}

fn main() {
    let out = std::env::var("OUT_DIR").unwrap();
    let (object, archive) = (format!("{out}/roaring.o"), format!("{out}/libpeer_roaring.a"));
    run("g++", &["-O3", "-c", "src/roaring.cc", "-o", &object]);
    run("ar", &["crs", &archive, &object]);
    println!("cargo:rerun-if-changed=src/roaring.cc");
    println!("cargo:rustc-link-search=native={out}");
    for library in ["static=peer_roaring", "roaring", "stdc++", "Judy"] {
        println!("cargo:rustc-link-lib={library}");
    }
}
