//! Links libnfa.a of the folder NFA_LIB_DIR, or what pkg-config says of nfa.
use std::process::Command;

fn main() {
    println!("cargo:rerun-if-env-changed=NFA_LIB_DIR");
    let folder = std::env::var("NFA_LIB_DIR").ok().or_else(|| {
        let said = Command::new("pkg-config").args(["--variable=libdir", "nfa"]).output().ok()?;
        let folder = String::from_utf8(said.stdout).ok()?;
        said.status.success().then(|| folder.trim().to_owned())
    });
    let folder = folder.expect("NFA_LIB_DIR is not set, and pkg-config does not know nfa");
    println!("cargo:rerun-if-changed={folder}/libnfa.a");
    println!("cargo:rustc-link-search=native={folder}");
    println!("cargo:rustc-link-lib=static=nfa");
}
