//! Says where the proved library stands; `src/c.rs` names it.
use std::env;
use std::path::PathBuf;
use std::process::exit;

fn main() {
    println!("cargo:rerun-if-env-changed=KINCHOYU_LIB_DIR");
    let architecture = env::var("CARGO_CFG_TARGET_ARCH").unwrap_or_default();
    if architecture != "x86_64" {
        eprintln!(
            "kinchoyu: the proved library is for x86_64, and this build is for {architecture}"
        );
        exit(1);
    }
    let repository = || PathBuf::from(env!("CARGO_MANIFEST_DIR")).join("../../target/staticlib");
    let folder = env::var_os("KINCHOYU_LIB_DIR").map_or_else(repository, PathBuf::from);
    let library = folder.join("libkinchoyu.a");
    println!("cargo:rerun-if-changed={}", library.display());
    if !library.exists() {
        eprintln!(
            "kinchoyu: there is no {}: run tools/library in Kinchoyu's repository, or name the \
             folder of libkinchoyu.a in KINCHOYU_LIB_DIR",
            library.display()
        );
        exit(1);
    }
    println!("cargo:rustc-link-search=native={}", folder.display());
}
