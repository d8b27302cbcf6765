//! Finds `libcuddystove.a`: in the folder CUDDYSTOVE_LIB, else where `tools/build library` puts it. A relative
//! folder is one of the repository, as cargo runs this script in the package's own, and not where it was started.
//!
//! `cargo check` and `cargo doc` don't link, and go on without a library that nobody named; `cargo build` then fails.
use std::env;
use std::path::{Path, PathBuf};

fn main() {
    println!("cargo::rerun-if-env-changed=CUDDYSTOVE_LIB");
    let named = env::var_os("CUDDYSTOVE_LIB").filter(|folder| !folder.is_empty());
    let folder = repository().join(named.as_deref().unwrap_or("target/staticlib".as_ref()));
    let library = folder.join("libcuddystove.a");
    // Where it is missing, cargo runs this script anew each time.
    println!("cargo::rerun-if-changed={}", library.display());
    if !library.is_file() {
        let key = if named.is_some() { "error" } else { "warning" };
        let looked = folder.display();
        println!(
            "cargo::{key}=libcuddystove.a is not in {looked}: make it with `tools/build library`, which puts \
             it into target/staticlib, or set CUDDYSTOVE_LIB to its folder (a relative one is one of the repository)"
        );
    }
    println!("cargo::rustc-link-search=native={}", folder.display());
    println!("cargo::rustc-link-lib=static=cuddystove");
}

/// Two folders above the package.
fn repository() -> PathBuf {
    let package = env::var_os("CARGO_MANIFEST_DIR").expect("cargo sets it");
    let above = Path::new(&package).ancestors().nth(2);
    above.map_or_else(|| Path::new("/").into(), PathBuf::from)
}
