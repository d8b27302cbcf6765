//! Copies `../cuddystove/src/plain.rs` with `before_` in place of `cuddystove_`, and finds `libbefore.a`, the older library with
//! its functions named so, in the folder CUDDYSTOVE_BEFORE; `../bench/run --before` makes it. A library from before 0.4.0 does
//! not read texts: the call is then left out of the copy, and `reads_texts` is not set.
use std::path::Path;
use std::{env, fs};

const PLAIN: &str = "../cuddystove/src/plain.rs";
/// What stands before the calls that older libraries may not have.
const SINCE: &str = "// ---- Since 0.4.0";

fn main() {
    println!("cargo::rerun-if-env-changed=CUDDYSTOVE_BEFORE");
    let folder = env::var("CUDDYSTOVE_BEFORE").expect("CUDDYSTOVE_BEFORE is the folder of libbefore.a");
    let library = Path::new(&folder).join("libbefore.a");
    assert!(library.exists(), "{} is not there", library.display());
    println!("cargo::rerun-if-changed={}", library.display());
    println!("cargo::rustc-link-search=native={folder}");
    println!("cargo::rustc-link-lib=static=before");

    println!("cargo::rerun-if-changed={PLAIN}");
    println!("cargo::rustc-check-cfg=cfg(reads_texts)");
    let plain = fs::read_to_string(PLAIN).expect("the wrapper is there").replace("cuddystove_", "before_");
    let (older, _) = plain.split_once(SINCE).expect("the wrapper says what older libraries have");
    let reads_texts = has(&fs::read(&library).expect("it can be read"), b"before_read_text");
    if reads_texts {
        println!("cargo::rustc-cfg=reads_texts");
    }
    let out = env::var("OUT_DIR").expect("cargo sets it");
    let copy = if reads_texts { &plain[..] } else { older };
    fs::write(Path::new(&out).join("plain.rs"), copy).expect("cargo made the folder");
}

/// Whether a library has a function: its name stands among the archive's symbols.
fn has(library: &[u8], name: &[u8]) -> bool {
    library.windows(name.len() + 2).any(|bytes| bytes[0] == 0 && bytes[1..].starts_with(name) && bytes.ends_with(b"\0"))
}
