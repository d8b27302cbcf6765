//! `build.rs`, on a copy of the package in a repository of its own: where it finds the library and what it says.

use std::path::{Path, PathBuf};
use std::process::Command;
use std::{env, fs};

const VERSION: &str = env!("CARGO_PKG_VERSION");
const MISSING: &str = "libcuddystove.a is not in";
const MADE_BY: &str = "make it with `tools/build library`";

/// A repository with this package in rust/cuddystove, and nothing else.
fn repository(name: &str) -> PathBuf {
    let root = Path::new(env!("CARGO_TARGET_TMPDIR")).join(name);
    if root.exists() {
        fs::remove_dir_all(&root).expect("an older one goes");
    }
    let (from, to) = (Path::new(env!("CARGO_MANIFEST_DIR")), root.join("rust/cuddystove"));
    for folder in ["src", "tests"] {
        fs::create_dir_all(to.join(folder)).expect("a folder");
    }
    for file in fs::read_dir(from.join("src")).expect("sources") {
        let file = file.expect("a source").file_name();
        fs::copy(from.join("src").join(&file), to.join("src").join(&file)).expect("a copy");
    }
    for file in ["Cargo.toml", "Cargo.lock", "build.rs", "tests/engine.rs"] {
        fs::copy(from.join(file), to.join(file)).expect("a copy");
    }
    root
}

/// The library that these tests themselves were linked with, copied into a folder of the repository.
fn bring_library(root: &Path, folder: &str) {
    let own = Path::new(env!("CARGO_MANIFEST_DIR")).ancestors().nth(2).expect("the repository");
    let named = env::var_os("CUDDYSTOVE_LIB").filter(|folder| !folder.is_empty());
    let library = own.join(named.unwrap_or("target/staticlib".into())).join("libcuddystove.a");
    fs::create_dir_all(root.join(folder)).expect("a folder");
    fs::copy(library, root.join(folder).join("libcuddystove.a")).expect("a copy of the library");
}

/// Runs cargo for the wrapper in a folder of the repository; if it succeeded, and what it said.
fn cargo(root: &Path, within: &str, library: Option<&str>, words: &[&str]) -> (bool, String) {
    cargo_for("cuddystove", root, within, library, words)
}

/// The same for a package of its folder rust.
fn cargo_for(package: &str, root: &Path, within: &str, library: Option<&str>, words: &[&str]) -> (bool, String) {
    let mut command = Command::new(env!("CARGO"));
    let manifest = root.join("rust").join(package).join("Cargo.toml");
    command.args(words).args(["--offline", "--manifest-path"]).arg(manifest);
    command.current_dir(root.join(within)).env("CARGO_TARGET_DIR", root.join("target")).env_remove("CUDDYSTOVE_LIB");
    if let Some(library) = library {
        command.env("CUDDYSTOVE_LIB", library);
    }
    let output = command.output().expect("cargo runs");
    let said = [output.stdout, output.stderr].concat();
    (output.status.success(), String::from_utf8_lossy(&said).into_owned())
}

/// A relative folder is one of the repository, wherever cargo was started; the tests of the copy link and pass.
#[test]
fn a_relative_folder() {
    let root = repository("relative");
    bring_library(&root, "some where/lib");
    for within in ["", "rust/cuddystove", "some where"] {
        let (succeeded, said) = cargo(&root, within, Some("some where/lib"), &["test", "--test", "engine"]);
        assert!(succeeded && said.contains("test result: ok"), "in {within}: {said}");
        assert!(!said.contains("warning"), "{said}");
    }
}

#[test]
fn an_absolute_folder() {
    let root = repository("absolute");
    bring_library(&root, "lib");
    let folder = root.join("lib").display().to_string();
    let (succeeded, said) = cargo(&root, "", Some(&folder), &["test", "--test", "engine"]);
    assert!(succeeded && said.contains("test result: ok"), "{said}");
}

/// Without CUDDYSTOVE_LIB, or with an empty one, the library is looked for where `tools/build library` puts it.
#[test]
fn no_folder() {
    let root = repository("own");
    bring_library(&root, "target/staticlib");
    for library in [None, Some("")] {
        let (succeeded, said) = cargo(&root, "", library, &["test", "--test", "engine"]);
        assert!(succeeded && said.contains("test result: ok") && !said.contains("warning"), "{said}");
    }
}

/// A folder without the library is refused in one sentence, before anything is built; once it is there, all is well.
#[test]
fn a_wrong_folder() {
    let root = repository("wrong");
    let there = root.join("target/staticlib").display().to_string();
    let absolute = root.join("nowhere").display().to_string();
    for (library, looked) in [("target/staticlib", &there), ("nowhere", &absolute), (&absolute, &absolute)] {
        for word in ["build", "check", "doc"] {
            let (succeeded, said) = cargo(&root, "", Some(library), &[word]);
            assert!(!succeeded, "{word}: {said}");
            let sentence = format!("error: cuddystove@{VERSION}: {MISSING} {looked}: {MADE_BY}");
            assert!(said.contains(&sentence), "{word}: {said}");
            assert!(!said.contains("panicked") && !said.contains("undefined"), "{word}: {said}");
        }
    }
    bring_library(&root, "target/staticlib");
    let (succeeded, said) = cargo(&root, "", Some("target/staticlib"), &["check"]);
    assert!(succeeded && !said.contains(MISSING), "{said}");
}

/// With no library and none named, doc and check pass, with a warning; a build fails behind it.
#[test]
fn no_library() {
    let root = repository("none");
    let looked = root.join("target/staticlib").display().to_string();
    let warning = format!("warning: cuddystove@{VERSION}: {MISSING} {looked}: {MADE_BY}");
    for words in [&["doc", "--no-deps"][..], &["check"], &["check", "--tests"]] {
        let (succeeded, said) = cargo(&root, "", None, words);
        assert!(succeeded && said.contains(&warning), "{words:?}: {said}");
    }
    assert!(root.join("target/doc/cuddystove/messages/fn.take.html").is_file());
    let (succeeded, said) = cargo(&root, "", None, &["build"]);
    assert!(!succeeded && said.contains(&warning), "{said}");
    assert!(said.contains("could not find native static library `cuddystove`"), "{said}");
    bring_library(&root, "target/staticlib");
    let (succeeded, said) = cargo(&root, "", None, &["test", "--test", "engine"]);
    assert!(succeeded && !said.contains("warning"), "{said}");
}

const HOST: &str = "#![no_std]
use cuddystove::{cells, check, events::Event, fresh, messages::take, run, CELLS, LONGEST_MESSAGE};
#[panic_handler]
fn stop(_: &core::panic::PanicInfo) -> ! { loop {} }
#[no_mangle]
pub extern \"C\" fn host(network: &mut [i32; CELLS], message: &mut [u8; LONGEST_MESSAGE]) -> i32 {
    let fire = Event::fire(1).unwrap();
    let program = [1, 0, 5, 0, 0, 0, 0, 7, 3, 0, 1, 0];
    let done = check(&program).and(fresh(network)).and(run(&program, network, fire.as_bytes(), &mut [0; 2]));
    let sent = take(network, 1, 2, message).is_some();
    if done.is_ok() && !sent { network[cells::variable(1, 0).unwrap()] } else { 0 }
}
";

/// A host that has no std and no heap: were one of them linked, its panic handler would be the second.
#[test]
fn a_host_without_std() {
    let root = repository("bare");
    bring_library(&root, "target/staticlib");
    fs::create_dir_all(root.join("rust/host/src")).expect("a folder");
    fs::write(root.join("rust/host/src/lib.rs"), HOST).expect("a source");
    let package =
        "[package]\nname = \"host\"\nversion = \"0.1.0\"\nedition = \"2021\"\n[lib]\ncrate-type = [\"staticlib\"]\n\
                   [dependencies]\ncuddystove = { path = \"../cuddystove\" }\n[profile.release]\npanic = \"abort\"\n";
    fs::write(root.join("rust/host/Cargo.toml"), package).expect("a package");
    let (succeeded, said) = cargo_for("host", &root, "", None, &["build", "--release"]);
    assert!(succeeded, "{said}");
    assert!(root.join("target/release/libhost.a").is_file());
}
