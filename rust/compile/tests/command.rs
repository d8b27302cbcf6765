//! The command: files, arguments, exit status.
use std::fs::OpenOptions;
use std::io::Read;
use std::os::unix::fs::{symlink, FileTypeExt};
use std::path::{Path, PathBuf};
use std::process::{Command, Output};

/// A folder of its own for a test, with a text in it.
fn folder(name: &str, text: &str) -> PathBuf {
    let folder = std::env::temp_dir().join(format!("cuddystove-compile-{}-{name}", std::process::id()));
    std::fs::create_dir_all(&folder).expect("a folder");
    std::fs::write(folder.join("program.proto"), text).expect("a text");
    folder
}

fn compile(within: &Path, arguments: &[&str]) -> Output {
    Command::new(env!("CARGO_BIN_EXE_compile")).current_dir(within).args(arguments).output().expect("it runs")
}

fn said(output: &Output) -> String {
    String::from_utf8_lossy(&output.stderr).into_owned()
}

#[test]
fn tables_are_written() {
    let folder = folder("good", "(rep x 0\n  (+ x 1))\n");
    let done = compile(&folder, &["program.proto"]);
    assert_eq!((done.status.code(), said(&done), done.stdout), (Some(0), "".into(), vec![]));
    let table = std::fs::read(folder.join("program.pf")).expect("it was written");
    assert_eq!(table.len(), 39);
    let done = compile(&folder, &["program.proto", "other"]);
    assert_eq!((done.status.code(), std::fs::read(folder.join("other")).ok()), (Some(0), Some(table)));
    let listed = compile(&folder, &["--nodes", "program.proto"]);
    assert_eq!(listed.status.code(), Some(0));
    let lines = String::from_utf8_lossy(&listed.stdout).into_owned();
    assert_eq!(lines.lines().nth(3), Some("3 2:3 operator (+ x 1)"), "{lines}");
    std::fs::remove_dir_all(folder).expect("it was there");
}

#[test]
fn refusals_write_nothing() {
    let folder = folder("refused", "(rep x 0\n  (+ x y))\n");
    std::fs::write(folder.join("program.pf"), "as before").expect("a table");
    let refused = compile(&folder, &["program.proto"]);
    assert_eq!(refused.status.code(), Some(1));
    assert!(said(&refused).starts_with("program.proto:2:8: refused 20 0 (bad name): `y` "), "{}", said(&refused));
    assert_eq!(std::fs::read(folder.join("program.pf")).ok().as_deref(), Some(&b"as before"[..]));
    let files = std::fs::read_dir(&folder).expect("a folder").count();
    assert_eq!(files, 2);
    // A table that is refused still has nodes to be listed.
    std::fs::write(folder.join("program.proto"), "(nbr 1)").expect("a text");
    let listed = compile(&folder, &["--nodes", "program.proto"]);
    assert_eq!(listed.status.code(), Some(1));
    assert_eq!(String::from_utf8_lossy(&listed.stdout), "0 1:6 constant 1\n1 1:1 nbr (nbr 1)\n");
    assert!(said(&listed).starts_with("program.proto:1:1: refused 7 1 (wrong sort): "), "{}", said(&listed));
    std::fs::remove_dir_all(folder).expect("it was there");
}

/// The bytes of a file, if it is one.
fn bytes(folder: &Path, name: &str) -> Option<Vec<u8>> {
    std::fs::read(folder.join(name)).ok()
}

#[test]
fn links_stay() {
    let folder = folder("links", "(rep x 0 (+ x 1))");
    std::fs::create_dir_all(folder.join("within")).expect("a folder");
    std::fs::write(folder.join("within/target"), "as before").expect("a table");
    for (link, target) in [("link", "within/target"), ("second", "link"), ("dangling", "within/new")] {
        symlink(target, folder.join(link)).expect("a link");
    }
    for (link, target) in [("second", "within/target"), ("dangling", "within/new")] {
        let done = compile(&folder, &["program.proto", link]);
        assert_eq!((done.status.code(), said(&done)), (Some(0), "".into()), "{link}");
        assert!(folder.join(link).is_symlink(), "{link}");
        assert_eq!(bytes(&folder, target).map(|bytes| bytes.len()), Some(39), "{link}");
    }
    assert!(folder.join("link").is_symlink());
    std::fs::remove_dir_all(folder).expect("it was there");
}

#[test]
fn pipes_and_devices_stay() {
    let folder = folder("devices", "(rep x 0 (+ x 1))");
    let made = Command::new("mkfifo").arg(folder.join("pipe")).status().expect("it runs");
    assert!(made.success());
    let mut pipe = OpenOptions::new().read(true).write(true).open(folder.join("pipe")).expect("a pipe");
    let done = compile(&folder, &["program.proto", "pipe"]);
    assert_eq!((done.status.code(), said(&done)), (Some(0), "".into()));
    let kind = std::fs::metadata(folder.join("pipe")).expect("it is there").file_type();
    // A file in place of a device would be lasting harm, so the pipe comes first.
    assert!(kind.is_fifo());
    pipe.read_exact(&mut [0; 39]).expect("the table");
    for (device, status) in [("/dev/null", 0), ("/dev/full", 2)] {
        let done = compile(&folder, &["program.proto", device]);
        assert_eq!(done.status.code(), Some(status), "{device}: {}", said(&done));
        assert!(std::fs::metadata(device).expect("a device").file_type().is_char_device(), "{device}");
    }
    std::fs::remove_dir_all(folder).expect("it was there");
}

#[test]
fn texts_are_never_overwritten() {
    let folder = folder("itself", "1");
    symlink("program.proto", folder.join("link")).expect("a link");
    symlink("program.proto", folder.join("program.pf")).expect("a link");
    for (arguments, table) in [
        (&["program.proto", "program.proto"][..], "program.proto"),
        (&["program.proto", "./program.proto"], "./program.proto"),
        (&["program.proto", "link"], "link"),
        (&["link", "program.proto"], "program.proto"),
        (&["program.proto"], "program.pf"),
    ] {
        let failed = compile(&folder, arguments);
        let expected = format!("compile: {table}: TABLE is the text itself\n");
        assert_eq!((failed.status.code(), said(&failed)), (Some(2), expected), "{arguments:?}");
        assert_eq!(bytes(&folder, "program.proto").as_deref(), Some(&b"1"[..]), "{arguments:?}");
    }
    std::fs::remove_dir_all(folder).expect("it was there");
}

#[test]
fn nothing_can_be_said() {
    let folder = folder("full", "(+ 1");
    for (arguments, status) in [(&["program.proto"][..], 1), (&["none.proto"], 2), (&[], 2)] {
        let full = OpenOptions::new().write(true).open("/dev/full").expect("the device");
        let mut command = Command::new(env!("CARGO_BIN_EXE_compile"));
        let ended = command.current_dir(&folder).args(arguments).stderr(full).status().expect("it runs");
        assert_eq!(ended.code(), Some(status), "{arguments:?}");
    }
    std::fs::remove_dir_all(folder).expect("it was there");
}

#[test]
fn files_and_arguments() {
    let folder = folder("arguments", "1");
    std::fs::write(folder.join("program.txt"), "1").expect("a text");
    std::fs::write(folder.join(".proto"), "1").expect("a text");
    std::fs::create_dir_all(folder.join("taken")).expect("a folder");
    for (arguments, words) in [
        (&[][..], "usage: "),
        (&["--nodes"], "usage: "),
        (&["a", "b", "c"], "usage: "),
        (&["--node", "program.proto"], "usage: "),
        (&["--nodes", "program.proto", "table"], "usage: "),
        (&["none.proto"], "compile: none.proto: "),
        (&["program.txt"], "compile: program.txt does not end in .proto: name the table too"),
        (&[".proto"], "compile: .proto has no name before .proto: name the table too"),
        (&["./.proto"], "compile: ./.proto has no name before .proto: name the table too"),
        (&["program.proto", "none/.."], "compile: none/..: "),
        (&["program.proto", "/"], "compile: /: "),
        (&["program.proto", "taken"], "compile: taken: "),
        (&["program.proto", "none/table"], "compile: none/table: "),
        (&["taken", "table"], "compile: taken: "),
    ] {
        let failed = compile(&folder, arguments);
        assert_eq!(failed.status.code(), Some(2), "{arguments:?}");
        assert!(said(&failed).contains(words), "{arguments:?}: {}", said(&failed));
    }
    assert_eq!(std::fs::read_dir(&folder).expect("a folder").count(), 4);
    std::fs::remove_dir_all(folder).expect("it was there");
}
