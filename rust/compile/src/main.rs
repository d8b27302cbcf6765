//! `compile TEXT [TABLE]`, `compile --nodes TEXT`: see `../../../compile`.
#![deny(warnings)]
#![forbid(unsafe_code)]

use compile::{compile, nodes, Reader};
use std::fs::{File, Metadata, OpenOptions, Permissions};
use std::io::{ErrorKind, Write};
use std::os::unix::fs::MetadataExt;
use std::path::{Path, PathBuf};
use std::process::ExitCode;

/// Who decides: the proved engine. In a build without its library, which `./compile` never makes, the second one.
#[cfg(feature = "proved")]
const READER: &dyn Reader = &compile::Proved;
#[cfg(not(feature = "proved"))]
const READER: &dyn Reader = &compile::Second;

const USAGE: &str = "usage: compile TEXT [TABLE], compile --nodes TEXT   (compile --help says more)";

/// Not done because of the arguments or a file.
struct Failed(String);

/// Where the table goes if that is not said.
fn beside(text: &Path) -> Result<PathBuf, Failed> {
    let why = match text.extension() {
        Some(extension) if extension == "proto" => return Ok(text.with_extension("pf")),
        _ if text.file_name().is_some_and(|name| name == ".proto") => "has no name before .proto",
        _ => "does not end in .proto",
    };
    Err(Failed(format!("compile: {} {why}: name the table too", text.display())))
}

fn read(path: &Path) -> Result<Vec<u8>, Failed> {
    std::fs::read(path).map_err(|error| Failed(format!("compile: {}: {error}", path.display())))
}

/// Whether both paths lead to one file. A device that is read and written is not meant.
fn same_file(one: &Path, two: &Path) -> bool {
    let file = |path| std::fs::metadata(path).ok().filter(Metadata::is_file).map(|data| (data.dev(), data.ino()));
    file(one).is_some_and(|one| file(two) == Some(one))
}

/// Writes a table. Links lead to what is written; a file is written whole or not at all, a device or pipe directly.
fn write(path: &Path, bytes: &[u8]) -> Result<(), Failed> {
    let file = std::fs::canonicalize(path).unwrap_or_else(|_| path.into());
    // What is still a link leads to what is not there yet.
    let done = match std::fs::symlink_metadata(&file) {
        Ok(data) if !data.is_file() => std::fs::write(&file, bytes),
        _ => replace(&file, bytes),
    };
    done.map_err(|error| Failed(format!("compile: {}: {error}", path.display())))
}

/// Writes a file beside the one that is meant, with its rights, and puts it in its place, unless that may not be written.
fn replace(file: &Path, bytes: &[u8]) -> std::io::Result<()> {
    let rights = std::fs::metadata(file).ok().map(|data| data.permissions());
    if rights.as_ref().is_some_and(Permissions::readonly) {
        return Err(ErrorKind::PermissionDenied.into());
    }
    file.file_name().ok_or_else(|| std::io::Error::other("this names no file"))?;
    let path = file.with_file_name(format!(".compile.{}", std::process::id()));
    // A new file: what stands there by this name is not ours, and may be a link.
    let new = OpenOptions::new().write(true).create_new(true).open(&path)?;
    let done = fill(new, bytes, rights).and_then(|()| std::fs::rename(&path, file));
    if done.is_err() {
        let _ = std::fs::remove_file(&path);
    }
    done
}

fn fill(mut file: File, bytes: &[u8], rights: Option<Permissions>) -> std::io::Result<()> {
    file.write_all(bytes)?;
    rights.map_or(Ok(()), |rights| file.set_permissions(rights))
}

fn print(text: &str) -> Result<(), Failed> {
    let mut out = std::io::stdout().lock();
    out.write_all(text.as_bytes())
        .and_then(|()| out.flush())
        .map_err(|error| Failed(format!("compile: cannot print: {error}")))
}

/// Says it on standard error; where nothing can be said the exit status has to do.
fn say(text: &str) {
    let _ = std::io::stderr().write_all(text.as_bytes());
}

/// Whether the text was accepted.
fn run(arguments: &[PathBuf]) -> Result<bool, Failed> {
    let listing = arguments.first().is_some_and(|argument| argument.as_os_str() == "--nodes");
    let paths = &arguments[usize::from(listing)..];
    let (file, table) = match paths {
        _ if paths.iter().any(|path| path.to_string_lossy().starts_with("--")) => return Err(Failed(USAGE.into())),
        [file] if listing => (file, None),
        [file] => (file, Some(beside(file)?)),
        [file, table] if !listing => (file, Some(table.clone())),
        _ => return Err(Failed(USAGE.into())),
    };
    if let Some(table) = table.as_deref().filter(|table| same_file(table, file)) {
        return Err(Failed(format!("compile: {}: TABLE is the text itself", table.display())));
    }
    let text = read(file)?;
    if listing {
        print(&nodes(READER, &text).unwrap_or_default())?;
    }
    match (compile(READER, &file.to_string_lossy(), &text), table) {
        (Ok(bytes), Some(table)) => write(&table, &bytes).map(|()| true),
        (Ok(_), None) => Ok(true),
        (Err(said), _) => {
            say(&said);
            Ok(false)
        }
    }
}

fn main() -> ExitCode {
    let arguments: Vec<PathBuf> = std::env::args_os().skip(1).map(PathBuf::from).collect();
    match run(&arguments) {
        Ok(true) => ExitCode::SUCCESS,
        Ok(false) => ExitCode::from(1),
        Err(Failed(what)) => {
            say(&(what + "\n"));
            ExitCode::from(2)
        }
    }
}
