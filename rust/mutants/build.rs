//! Writes a copy of `../second/src` in which each edited part stands in all its forms:
//! `if bug(n) { wrong } else { right }`. An edit whose text does not stand exactly once stops the build.
use std::collections::BTreeMap;
use std::fmt::Write;
use std::path::{Path, PathBuf};
use std::{env, fs};

include!("edits.rs");
include!("text_edits.rs");

/// All edits, those of the engine before those of the reader of texts.
fn edits() -> impl Iterator<Item = &'static Edit> {
    EDITS.iter().chain(TEXT_EDITS)
}

fn main() {
    let sources = Path::new(&env::var("CARGO_MANIFEST_DIR").unwrap()).join("../second/src");
    let out = PathBuf::from(env::var("OUT_DIR").unwrap());
    for input in [sources.to_str().unwrap(), "edits.rs", "text_edits.rs", "build.rs"] {
        println!("cargo:rerun-if-changed={input}");
    }
    let mut copied = 0;
    for entry in fs::read_dir(&sources).unwrap() {
        let path = entry.unwrap().path();
        let name = path.file_name().unwrap().to_str().unwrap().to_string();
        let mut text = fs::read_to_string(&path).unwrap();
        // Tests and the crate's own attributes stay behind.
        text.truncate(text.find("#[cfg(test)]").unwrap_or(text.len()));
        let text = text.replace("#![deny(warnings)]\n", "").replace("#![forbid(unsafe_code)]\n", "");
        let (text, count) = with_switches(&name, &text);
        copied += count;
        fs::write(out.join(name), text).unwrap();
    }
    assert_eq!(copied, edits().count(), "an edit names a file that is not there");
    let mut mutants = format!("#[path = {:?}]\nmod copy;\n", out.join("lib.rs").to_str().unwrap());
    let names: Vec<&str> = edits().map(|edit| edit.0).collect();
    writeln!(mutants, "const NAMES: &[&str] = &{names:?};").unwrap();
    writeln!(mutants, "const OF_THE_ENGINE: usize = {};", EDITS.len()).unwrap();
    fs::write(out.join("mutants.rs"), mutants).unwrap();
}

/// A file with every edit of it as a switch, and how many there are.
fn with_switches(file: &str, text: &str) -> (String, usize) {
    // From the place of a part to its end and its switches.
    let mut parts: BTreeMap<usize, (usize, String)> = BTreeMap::new();
    let mut count = 0;
    for (number, (name, of_file, at, wrong)) in edits().enumerate() {
        if *of_file != file {
            continue;
        }
        count += 1;
        let (before, rest) = at.split_once('«').expect("« marks the part");
        let (part, after) = rest.split_once('»').expect("» marks its end");
        let context = [before, part, after].concat();
        let found = text.matches(&context).count();
        assert!(found == 1, "mutant '{name}': its text stands {found} times in {file}");
        let start = text.find(&context).unwrap() + before.len();
        let (end, switches) = parts.entry(start).or_insert((start + part.len(), String::new()));
        assert!(*end == start + part.len(), "mutant '{name}': its part overlaps another");
        write!(switches, "if crate::bug({number}) {{ {wrong} }} else ").unwrap();
    }
    let mut edited = String::new();
    let mut done = 0;
    for (start, (end, switches)) in parts {
        assert!(start >= done, "parts overlap in {file} at byte {start}");
        edited.push_str(&text[done..start]);
        let part = &text[start..end];
        let whole = format!("{switches}{{ {part} }}");
        edited.push_str(&if part.contains(';') { whole } else { format!("({whole})") });
        done = end;
    }
    edited.push_str(&text[done..]);
    (edited, count)
}
