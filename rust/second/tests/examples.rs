//! The examples' programs as texts, against their tables.
use std::path::{Path, PathBuf};

/// The folders of examples that have a program, in and under this one.
fn folders(under: &Path) -> Vec<PathBuf> {
    let mut found = vec![];
    for entry in std::fs::read_dir(under).expect("a folder") {
        let path = entry.expect("an entry").path();
        if path.join("program.pf").is_file() {
            found.push(path);
        } else if path.is_dir() {
            found.extend(folders(&path));
        }
    }
    found
}

#[test]
fn every_table_is_that_of_its_text() {
    let found = folders(&Path::new(env!("CARGO_MANIFEST_DIR")).join("../../examples"));
    assert_eq!(found.len(), 12);
    for folder in found {
        let text = std::fs::read(folder.join("program.proto")).unwrap_or_else(|_| panic!("{folder:?} has no text"));
        let expected = std::fs::read(folder.join("program.pf")).expect("it is there");
        let mut space = [0; 4_096];
        assert_eq!(second::read_text(&text, &mut space), (0, expected.len()), "{folder:?}");
        assert_eq!(space[..expected.len()], expected, "{folder:?}");
    }
}
