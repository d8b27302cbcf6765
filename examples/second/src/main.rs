//! The replay by the second engine: prints what 01 says that the replay prints of a folder's program.pf and events.pf.
#![forbid(unsafe_code)]
#![deny(warnings)]

use std::path::Path;

/// The most bytes of a replay file.
const LIMIT: usize = 4096;

fn read(folder: &Path, name: &str) -> Option<Vec<u8>> {
    std::fs::read(folder.join(name)).ok().filter(|bytes| bytes.len() <= LIMIT)
}

fn replayed(program: &[u8], list: &[u8]) -> String {
    let mut network = vec![0; 8720];
    assert_eq!(second::fresh(&mut network), (0, 0));
    // More space than answers: a mark that no answer has shows where they end.
    let mut space = vec![i32::MIN; 2048];
    match second::run(program, &mut network, list, &mut space) {
        (0, 0) => space
            .chunks(2)
            .take_while(|pair| pair[0] != i32::MIN)
            .enumerate()
            .map(|(i, pair)| format!("{i} {} {}\n", pair[0], pair[1]))
            .collect(),
        (number, place) => format!("refused {number} {place}\n"),
    }
}

fn main() {
    let folder = std::env::args_os().nth(1).expect("usage: replay-second FOLDER");
    let folder = Path::new(&folder);
    let text = match (read(folder, "program.pf"), read(folder, "events.pf")) {
        (Some(program), Some(list)) => replayed(&program, &list),
        _ => "refused 18 0\n".to_string(),
    };
    print!("{text}");
}
