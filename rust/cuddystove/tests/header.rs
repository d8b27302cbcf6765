//! The wrapper against `include/cuddystove.h`: version, numbers, tags, names and sentences as they stand there.

use std::collections::{BTreeMap, BTreeSet};

use cuddystove::events::Event;
use cuddystove::{
    Answer, Refusal, ABSENT, BLOCK, CELLS, DEFINITIONS, DEVICES, FARTHEST, FIRST_AGE, FIRST_HEARD, FIRST_PENDING,
    FIRST_SENSORS, FLOOR, INF, LARGEST_COST, LONGEST_EVENT, LONGEST_MESSAGE, NODES, OLDEST, PARAMETERS, ROW, SENSORS,
    VARIABLES, VERSION,
};

const HEADER: &str = include_str!("../../../include/cuddystove.h");

/// `#define CUDDYSTOVE_<name> <value>`, name to value.
fn defines() -> BTreeMap<&'static str, &'static str> {
    let lines = HEADER.lines().filter_map(|line| line.strip_prefix("#define CUDDYSTOVE_"));
    lines.filter_map(|line| line.split("//").next()?.trim().split_once(' ')).collect()
}

/// `CUDDYSTOVE_<name> = <number>,` of the header's enums, name to number.
fn enumerators() -> BTreeMap<&'static str, u32> {
    let lines = HEADER.lines().filter_map(|line| line.strip_prefix("    CUDDYSTOVE_")?.split_once(" = "));
    lines.map(|(name, rest)| (name, whole(rest.split([',', ' ']).next().unwrap_or(rest)))).collect()
}

fn whole(text: &str) -> u32 {
    let number = text.strip_prefix("0x").map_or_else(|| text.parse(), |digits| u32::from_str_radix(digits, 16));
    number.unwrap_or_else(|_| panic!("{text} is no number"))
}

/// The part of the header from `from` to the next `}` that begins a line.
fn function(from: &str) -> &'static str {
    let start = HEADER.find(from).unwrap_or_else(|| panic!("{from} is not in the header"));
    let end = HEADER[start..].find("\n}").expect("an end");
    &HEADER[start..start + end]
}

/// The texts between quotation marks.
fn quoted(text: &str) -> Vec<&str> {
    text.split('"').skip(1).step_by(2).collect()
}

#[test]
fn versions_agree() {
    let defines = defines();
    assert_eq!(defines["VERSION"], format!("\"{VERSION}\""));
    assert_eq!(VERSION, env!("CARGO_PKG_VERSION"));
    let parts: Vec<u32> = VERSION.split('.').map(whole).collect();
    assert_eq!(whole(defines["VERSION_NUMBER"]), parts[0] * 10_000 + parts[1] * 100 + parts[2]);
}

/// Every number that the header defines is here with the same name.
#[test]
fn numbers_agree() {
    let mut numbers: BTreeMap<&str, u32> = BTreeMap::new();
    for (name, value) in defines() {
        if value.chars().all(|digit| digit.is_ascii_digit()) && name != "VERSION_NUMBER" {
            numbers.insert(name, whole(value));
        }
    }
    let ours = [
        ("BLOCK", BLOCK as u32),
        ("CELLS", CELLS as u32),
        ("DEFINITIONS", DEFINITIONS as u32),
        ("DEVICES", DEVICES as u32),
        ("FARTHEST", FARTHEST as u32),
        ("FIRST_AGE", FIRST_AGE as u32),
        ("FIRST_HEARD", FIRST_HEARD as u32),
        ("FIRST_PENDING", FIRST_PENDING as u32),
        ("FIRST_SENSORS", FIRST_SENSORS as u32),
        ("LARGEST_COST", LARGEST_COST),
        ("LONGEST_EVENT", LONGEST_EVENT as u32),
        ("LONGEST_MESSAGE", LONGEST_MESSAGE as u32),
        ("NODES", NODES as u32),
        ("OLDEST", OLDEST as u32),
        ("PARAMETERS", PARAMETERS as u32),
        ("ROW", ROW as u32),
        ("SENSORS", SENSORS as u32),
        ("VARIABLES", VARIABLES as u32),
    ];
    assert_eq!(numbers, BTreeMap::from(ours));
    let defines = defines();
    assert_eq!((defines["MARK"], ABSENT), ("INT32_MIN", i32::MIN));
    assert_eq!((defines["FLOOR"], FLOOR), ("(-INT32_MAX)", -i32::MAX));
    assert_eq!((defines["INF"], INF), ("INT32_MAX", i32::MAX));
}

/// Every tag of a list's field has its event here.
#[test]
fn tags_agree() {
    let events = [
        ("TAG_DELIVER", Event::deliver(1, 2)),
        ("TAG_FIRE", Event::fire(1)),
        ("TAG_LINK", Event::link(1, 2, 3)),
        ("TAG_LOSE", Event::lose(1, 2)),
        ("TAG_SIGNAL", Event::signal(1, 2, 1)),
    ];
    let ours: BTreeMap<&str, u32> =
        events.into_iter().map(|(name, event)| (name, u32::from(event.expect("bytes").as_bytes()[0]))).collect();
    let mut tags = enumerators();
    tags.retain(|name, number| name.starts_with("TAG_") && *number >= 0x10);
    assert_eq!(ours, tags);
    assert_eq!(Event::unlink(1, 2).expect("bytes").as_bytes()[0], 0x13);
}

#[test]
fn names_agree() {
    let mut names = quoted(function("static inline const char *cuddystove_name("));
    let unknown = names.pop().expect("a name for others");
    assert_eq!(names.len(), 21);
    for (number, name) in (0..).zip(&names) {
        assert_eq!(Refusal::new(number, 0).name, *name);
    }
    for number in [21, 22, 99, u32::MAX] {
        assert_eq!(Refusal::new(number, 0).name, unknown);
    }
    for number in [0, 14, 15, 16, 17] {
        let answer = Answer::from_pair([number, 0]).expect("an answer");
        assert_eq!(Some(&answer.name()), names.get(number as usize));
    }
}

/// The header's sentences by number, and last the one for other numbers.
fn sentences() -> Vec<&'static str> {
    let numbers = enumerators();
    let mut sentences = vec![""; 22];
    for line in function("static inline const char *cuddystove_sentence(").lines() {
        let Some((case, rest)) = line.trim().split_once(": return ") else { continue };
        let number = case.strip_prefix("case CUDDYSTOVE_").map_or(21, |name| numbers[name]);
        sentences[number as usize] = quoted(rest)[0];
    }
    sentences
}

/// The header's sentence for a number, with the place in it.
fn with_place(general: &str, place: usize) -> String {
    for (counted, ours) in [("A field of", "Field {} of"), ("A node ", "Node {} "), ("An event of", "Event {} of")] {
        if let Some(rest) = general.strip_prefix(counted) {
            return ours.replace("{}", &place.to_string()) + rest;
        }
    }
    match (general.strip_suffix("no program is written so."), place) {
        (None, _) => general.to_string(),
        (Some(front), 0) => format!("{front}no program is written so, and none begins as it does."),
        (Some(front), 1) => format!("{front}no program is written so; its first byte begins one."),
        (Some(front), _) => format!("{front}no program is written so; its first {place} bytes begin one."),
    }
}

#[test]
fn sentences_agree() {
    let theirs = sentences();
    assert_eq!(theirs.iter().collect::<BTreeSet<_>>().len(), 22, "{theirs:?}");
    assert!(theirs.iter().all(|sentence| sentence.ends_with('.')));
    for (number, general) in (0..).zip(&theirs).filter(|(number, _)| *number != 11) {
        for place in [0, 1, 38, 8_719] {
            assert_eq!(Refusal::new(number, place).sentence().to_string(), with_place(general, place));
        }
    }
    // 11 is two cases in one sentence there.
    let cases = [0, 1_427].map(|place| Refusal::new(11, place).sentence().to_string());
    assert_eq!(cases[0], "The network is not 8,720 cells long.");
    assert_eq!(cases[1], "Cell 1427 of the network holds what it may not (device 3, cell 337 of its block).");
    assert_eq!(theirs[11], "The network is not 8,720 cells long (place 0), or a cell holds what it may not.");
    for number in [14, 15, 16] {
        let answer = Answer::from_pair([number, 0]).expect("an answer");
        assert_eq!(answer.sentence().to_string(), theirs[number as usize]);
    }
    let faulted = Answer::DividedByZero(3).sentence().to_string();
    assert_eq!(faulted.replace(" in node 3", ""), theirs[17]);
}

/// The comments of the header's enum are those sentences.
#[test]
fn comments_agree() {
    let theirs = sentences();
    let refusals = function("enum cuddystove_refusal {");
    for line in refusals.lines().filter(|line| line.starts_with("    CUDDYSTOVE_")) {
        let (item, comment) = line.split_once(" // ").expect("a comment");
        let number = whole(item.split(" = ").last().expect("a number").trim_end_matches([' ', ',']));
        assert!(number == 0 || theirs[number as usize] == comment, "{line}");
    }
    assert_eq!(refusals.lines().filter(|line| line.starts_with("    CUDDYSTOVE_")).count(), 21);
}
