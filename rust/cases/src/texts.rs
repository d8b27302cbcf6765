//! Texts for readers of 02's L4: programs spelt out, with bad names, near the grammar and far from it.

use crate::grow::{self, Shape};
use crate::random::Random;
use crate::spell::{lay_out, spell, Role, Spelt, Word, NAMES, OPERATORS, RESERVED, UNKNOWN};
use crate::table::{Draft, Tree, MEASURES};

/// What is known of a text.
#[derive(Clone, Debug, PartialEq, Eq)]
pub enum Meant {
    /// It says this table, which the check may refuse.
    Table(Vec<u8>),
    /// This number and place.
    Returned(u32, usize),
    /// Begins a text of the grammar: where it is refused with 19, its length is the place.
    Begins,
    Unknown,
}

/// A text, and the length of the space for its table.
#[derive(Clone, Debug, PartialEq, Eq)]
pub struct TextCase {
    pub label: &'static str,
    pub text: Vec<u8>,
    pub space: usize,
    pub meant: Meant,
}

/// The labels that random cases get. One that begins with a number is refused with that.
pub const LABELS: [&str; 37] = [
    "text: accepted",
    "text: 256 nodes",
    "text: as much room as needed",
    "13 no room for the table",
    "text: dear",
    "1 call with too many operands",
    "1 call with too few operands",
    "2 too many nodes",
    "2 too many definitions",
    "3 too many slots",
    "3 too many variables",
    "7 field as a number",
    "7 number as a field",
    "9 second call of a spatial definition",
    "9 fold by what may not fold",
    "10 too dear",
    "20 unknown name is read",
    "20 unknown name is used",
    "20 definition reserved",
    "20 parameter reserved",
    "20 variable reserved",
    "20 definition repeated",
    "20 parameter repeated",
    "text: other name",
    "text: names change places",
    "text: byte changed",
    "text: byte put in",
    "text: byte left out",
    "text: cut short",
    "text: word left out",
    "text: word twice",
    "text: words change places",
    "text: other word",
    "text: number near a limit",
    "text: name near a limit",
    "text: any words",
    "text: deep",
];

/// Words of which texts near the grammar are made.
pub const VOCABULARY: [&str; 44] = [
    "(",
    ")",
    "(",
    ")",
    "(",
    ")",
    "()",
    "def",
    "sense",
    "rep",
    "if",
    "mux",
    "nbr",
    "nbr-range",
    "nbr-lag",
    "fold-hood*",
    "inf",
    "+",
    "-",
    "*",
    "/",
    "<",
    ">",
    ">=",
    "==",
    "!=",
    "=",
    "<=",
    "!",
    "0",
    "1",
    "-1",
    "--1",
    "2147483647",
    "2147483648",
    "-2147483648",
    "-inf",
    "x",
    "f",
    "share",
    "X",
    "\t",
    ";",
    "abcdefghijklmnopq",
];

/// Bytes that are put into texts.
const BYTES: &[u8] = b"()  \n\r\t+-*/<>=!019afinrx;\0\x7f\x80\xffAZ`{@[.,\"'#_";

fn any_draft(random: &mut Random) -> Draft {
    match random.below(10) {
        0 => grow::distance_to(random.pick(&MEASURES), [1, 2], 0),
        1 | 2 => grow::calculation(random),
        _ => grow::accepted(Shape::any(random), random),
    }
}

/// Shorter ones, so that what is done to them is seldom far away.
fn short_draft(random: &mut Random) -> Draft {
    match random.below(6) {
        0 => grow::distance_to(random.pick(&MEASURES), [1, 2], 0),
        _ => {
            let nodes = random.between(1, 24);
            let definitions = random.below(4);
            let shape = Shape { nodes, definitions, cost: 400, spare: 0, deep: 20, measures: &MEASURES };
            grow::accepted(shape, random)
        }
    }
}

/// The case with this index.
pub fn nth(seed: u64, index: u64) -> TextCase {
    let random = &mut Random::new(seed, index);
    loop {
        let label = random.pick(&LABELS);
        if let Some(case) = labelled(label, random) {
            return case;
        }
    }
}

/// A case for this label, unless the program at hand has no place for it.
fn labelled(label: &'static str, random: &mut Random) -> Option<TextCase> {
    let case = |text: Vec<u8>, meant: Meant, random: &mut Random| {
        let space = random.pick(&[0, 100, 4_096, 4_096, 20_000]);
        Some(TextCase { label, text, space, meant })
    };
    if let Some(draft) = program(label, random) {
        let Spelt { words, table } = spell(&draft?, random);
        let space = match label {
            "13 no room for the table" => table.len() - random.near(1, table.len()),
            "text: as much room as needed" => table.len() + random.pick(&[0, 0, 1, 7]),
            _ => 20_000,
        };
        return Some(TextCase { label, text: lay_out(&words, random), space, meant: Meant::Table(table) });
    }
    let mut words = spell(&short_draft(random), random).words;
    if let Some(known) = renamed(label, &mut words, random) {
        let meant = if known? { Meant::Returned(20, 0) } else { Meant::Unknown };
        return case(lay_out(&words, random), meant, random);
    }
    if changed_words(label, &mut words, random)? {
        return case(lay_out(&words, random), Meant::Unknown, random);
    }
    let mut text = lay_out(&words, random);
    let at = random.below(text.len());
    match label {
        "text: byte changed" => text[at] = any_byte(random),
        "text: byte put in" => text.insert(random.below(text.len() + 1), any_byte(random)),
        "text: byte left out" => {
            text.remove(at);
        }
        "text: cut short" => {
            text.truncate(random.below(text.len() + 1));
            return case(text, Meant::Begins, random);
        }
        "text: any words" => text = any_words(random),
        "text: deep" => text = deep(random),
        _ => unreachable!("{label}"),
    }
    case(text, Meant::Unknown, random)
}

fn any_byte(random: &mut Random) -> u8 {
    if random.chance(85) {
        random.pick(BYTES)
    } else {
        random.byte()
    }
}

/// The program of a label whose table is known; the inner none: this time there is none.
fn program(label: &str, random: &mut Random) -> Option<Option<Draft>> {
    let mut draft = any_draft(random);
    Some(Some(match label {
        "text: accepted" | "text: as much room as needed" | "13 no room for the table" => draft,
        "text: 256 nodes" => {
            grow::pad(&mut draft, 256);
            draft
        }
        "text: dear" => grow::costing(1_000_000 - random.pick(&[0, 1, 1_000]), random),
        "10 too dear" => grow::costing(1_000_000 + random.pick(&[1, 2, 1_000, 1_000_000]), random),
        "1 call with too many operands" => return Some(call_with(draft, random, true)),
        "1 call with too few operands" => return Some(call_with(draft, random, false)),
        "2 too many nodes" => {
            grow::pad(&mut draft, 256 + random.pick(&[1, 2, 3, 40, 300]));
            draft
        }
        "2 too many definitions" => {
            draft.definitions.extend((0..33).map(|_| (0, Tree::constant(1))));
            draft.definitions.truncate(33 + random.below(2));
            let few = draft.size() <= 256;
            return Some(few.then_some(draft));
        }
        "3 too many slots" => {
            // Those of the program, then more, next to each other or in each other.
            let more = random.pick(&[16, 17, 20, 70]);
            let kind = random.pick(&[8, 9, 13]);
            let field =
                |tree: Tree| if kind == 8 { Tree::new(8, &[1], vec![tree]) } else { Tree::new(kind, &[1], vec![]) };
            let fold = |tree: Tree| Tree::new(10, &[0], vec![Tree::constant(0), tree]);
            let nested = random.chance(50) && kind == 8;
            for _ in 0..more {
                draft.main = match nested {
                    true => fold(field(draft.main)),
                    false => Tree::sum(draft.main, fold(field(Tree::constant(7)))),
                };
            }
            return Some((draft.size() <= 256).then_some(draft));
        }
        "3 too many variables" => {
            let (nested, read) = (random.chance(50), random.chance(50));
            for v in 0..random.pick(&[17, 18, 30]) {
                let read = if read { Tree::new(2, &[100 + v], vec![]) } else { Tree::constant(3) };
                draft.main = match nested {
                    true => Tree::new(5, &[100 + v], vec![draft.main, read]),
                    false => Tree::sum(draft.main, Tree::new(5, &[100 + v], vec![Tree::constant(0), read])),
                };
            }
            return Some((draft.size() <= 256).then_some(draft));
        }
        "7 field as a number" => {
            let field = Tree::new(random.pick(&MEASURES), &[1], vec![]);
            draft.main = Tree::new(4, &[], vec![Tree::sum(draft.main, field)]);
            return Some(free_slot(&draft).then_some(draft));
        }
        "7 number as a field" => {
            draft.main = Tree::new(10, &[0], vec![Tree::constant(0), draft.main]);
            draft
        }
        "9 second call of a spatial definition" => {
            let number = draft.definitions.len() as u8;
            let rep = Tree::new(5, &[200], vec![Tree::constant(0), Tree::new(2, &[200], vec![])]);
            draft.definitions.push((0, rep));
            let call = || Tree::new(12, &[number], vec![]);
            draft.main = Tree::sum(Tree::sum(call(), draft.main), call());
            let fits = draft.size() <= 256 && draft.definitions.len() <= 32 && free_variable(&draft);
            return Some(fits.then_some(draft));
        }
        "9 fold by what may not fold" => {
            let number = draft.definitions.len() as u8;
            let parameters = random.pick(&[0, 1, 3, 4]);
            draft.definitions.push((parameters, Tree::constant(5)));
            let field = Tree::new(random.pick(&MEASURES), &[1], vec![]);
            let fold = Tree::new(11, &[number], vec![Tree::constant(0), field]);
            draft.main = Tree::sum(draft.main, fold);
            let fits = draft.size() <= 256 && draft.definitions.len() <= 32 && free_slot(&draft);
            return Some(fits.then_some(draft));
        }
        _ => return None,
    }))
}

fn trees(draft: &Draft) -> impl Iterator<Item = &Tree> {
    draft.definitions.iter().map(|(_, body)| body).chain([&draft.main])
}

fn count(tree: &Tree, kinds: &[u8]) -> usize {
    usize::from(kinds.contains(&tree.kind)) + tree.children.iter().map(|child| count(child, kinds)).sum::<usize>()
}

/// Whether no more slots than there are were taken.
fn free_slot(draft: &Draft) -> bool {
    draft.size() <= 256 && trees(draft).map(|tree| count(tree, &[8, 9, 13])).sum::<usize>() <= 15
}

fn free_variable(draft: &Draft) -> bool {
    trees(draft).map(|tree| count(tree, &[5])).sum::<usize>() <= 16
}

/// A program in which main calls a definition with operands that it has not, or without one that it has.
fn call_with(mut draft: Draft, random: &mut Random, more: bool) -> Option<Draft> {
    let called = random.below(draft.definitions.len().max(1));
    let (parameters, _) = draft.definitions.get(called)?;
    let parameters = usize::from(*parameters);
    let operands = match more {
        true => parameters + random.pick(&[1, 1, 2, 5]),
        false => parameters.checked_sub(random.between(1, parameters.max(1)))?,
    };
    let call = Tree::new(12, &[called as u8], vec![Tree::constant(1); operands]);
    draft.main = if random.chance(50) { Tree::sum(draft.main, call) } else { Tree::sum(call, draft.main) };
    (draft.size() <= 256).then_some(draft)
}

/// A place of a word with such a role.
fn place(words: &[Word], random: &mut Random, has: impl Fn(Role) -> bool) -> Option<usize> {
    let places: Vec<usize> = (0..words.len()).filter(|at| has(words[*at].role)).collect();
    (!places.is_empty()).then(|| random.pick(&places))
}

/// Gives another name, by the label; whether it is known that the text gets 20. The inner none: there is no such name.
fn renamed(label: &str, words: &mut [Word], random: &mut Random) -> Option<Option<bool>> {
    let named = |role: Role| !matches!(role, Role::Bracket | Role::Fixed | Role::Number);
    let (has, name): (fn(Role) -> bool, &str) = match label {
        "20 unknown name is read" => (|role| role == Role::Read, UNKNOWN),
        "20 unknown name is used" => (|role| role == Role::Use, UNKNOWN),
        "20 definition reserved" => (|role| matches!(role, Role::Definition(_)), random.pick(&RESERVED)),
        "20 parameter reserved" => (|role| matches!(role, Role::Parameter(_)), random.pick(&RESERVED)),
        "20 variable reserved" => (|role| role == Role::Variable, random.pick(&RESERVED)),
        "20 definition repeated" | "20 parameter repeated" => return Some(repeated(label, words, random)),
        "text: other name" => {
            let Some(at) = place(words, random, named) else {
                return Some(None);
            };
            let other = place(words, random, named).unwrap_or(at);
            words[at].text =
                if random.chance(70) { words[other].text.clone() } else { random.pick(&NAMES).to_string() };
            return Some(Some(false));
        }
        "text: names change places" => {
            let (Some(one), Some(two)) = (place(words, random, named), place(words, random, named)) else {
                return Some(None);
            };
            let text = words[one].text.clone();
            words[one].text = std::mem::replace(&mut words[two].text, text);
            return Some(Some(false));
        }
        _ => return None,
    };
    let Some(at) = place(words, random, has) else {
        return Some(None);
    };
    words[at].text = name.into();
    Some(Some(true))
}

/// A definition gets the name of another, or a parameter that of another of its definition.
fn repeated(label: &str, words: &mut [Word], random: &mut Random) -> Option<bool> {
    let of_definition = label == "20 definition repeated";
    let has = |role: Role| {
        if of_definition {
            matches!(role, Role::Definition(_))
        } else {
            matches!(role, Role::Parameter(_))
        }
    };
    let one = place(words, random, has)?;
    let like = |at: &usize| {
        *at != one && if of_definition { has(words[*at].role) } else { words[*at].role == words[one].role }
    };
    let others: Vec<usize> = (0..words.len()).filter(like).collect();
    let two = *others.first()?;
    words[one].text = words[two].text.clone();
    Some(true)
}

/// A number at or past a limit, or near to being one.
fn near_number(random: &mut Random) -> String {
    let digits = random.pick(&[
        "2147483647",
        "2147483648",
        "2147483649",
        "2147483650",
        "2147483646",
        "2147483657",
        "2147483747",
        "3147483647",
        "1999999999",
        "9999999999",
        "999999999",
        "21474836470",
        "0",
        "00",
        "10000000000",
        "4294967296",
        "4294967295",
        "4294967297",
        "",
    ]);
    let sign = random.pick(&["", "", "-", "-", "--", "+"]);
    let zeros = "0".repeat(random.pick(&[0, 0, 1, 9, 30]));
    let end = random.pick(&["", "", "", "", "a", "-", "0", "."]);
    format!("{sign}{zeros}{digits}{end}")
}

/// A name at or past a limit, or near a word of the notation.
fn near_name(random: &mut Random) -> String {
    let name = random.pick(&[RESERVED.as_slice(), &NAMES, &OPERATORS].concat());
    match random.below(6) {
        0 => name.chars().chain("abcdefghijklmnopqr".chars()).take(random.between(14, 18)).collect(),
        1 => name[..random.between(0, name.len())].into(),
        2 => format!(
            "{name}{}",
            random.pick(&["a", "z", "0", "9", "-", "*", "A", "_", "{", "`", ":", "/", ",", "+", "=", "\t"])
        ),
        3 => format!("{}{name}", random.pick(&["a", "z", "0", "9", "-", "*", "A", "_", "{", "`"])),
        4 => name.to_uppercase(),
        _ => name.into(),
    }
}

/// Changes the words by the label; whether there is such a label. None: there is no place for it.
fn changed_words(label: &str, words: &mut Vec<Word>, random: &mut Random) -> Option<bool> {
    let at = random.below(words.len());
    match label {
        "text: word left out" => {
            words.remove(at);
        }
        "text: word twice" => words.insert(at, words[random.below(words.len())].clone()),
        "text: words change places" => {
            let other = if random.chance(50) { random.below(words.len()) } else { (at + 1) % words.len() };
            words.swap(at, other);
        }
        "text: other word" => words[at].text = random.pick(&VOCABULARY).into(),
        "text: number near a limit" => {
            let at = place(words, random, |role| role == Role::Number)?;
            words[at].text = near_number(random);
        }
        "text: name near a limit" => {
            let at = place(words, random, |role| !matches!(role, Role::Bracket | Role::Number))?;
            words[at].text = near_name(random);
        }
        _ => return Some(false),
    }
    Some(true)
}

fn any_words(random: &mut Random) -> Vec<u8> {
    let words = |random: &mut Random| Word { text: random.pick(&VOCABULARY).into(), role: Role::Fixed };
    let words: Vec<Word> = (0..random.below(12)).map(|_| words(random)).collect();
    lay_out(&words, random)
}

/// Many brackets in each other.
fn deep(random: &mut Random) -> Vec<u8> {
    let depth = random.pick(&[10, 127, 128, 255, 256, 257, 300, 1_000, 5_000]);
    let front = random.pick(&[
        "(sense ",
        "(f ",
        "(nbr ",
        "(+ 1 ",
        "(rep x 0 ",
        "(if 1 2 ",
        "(",
        "(fold-hood* + 0 ",
        "(def f () ",
    ]);
    let middle = random.pick(&["1", "x", "(nbr-lag)", "", "if"]);
    let closed = depth + random.pick(&[0, 0, 1, 2]) - 1;
    let closed = if random.chance(50) { depth } else { closed };
    format!("{}{middle}{}", front.repeat(depth), ")".repeat(closed)).into_bytes()
}

#[cfg(test)]
mod tests {
    use super::*;
    use std::collections::BTreeSet;

    #[test]
    fn every_label_is_met() {
        let met: BTreeSet<&str> = (0..5_000).map(|index| nth(5, index).label).collect();
        assert_eq!(met, LABELS.into_iter().collect());
        for index in 0..200 {
            assert_eq!(nth(6, index), nth(6, index));
        }
    }
}
