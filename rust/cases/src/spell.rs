//! Drafts as texts: the words that say a program, and the table that they must become.

use crate::random::Random;
use crate::table::{bytes, takes_slot, write, Draft, Tree};

pub const OPERATORS: [&str; 9] = ["+", "-", "*", "/", "<", ">", ">=", "==", "!="];

/// The words of the notation that are spelt like names.
pub const RESERVED: [&str; 10] =
    ["def", "sense", "rep", "if", "mux", "nbr", "nbr-range", "nbr-lag", "fold-hood*", "inf"];

/// Names that a program may give, many near a word of the notation or a limit.
pub const NAMES: [&str; 24] = [
    "a",
    "b",
    "x",
    "y",
    "d",
    "f",
    "g",
    "min",
    "source",
    "share",
    "floor",
    "iffy",
    "in",
    "infx",
    "de",
    "defs",
    "nbr-",
    "nbr-rang",
    "nbr-lag2",
    "fold-hood",
    "z-9*",
    "a1",
    "abcdefghijklmnop",
    "abcdefghijklmno",
];

/// A name that no program gives.
pub const UNKNOWN: &str = "unknown-name";

/// What a word is in its place.
#[derive(Clone, Copy, Debug, PartialEq, Eq)]
pub enum Role {
    Bracket,
    /// A head that is no call, the word def, a fold's operator.
    Fixed,
    Number,
    /// A parameter or variable that is read.
    Read,
    /// A definition that is called or folded by.
    Use,
    /// What is bound: a definition by its number, a parameter of that definition, a rep's variable.
    Definition(usize),
    Parameter(usize),
    Variable,
}

#[derive(Clone, Debug, PartialEq, Eq)]
pub struct Word {
    pub text: String,
    pub role: Role,
}

pub struct Spelt {
    pub words: Vec<Word>,
    pub table: Vec<u8>,
}

/// What a name in a draft stands for, by its number there.
#[derive(Clone, Copy, PartialEq, Eq)]
enum Bound {
    Parameter(u8),
    Variable(u8),
}

struct Speller<'r> {
    random: &'r mut Random,
    words: Vec<Word>,
    definitions: Vec<String>,
    slots: usize,
    variables: usize,
    /// What is bound here, the nearest last: in the draft, its name, its number in the table.
    bound: Vec<(Bound, String, u8)>,
}

fn byte(number: usize) -> u8 {
    u8::try_from(number).unwrap_or(u8::MAX)
}

/// Whether a tree reads this.
fn reads(tree: &Tree, bound: Bound) -> bool {
    let here = match tree.kind {
        1 => bound == Bound::Parameter(tree.items[0]),
        2 => bound == Bound::Variable(tree.items[0]),
        _ => false,
    };
    here || tree.children.iter().any(|child| reads(child, bound))
}

impl Speller<'_> {
    fn word(&mut self, text: &str, role: Role) {
        self.words.push(Word { text: text.into(), role });
    }

    fn number(&mut self, number: i32) {
        let zeros = "0".repeat(self.random.weighted(&[(12, 0), (1, 1), (1, 12)]));
        let text = match number {
            i32::MAX if self.random.chance(60) => "inf".into(),
            0 if self.random.chance(10) => format!("-{zeros}0"),
            _ if number < 0 => format!("-{zeros}{}", number.unsigned_abs()),
            _ => format!("{zeros}{number}"),
        };
        self.word(&text, Role::Number);
    }

    /// A name for a variable: one that is bound already only where the update does not read what it would hide.
    fn name_for(&mut self, update: &Tree) -> String {
        for _ in 0..6 {
            let name = self.random.pick(&NAMES);
            let hidden = self.bound.iter().filter(|(_, bound, _)| bound == name);
            if hidden.into_iter().all(|(bound, _, _)| !reads(update, *bound)) {
                return name.into();
            }
        }
        format!("v{}", self.variables)
    }

    /// Writes a tree's words; answers the same tree with the numbers that the text gives.
    fn tree(&mut self, tree: &Tree) -> Tree {
        let mut items = tree.items.clone();
        match (tree.kind, &tree.items[..]) {
            (0, &[b3, b2, b1, b0]) => self.number(i32::from_be_bytes([b3, b2, b1, b0])),
            (1 | 2, &[item]) => {
                let is = if tree.kind == 1 { Bound::Parameter(item) } else { Bound::Variable(item) };
                let found = self.bound.iter().rfind(|(bound, _, _)| *bound == is);
                let (name, number) = found.map_or((UNKNOWN.into(), item), |(_, name, number)| (name.clone(), *number));
                self.word(&name, Role::Read);
                items = vec![number];
            }
            _ => return self.form(tree),
        }
        Tree::new(tree.kind, &items, vec![])
    }

    fn form(&mut self, tree: &Tree) -> Tree {
        let mut items = tree.items.clone();
        self.word("(", Role::Bracket);
        let head = match tree.kind {
            3 => OPERATORS[usize::from(tree.items[0])],
            4 => "sense",
            5 => "rep",
            6 => "if",
            7 => "mux",
            8 => "nbr",
            9 => "nbr-range",
            13 => "nbr-lag",
            10 | 11 => "fold-hood*",
            _ => "",
        };
        match tree.kind {
            12 => self.definition(tree.items[0]),
            _ => self.word(head, Role::Fixed),
        }
        match tree.kind {
            10 => self.word(OPERATORS[usize::from(tree.items[0])], Role::Fixed),
            11 => self.definition(tree.items[0]),
            kind if takes_slot(kind) => {
                self.slots += 1;
                items = vec![byte(self.slots)];
            }
            _ => {}
        }
        let children = match (tree.kind, &tree.children[..]) {
            (5, [initial, update]) => {
                let number = byte(self.variables);
                self.variables += 1;
                items = vec![number];
                let name = self.name_for(update);
                self.word(&name, Role::Variable);
                let initial = self.tree(initial);
                self.bound.push((Bound::Variable(tree.items[0]), name, number));
                let update = self.tree(update);
                self.bound.pop();
                vec![initial, update]
            }
            (_, children) => children.iter().map(|child| self.tree(child)).collect(),
        };
        self.word(")", Role::Bracket);
        Tree::new(tree.kind, &items, children)
    }

    fn definition(&mut self, number: u8) {
        let name = self.definitions.get(usize::from(number)).map_or(UNKNOWN, |name| name).to_string();
        self.word(&name, Role::Use);
    }

    /// A name that is not in the list.
    fn other_than(&mut self, taken: &[String]) -> String {
        let name = self.random.pick(&NAMES).to_string();
        if taken.contains(&name) {
            format!("n{}", taken.len())
        } else {
            name
        }
    }
}

/// Writes a draft as text; its slots and variables are numbered anew, in reading order.
pub fn spell(draft: &Draft, random: &mut Random) -> Spelt {
    let mut speller = Speller { random, words: vec![], definitions: vec![], slots: 0, variables: 0, bound: vec![] };
    let mut definitions = vec![];
    for (number, (parameters, body)) in draft.definitions.iter().enumerate() {
        let name = speller.other_than(&speller.definitions.clone());
        speller.word("(", Role::Bracket);
        speller.word("def", Role::Fixed);
        speller.word(&name, Role::Definition(number));
        speller.word("(", Role::Bracket);
        let mut names = vec![];
        for p in 0..*parameters {
            let parameter = speller.other_than(&names);
            speller.word(&parameter, Role::Parameter(number));
            names.push(parameter.clone());
            speller.bound.push((Bound::Parameter(p), parameter, p));
        }
        speller.word(")", Role::Bracket);
        definitions.push((*parameters, speller.tree(body)));
        speller.word(")", Role::Bracket);
        speller.bound.clear();
        speller.definitions.push(name);
    }
    let main = speller.tree(&draft.main);
    let words = speller.words;
    let numbered = Draft { definitions, main, orphans: vec![] };
    Spelt { words, table: bytes(&write(&numbered, true, random).fields) }
}

/// How words are parted: by no more than they need, by one blank, by any blanks.
pub fn lay_out(words: &[Word], random: &mut Random) -> Vec<u8> {
    let style = random.below(4);
    let mut text = vec![];
    let blanks = |text: &mut Vec<u8>, random: &mut Random| {
        for _ in 0..random.weighted(&[(6, 0), (3, 1), (1, 3)]) {
            text.extend(random.pick(&[&b" "[..], b"\n", b"\r\n", b"\r", b"  "]));
        }
    };
    let mut last_is_word = false;
    for word in words {
        let is_word = !matches!(&word.text[..], "(" | ")");
        match style {
            0 => {}
            1 => text.push(b' '),
            _ => blanks(&mut text, random),
        }
        let parted = text.last().is_none_or(|last| matches!(last, b' ' | b'\n' | b'\r'));
        if last_is_word && is_word && !parted {
            text.push(random.pick(b" \n\r"));
        }
        text.extend(word.text.as_bytes());
        last_is_word = is_word;
    }
    if style > 1 {
        blanks(&mut text, random);
    }
    text
}
