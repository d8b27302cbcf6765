//! Drafts of programs as trees, and the fields they are written as.

use crate::random::Random;

/// By kind, the items before the operands, and the operands; a call's operands depend on its definition.
pub const LAYOUT: [(usize, usize); 14] =
    [(4, 0), (1, 0), (1, 0), (1, 2), (0, 1), (1, 2), (0, 3), (0, 3), (1, 1), (1, 0), (1, 2), (1, 2), (1, 0), (1, 0)];

/// nbr-range and nbr-lag: leaves that send 0 in their slot, and differ by what they measure.
pub const MEASURES: [u8; 2] = [9, 13];

/// Whether nodes of this kind take a slot, and so are fields: nbr and the measures.
pub fn takes_slot(kind: u8) -> bool {
    kind == 8 || MEASURES.contains(&kind)
}

/// A node: kind, the items before its operands, the operands. In every kind the bytes come in this order.
#[derive(Clone, Debug)]
pub struct Tree {
    pub kind: u8,
    pub items: Vec<u8>,
    pub children: Vec<Tree>,
    /// The refusal this node is meant to bring, if any.
    pub offends: Option<u32>,
}

impl Tree {
    pub fn new(kind: u8, items: &[u8], children: Vec<Tree>) -> Tree {
        Tree { kind, items: items.to_vec(), children, offends: None }
    }

    pub fn constant(number: i32) -> Tree {
        Tree::new(0, &number.to_be_bytes(), vec![])
    }

    pub fn sum(left: Tree, right: Tree) -> Tree {
        Tree::new(3, &[0], vec![left, right])
    }

    pub fn size(&self) -> usize {
        1 + self.children.iter().map(Tree::size).sum::<usize>()
    }

    pub fn offending(mut self, number: u32) -> Tree {
        self.offends = Some(number);
        self
    }
}

/// A program before it is written as a table. Orphans are trees that nothing names.
#[derive(Clone, Debug)]
pub struct Draft {
    /// Parameter count and body.
    pub definitions: Vec<(u8, Tree)>,
    pub main: Tree,
    pub orphans: Vec<Tree>,
}

impl Draft {
    pub fn size(&self) -> usize {
        let bodies: usize = self.definitions.iter().map(|(_, body)| body.size()).sum();
        bodies + self.main.size() + self.orphans.iter().map(Tree::size).sum::<usize>()
    }
}

#[derive(Clone, Debug, PartialEq, Eq)]
pub struct Field {
    pub tag: u8,
    pub body: Vec<u8>,
}

impl Field {
    pub fn bytes(&self) -> Vec<u8> {
        let mut bytes = vec![self.tag];
        bytes.extend((self.body.len() as u16).to_be_bytes());
        bytes.extend(&self.body);
        bytes
    }
}

pub fn bytes(fields: &[Field]) -> Vec<u8> {
    fields.iter().flat_map(Field::bytes).collect()
}

/// The fields of a table or list that was read, each with its tag and length.
pub fn split(bytes: &[u8]) -> Vec<&[u8]> {
    let mut fields = vec![];
    let mut rest = bytes;
    while rest.len() >= 3 {
        let length = 3 + usize::from(u16::from_be_bytes([rest[1], rest[2]]));
        let (field, after) = rest.split_at(length.min(rest.len()));
        fields.push(field);
        rest = after;
    }
    fields
}

/// The fields of a draft, and the numbers its offending nodes got.
pub struct Written {
    pub fields: Vec<Field>,
    pub offending: Vec<(u32, usize)>,
}

/// Something to be written after the things it waits for.
struct Entry<'a> {
    what: What<'a>,
    waits_for: usize,
    waiting: Vec<usize>,
}

enum What<'a> {
    Node { tree: &'a Tree, children: Vec<usize> },
    Definition { parameters: u8, body: usize },
    Main { body: usize },
}

struct Writer<'a> {
    entries: Vec<Entry<'a>>,
    /// For each definition, its entry and what waits for it.
    definitions: Vec<usize>,
    callers: Vec<(usize, usize)>,
}

impl<'a> Writer<'a> {
    fn push(&mut self, what: What<'a>, waits_for: &[usize]) -> usize {
        let number = self.entries.len();
        self.entries.push(Entry { what, waits_for: 0, waiting: vec![] });
        for other in waits_for {
            self.wait(number, *other);
        }
        number
    }

    fn wait(&mut self, entry: usize, other: usize) {
        self.entries[entry].waits_for += 1;
        self.entries[other].waiting.push(entry);
    }

    fn tree(&mut self, tree: &'a Tree) -> usize {
        let children: Vec<usize> = tree.children.iter().map(|child| self.tree(child)).collect();
        let number = self.push(What::Node { tree, children: children.clone() }, &children);
        if matches!(tree.kind, 11 | 12) {
            self.callers.push((number, usize::from(tree.items[0])));
        }
        number
    }
}

/// Writes a draft: every node and definition is given before it is named, else in any order (`plain`: operands first, left to right).
pub fn write(draft: &Draft, plain: bool, random: &mut Random) -> Written {
    let mut writer = Writer { entries: vec![], definitions: vec![], callers: vec![] };
    for (parameters, body) in &draft.definitions {
        let body = writer.tree(body);
        let after: Vec<usize> = writer.definitions.last().copied().into_iter().chain([body]).collect();
        let number = writer.push(What::Definition { parameters: *parameters, body }, &after);
        writer.definitions.push(number);
    }
    for orphan in &draft.orphans {
        writer.tree(orphan);
    }
    let body = writer.tree(&draft.main);
    for (caller, definition) in std::mem::take(&mut writer.callers) {
        if let Some(definition) = writer.definitions.get(definition).copied() {
            writer.wait(caller, definition);
        }
    }
    let all: Vec<usize> = (0..writer.entries.len()).collect();
    writer.push(What::Main { body }, &all);

    let mut entries = writer.entries;
    let mut ready: Vec<usize> = (0..entries.len()).filter(|entry| entries[*entry].waits_for == 0).collect();
    let mut numbers = vec![0_u8; entries.len()];
    let mut nodes = 0;
    let mut written = Written { fields: vec![], offending: vec![] };
    while !ready.is_empty() {
        let at = match plain {
            true => (0..ready.len()).min_by_key(|at| ready[*at]).unwrap_or(0),
            false => random.below(ready.len()),
        };
        let number = ready.swap_remove(at);
        let field = match &entries[number].what {
            What::Node { tree, children } => {
                numbers[number] = nodes as u8;
                if let Some(refusal) = tree.offends {
                    written.offending.push((refusal, nodes));
                }
                nodes += 1;
                let mut body = vec![tree.kind];
                body.extend(&tree.items);
                body.extend(children.iter().map(|child| numbers[*child]));
                Field { tag: 1, body }
            }
            What::Definition { parameters, body } => Field { tag: 2, body: vec![*parameters, numbers[*body]] },
            What::Main { body } => Field { tag: 3, body: vec![numbers[*body]] },
        };
        written.fields.push(field);
        for waiting in std::mem::take(&mut entries[number].waiting) {
            entries[waiting].waits_for -= 1;
            if entries[waiting].waits_for == 0 {
                ready.push(waiting);
            }
        }
    }
    written
}
