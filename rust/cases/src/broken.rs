//! Programs that the check refuses, each with the case of 01's table it is meant for.

use crate::grow::{self, Shape};
use crate::random::Random;
use crate::table::{bytes, takes_slot, write, Draft, Field, Tree, Written, LAYOUT};

/// What a call is expected to return: the number, and the place where it is known.
pub type Expected = Option<(u32, Option<usize>)>;

pub struct Broken {
    pub label: &'static str,
    pub program: Vec<u8>,
    pub expected: Expected,
}

/// What the fields before some place have given and taken.
#[derive(Default)]
struct Before {
    nodes: usize,
    /// Parameter counts.
    definitions: Vec<u8>,
    named: Vec<u8>,
    /// Slots by the kind that took them.
    slots: Vec<(u8, u8)>,
    variables: Vec<u8>,
}

impl Before {
    fn of(fields: &[Field]) -> Before {
        let mut before = Before::default();
        for field in fields {
            if field.tag == 2 {
                before.definitions.push(field.body[0]);
                before.named.push(field.body[1]);
                continue;
            }
            before.nodes += 1;
            let kind = field.body[0];
            let (items, _) = LAYOUT[usize::from(kind)];
            before.named.extend(&field.body[1 + items..]);
            match kind {
                5 => before.variables.push(field.body[1]),
                kind if takes_slot(kind) => before.slots.push((kind, field.body[1])),
                _ => {}
            }
        }
        before
    }

    fn unnamed(&self) -> Vec<u8> {
        (0..self.nodes).map(|n| n as u8).filter(|n| !self.named.contains(n)).collect()
    }
}

/// Faults in one field; the field stands after a good beginning.
const FIELD_FAULTS: [(&str, u32); 46] = [
    ("1 unknown tag", 1),
    ("1 no kind byte", 1),
    ("1 constant of wrong length", 1),
    ("1 parameter of wrong length", 1),
    ("1 variable of wrong length", 1),
    ("1 operator of wrong length", 1),
    ("1 sense of wrong length", 1),
    ("1 rep of wrong length", 1),
    ("1 if of wrong length", 1),
    ("1 mux of wrong length", 1),
    ("1 nbr of wrong length", 1),
    ("1 nbr-range of wrong length", 1),
    ("1 nbr-lag of wrong length", 1),
    ("1 fold by operator of wrong length", 1),
    ("1 fold by definition of wrong length", 1),
    ("1 call under 2 bytes", 1),
    ("1 call not 2 + count", 1),
    ("1 definition of wrong length", 1),
    ("1 main of wrong length", 1),
    ("3 unknown kind", 3),
    ("3 constant is the mark", 3),
    ("3 parameter above 3", 3),
    ("3 variable above 15", 3),
    ("3 operator above 8", 3),
    ("3 variable of rep above 15", 3),
    ("3 slot of nbr outside 1-15", 3),
    ("3 slot of nbr-range outside 1-15", 3),
    ("3 slot of nbr-lag outside 1-15", 3),
    ("3 operator of fold above 8", 3),
    ("3 parameter count above 4", 3),
    ("4 operand not given", 4),
    ("4 operand is the node itself", 4),
    ("4 definition of call not given", 4),
    ("4 definition of call not given, odd length", 4),
    ("4 definition of fold not given", 4),
    ("4 argument not given", 4),
    ("4 body not given", 4),
    ("4 main not given", 4),
    ("5 operand taken", 5),
    ("5 operand named twice in one field", 5),
    ("5 argument taken", 5),
    ("5 argument named twice in one field", 5),
    ("5 variable of rep taken", 5),
    ("5 body taken", 5),
    ("5 main taken", 5),
    ("1 field cut short", 1),
];

/// More of them, slots taken twice (5): the label, the kind that takes it now, the kind that has it.
const SLOTS: [(&str, u8, u8); 9] = [
    ("5 slot of nbr taken by nbr", 8, 8),
    ("5 slot of nbr taken by nbr-range", 8, 9),
    ("5 slot of nbr taken by nbr-lag", 8, 13),
    ("5 slot of nbr-range taken by nbr", 9, 8),
    ("5 slot of nbr-range taken by nbr-range", 9, 9),
    ("5 slot of nbr-range taken by nbr-lag", 9, 13),
    ("5 slot of nbr-lag taken by nbr", 13, 8),
    ("5 slot of nbr-lag taken by nbr-range", 13, 9),
    ("5 slot of nbr-lag taken by nbr-lag", 13, 13),
];

/// All faults in one field: the label, the refusal.
fn field_faults() -> impl Iterator<Item = (&'static str, u32)> {
    FIELD_FAULTS.into_iter().chain(SLOTS.map(|(label, _, _)| (label, 5)))
}

fn field_fault(label: &str, before: &Before, random: &mut Random) -> Option<Vec<u8>> {
    let whole = |tag: u8, body: Vec<u8>| Some(Field { tag, body }.bytes());
    let junk = |random: &mut Random, length: usize| -> Vec<u8> { (0..length).map(|_| random.byte()).collect() };
    let above = |random: &mut Random, last: usize| random.near(last + 1, 255) as u8;
    let slot_out = |random: &mut Random| if random.chance(40) { 0 } else { above(random, 15) };
    // A node that is given; it may be taken.
    let given = |random: &mut Random| (before.nodes > 0).then(|| random.below(before.nodes) as u8);
    let not_given = |random: &mut Random| (before.nodes < 256).then(|| random.near(before.nodes, 255) as u8);
    let unnamed = before.unnamed();
    let free = |taken: &dyn Fn(u8) -> bool, low: u8| (low..=15).find(|one| !taken(*one));
    const PARENTS: [u8; 8] = [3, 4, 5, 6, 7, 8, 10, 11];
    // A node with operands; items are good and free where they can be.
    let parent = |kind: u8, operands: &[u8]| -> Option<Vec<u8>> {
        let mut body = vec![kind];
        match kind {
            3 | 10 => body.push(0),
            5 => body.push(free(&|v| before.variables.contains(&v), 0)?),
            8 => body.push(free(&|slot| before.slots.iter().any(|(_, taken)| *taken == slot), 1)?),
            11 if before.definitions.is_empty() => return None,
            11 => body.push(0),
            _ => {}
        }
        body.extend(operands);
        Some(body)
    };
    let wrong_length = |kind: u8, random: &mut Random| {
        let right = LAYOUT[usize::from(kind)].0 + LAYOUT[usize::from(kind)].1;
        let length = match random.below(4) {
            0 => random.below(right + 4),
            1 => right - 1,
            2 => right + 1,
            _ => right + 256,
        };
        let mut body = vec![kind];
        body.extend(junk(random, length));
        (length != right).then_some(body)
    };
    match label {
        "1 unknown tag" => {
            let tag = random.pick(&[0, 4, 5, 16, 17, 128, 129, 255]);
            let length = random.below(8);
            whole(tag, junk(random, length))
        }
        "1 no kind byte" => whole(1, vec![]),
        "1 constant of wrong length" => whole(1, wrong_length(0, random)?),
        "1 parameter of wrong length" => whole(1, wrong_length(1, random)?),
        "1 variable of wrong length" => whole(1, wrong_length(2, random)?),
        "1 operator of wrong length" => whole(1, wrong_length(3, random)?),
        "1 sense of wrong length" => whole(1, wrong_length(4, random)?),
        "1 rep of wrong length" => whole(1, wrong_length(5, random)?),
        "1 if of wrong length" => whole(1, wrong_length(6, random)?),
        "1 mux of wrong length" => whole(1, wrong_length(7, random)?),
        "1 nbr of wrong length" => whole(1, wrong_length(8, random)?),
        "1 nbr-range of wrong length" => whole(1, wrong_length(9, random)?),
        "1 nbr-lag of wrong length" => whole(1, wrong_length(13, random)?),
        "1 fold by operator of wrong length" => whole(1, wrong_length(10, random)?),
        "1 fold by definition of wrong length" => whole(1, wrong_length(11, random)?),
        "1 call under 2 bytes" => whole(1, vec![12]),
        "1 call not 2 + count" => {
            let d = (!before.definitions.is_empty()).then(|| random.below(before.definitions.len()))?;
            let count = usize::from(before.definitions[d]);
            let length = random.pick(&[0, 1, 2, 3, 4, 5, 260]);
            let mut body = vec![12, d as u8];
            body.extend(junk(random, length));
            (length != count).then_some(())?;
            whole(1, body)
        }
        "1 definition of wrong length" => {
            let length = random.pick(&[0, 1, 3, 4, 258]);
            whole(2, junk(random, length))
        }
        "1 main of wrong length" => {
            let length = random.pick(&[0, 2, 3, 257]);
            whole(3, junk(random, length))
        }
        "3 unknown kind" => {
            let length = random.below(7);
            let mut body = vec![above(random, 13)];
            body.extend(junk(random, length));
            whole(1, body)
        }
        "3 constant is the mark" => whole(1, vec![0, 0x80, 0, 0, 0]),
        "3 parameter above 3" => whole(1, vec![1, above(random, 3)]),
        "3 variable above 15" => whole(1, vec![2, above(random, 15)]),
        "3 operator above 8" => whole(1, vec![3, above(random, 8), random.byte(), random.byte()]),
        "3 variable of rep above 15" => whole(1, vec![5, above(random, 15), random.byte(), random.byte()]),
        "3 slot of nbr outside 1-15" => whole(1, vec![8, slot_out(random), random.byte()]),
        "3 slot of nbr-range outside 1-15" => whole(1, vec![9, slot_out(random)]),
        "3 slot of nbr-lag outside 1-15" => whole(1, vec![13, slot_out(random)]),
        "3 operator of fold above 8" => whole(1, vec![10, above(random, 8), random.byte(), random.byte()]),
        "3 parameter count above 4" => whole(2, vec![above(random, 4), random.byte()]),
        "4 operand not given" => {
            let kind = random.pick(&PARENTS);
            let mut operands = vec![not_given(random)?];
            for _ in 1..LAYOUT[usize::from(kind)].1 {
                operands.push(given(random)?);
            }
            random.shuffle(&mut operands);
            whole(1, parent(kind, &operands)?)
        }
        "4 operand is the node itself" => {
            (before.nodes < 256).then_some(())?;
            let kind = random.pick(&PARENTS);
            whole(1, parent(kind, &[before.nodes as u8; 3][..LAYOUT[usize::from(kind)].1])?)
        }
        "4 definition of call not given" => whole(1, vec![12, before.definitions.len() as u8]),
        "4 definition of call not given, odd length" => {
            let length = random.between(1, 9);
            let mut body = vec![12, above(random, before.definitions.len()) - 1];
            body.extend(junk(random, length));
            whole(1, body)
        }
        "4 definition of fold not given" => {
            whole(1, vec![11, above(random, before.definitions.len()) - 1, given(random)?, given(random)?])
        }
        "4 argument not given" => {
            let d = (0..before.definitions.len()).find(|d| before.definitions[*d] > 0)?;
            let mut body = vec![12, d as u8, not_given(random)?];
            for _ in 1..before.definitions[d] {
                body.push(given(random)?);
            }
            random.shuffle(&mut body[2..]);
            whole(1, body)
        }
        "4 body not given" => whole(2, vec![random.below(5) as u8, not_given(random)?]),
        "4 main not given" => whole(3, vec![not_given(random)?]),
        "5 operand taken" => {
            let kind = random.pick(&PARENTS);
            let mut operands = vec![(!before.named.is_empty()).then(|| random.pick(&before.named))?];
            let mut others = unnamed.clone();
            random.shuffle(&mut others);
            for _ in 1..LAYOUT[usize::from(kind)].1 {
                operands.push(others.pop()?);
            }
            random.shuffle(&mut operands);
            whole(1, parent(kind, &operands)?)
        }
        "5 operand named twice in one field" => {
            let kind = random.pick(&[3, 5, 6, 7, 10, 11]);
            let mut others = unnamed.clone();
            random.shuffle(&mut others);
            let twice = others.pop()?;
            let mut operands = vec![twice, twice];
            if LAYOUT[usize::from(kind)].1 == 3 {
                operands.push(others.pop()?);
            }
            random.shuffle(&mut operands);
            whole(1, parent(kind, &operands)?)
        }
        "5 argument taken" => {
            let d = (0..before.definitions.len()).find(|d| before.definitions[*d] > 0)?;
            let mut others = unnamed.clone();
            random.shuffle(&mut others);
            let mut body = vec![12, d as u8, (!before.named.is_empty()).then(|| random.pick(&before.named))?];
            for _ in 1..before.definitions[d] {
                body.push(others.pop()?);
            }
            random.shuffle(&mut body[2..]);
            whole(1, body)
        }
        "5 argument named twice in one field" => {
            let d = (0..before.definitions.len()).find(|d| before.definitions[*d] > 1)?;
            let mut others = unnamed.clone();
            random.shuffle(&mut others);
            let twice = others.pop()?;
            let mut body = vec![12, d as u8, twice, twice];
            for _ in 2..before.definitions[d] {
                body.push(others.pop()?);
            }
            random.shuffle(&mut body[2..]);
            whole(1, body)
        }
        "5 variable of rep taken" => {
            (!before.variables.is_empty() && unnamed.len() > 1).then_some(())?;
            whole(1, vec![5, random.pick(&before.variables), unnamed[0], unnamed[1]])
        }
        "5 body taken" => {
            (!before.named.is_empty()).then_some(())?;
            whole(2, vec![random.below(5) as u8, random.pick(&before.named)])
        }
        "5 main taken" => {
            (!before.named.is_empty()).then_some(())?;
            whole(3, vec![random.pick(&before.named)])
        }
        "1 field cut short" => {
            let length = random.between(0, 9);
            let tag = random.byte();
            let field = Field { tag, body: junk(random, length) }.bytes();
            let cut = random.between(1, field.len() - 1);
            Some(field[..cut].to_vec())
        }
        _ => {
            let (_, kind, by) = SLOTS.into_iter().find(|(of, _, _)| *of == label).expect(label);
            let slots: Vec<u8> =
                before.slots.iter().filter(|(taken_by, _)| *taken_by == by).map(|(_, slot)| *slot).collect();
            let mut body = vec![kind, (!slots.is_empty()).then(|| random.pick(&slots))?];
            if kind == 8 {
                body.push((!unnamed.is_empty()).then(|| random.pick(&unnamed))?);
            }
            whole(1, body)
        }
    }
}

/// A fault in one field, after a good beginning.
fn in_a_field(random: &mut Random) -> Broken {
    let (label, number) = random.pick(&field_faults().collect::<Vec<_>>());
    loop {
        let shape = Shape { nodes: random.between(4, 60), definitions: random.between(0, 6), ..Shape::any(random) };
        let fields = any_order(&grow::accepted(shape, random), random).fields;
        let place = random.below(fields.len());
        let before = Before::of(&fields[..place]);
        let Some(fault) = field_fault(label, &before, random) else {
            continue;
        };
        let mut program = bytes(&fields[..place]);
        program.extend(fault);
        if label != "1 field cut short" && random.chance(70) {
            program.extend(bytes(&fields[place..]));
        }
        return Broken { label, program, expected: Some((number, Some(place))) };
    }
}

fn any_order(draft: &Draft, random: &mut Random) -> Written {
    let plain = random.chance(30);
    write(draft, plain, random)
}

/// The 257th node, whatever else is wrong with it: the label, the refusal, the body.
fn node_257(random: &mut Random) -> (&'static str, u32, Vec<u8>) {
    if random.chance(40) {
        let slot = random.between(1, 15) as u8;
        return ("2 257th node: nbr-lag", 2, random.pick(&[&[13, slot][..], &[13, 0], &[13]]).to_vec());
    }
    match random.below(6) {
        0 => ("1 257th node without kind", 1, vec![]),
        length => ("2 257th node", 2, (0..length).map(|_| random.byte() % 16).collect()),
    }
}

/// Tables that are too full.
fn too_many(random: &mut Random) -> Broken {
    let shape = Shape { nodes: 256, definitions: random.between(0, 31), ..Shape::any(random) };
    let mut draft = grow::accepted(shape, random);
    if random.chance(50) {
        grow::pad(&mut draft, 256);
        let mut fields = any_order(&draft, random).fields;
        fields.pop();
        let (label, number, body) = node_257(random);
        let place = fields.len();
        fields.push(Field { tag: 1, body });
        return Broken { label, program: bytes(&fields), expected: Some((number, Some(place))) };
    }
    while draft.size() > 200 {
        draft = grow::accepted(Shape { nodes: 150, ..shape }, random);
    }
    while draft.definitions.len() < 32 {
        draft.definitions.push((random.below(5) as u8, Tree::constant(random.number())));
    }
    let mut fields = any_order(&draft, random).fields;
    fields.pop();
    let length = random.below(5);
    let body = (0..length).map(|_| random.byte() % 40).collect();
    let place = fields.len();
    fields.push(Field { tag: 2, body });
    Broken { label: "2 33rd definition", program: bytes(&fields), expected: Some((2, Some(place))) }
}

fn table_end(random: &mut Random) -> Broken {
    let mut draft = grow::accepted(Shape { nodes: random.between(1, 50), ..Shape::any(random) }, random);
    let broken = |label, program| Broken { label, program, expected: Some((6, Some(0))) };
    match random.below(6) {
        0 => broken("6 empty program", vec![]),
        1 => {
            let mut fields = any_order(&draft, random).fields;
            fields.truncate(random.below(fields.len()));
            broken("6 no main", bytes(&fields))
        }
        2 => {
            let mut program = bytes(&any_order(&draft, random).fields);
            let more = random.between(1, 12);
            program.extend((0..more).map(|_| random.byte() % 20));
            broken("6 bytes after main", program)
        }
        3 => {
            let mut fields = any_order(&draft, random).fields;
            fields.extend(any_order(&draft, random).fields);
            broken("6 fields after main", bytes(&fields))
        }
        4 => {
            // Main names what is given there and not yet named; after the first field, a node, there is such a one.
            let fields = any_order(&draft, random).fields;
            let unnamed = |place: usize| Before::of(&fields[..place]).unnamed();
            let places: Vec<usize> = (1..fields.len()).filter(|place| !unnamed(*place).is_empty()).collect();
            let place = random.pick(&places);
            let main = Field { tag: 3, body: vec![random.pick(&unnamed(place))] };
            let early = [&fields[..place], &[main], &fields[place..]].concat();
            broken("6 main in the middle", bytes(&early))
        }
        _ => {
            let one = Tree::constant(random.number());
            let orphan = match random.below(3) {
                0 => Unused::of(&draft).of_kind(random.pick(&[8, 9, 13])).unwrap_or(one),
                1 => Tree::new(4, &[], vec![one]),
                _ => one,
            };
            draft.orphans.push(orphan);
            broken("6 node unnamed", bytes(&any_order(&draft, random).fields))
        }
    }
}

/// Where a field stands in place of a number, or a number in place of a field.
#[derive(Clone, Copy)]
enum Misplaced {
    /// Under a node of this kind, whose operands are numbers (n) and fields (f).
    Operand(u8, &'static str),
    Argument,
    Main,
    Body,
}

/// Rows of a table, each label with that of a twin in which the field, or the first of two, is an nbr-lag.
macro_rules! twins {
    ($($label:literal => $place:expr,)*) => {
        [$(($label, concat!($label, ": nbr-lag"), $place),)*]
    };
}

/// Faults of sort by a field (7): the label, its twin's, where the field stands.
const FIELDS: [(&str, &str, Misplaced); 16] = twins![
    "7 sense of a field" => Misplaced::Operand(4, "f"),
    "7 rep with a field as initial part" => Misplaced::Operand(5, "fn"),
    "7 rep with a field as update" => Misplaced::Operand(5, "nf"),
    "7 if with a field as condition" => Misplaced::Operand(6, "fnn"),
    "7 if with a field and a number" => Misplaced::Operand(6, "nfn"),
    "7 if with a number and a field" => Misplaced::Operand(6, "nnf"),
    "7 mux with a field as condition" => Misplaced::Operand(7, "fnn"),
    "7 mux with a field as then" => Misplaced::Operand(7, "nfn"),
    "7 mux with a field as else" => Misplaced::Operand(7, "nnf"),
    "7 mux with two fields" => Misplaced::Operand(7, "nff"),
    "7 nbr of a field" => Misplaced::Operand(8, "f"),
    "7 fold by operator from a field" => Misplaced::Operand(10, "ff"),
    "7 fold by definition from a field" => Misplaced::Operand(11, "ff"),
    "7 call with a field" => Misplaced::Argument,
    "7 main is a field" => Misplaced::Main,
    "7 a body is a field" => Misplaced::Body,
];

/// Faults of sort by a number (7).
const NUMBERS: [(&str, Misplaced); 2] = [
    ("7 fold by operator over a number", Misplaced::Operand(10, "nn")),
    ("7 fold by definition over a number", Misplaced::Operand(11, "nn")),
];

/// Other faults of the trees: the label, the refusal.
const TREE_FAULTS: [(&str, u32); 16] = [
    ("8 parameter in main", 8),
    ("8 parameter at its tree's count", 8),
    ("8 variable without a rep", 8),
    ("8 variable in its own initial part", 8),
    ("8 variable beside its rep", 8),
    ("8 variable in a definition called under the update", 8),
    ("9 spatial definition called twice", 9),
    ("9 spatial definition called three times", 9),
    ("9 spatial definition called twice: nbr-lag", 9),
    ("9 fold by a definition with nbr", 9),
    ("9 fold by a definition with nbr-range", 9),
    ("9 fold by a definition with nbr-lag", 9),
    ("9 fold by a definition with rep", 9),
    ("9 fold by a definition that calls a spatial one", 9),
    ("9 fold by a definition that calls one with nbr-lag", 9),
    ("9 fold by a definition without two parameters", 9),
];

/// All faults of the trees: the label, the refusal.
fn tree_faults() -> impl Iterator<Item = (&'static str, u32)> {
    let of_fields = FIELDS.into_iter().flat_map(|(label, twin, _)| [(label, 7), (twin, 7)]);
    of_fields.chain(NUMBERS.map(|(label, _)| (label, 7))).chain(TREE_FAULTS)
}

/// What else the programs here are labelled with.
const OTHER_LABELS: [&str; 26] = [
    "1 257th node without kind",
    "2 257th node",
    "2 257th node: nbr-lag",
    "2 33rd definition",
    "6 empty program",
    "6 no main",
    "6 bytes after main",
    "6 fields after main",
    "6 main in the middle",
    "6 node unnamed",
    "7 with 10",
    "8 with 10",
    "9 with 10",
    "7-9 several faults of the trees",
    "10 cost 1,000,001",
    "10 cost above 1,000,000",
    "10 tower of definitions",
    "10 cost just above 2^31",
    "10 cost just above 2^32",
    "10 cost just above 2^33",
    "10 cost just above 2^64",
    "spoiled: truncated",
    "spoiled: bits flipped",
    "spoiled: one byte of a body",
    "spoiled: fields moved",
    "spoiled: noise",
];

/// Every label of `labelled` and `spoiled`.
pub fn labels() -> impl Iterator<Item = &'static str> {
    let faults = field_faults().chain(tree_faults()).map(|(label, _)| label);
    faults.chain(OTHER_LABELS)
}

/// Adds `new` to a number somewhere in a number tree.
fn graft(tree: &mut Tree, new: Tree, random: &mut Random) {
    // The operands of a number that are numbers themselves.
    let numbers = match tree.kind {
        kind if takes_slot(kind) => 0,
        10 | 11 => 1,
        _ => tree.children.len(),
    };
    if numbers > 0 && random.chance(75) {
        return graft(&mut tree.children[random.below(numbers)], new, random);
    }
    let old = std::mem::replace(tree, Tree::constant(0));
    *tree = if random.chance(50) { Tree::sum(old, new) } else { Tree::sum(new, old) };
}

/// A node of a kind that takes a slot.
fn taker(kind: u8, slot: u8) -> Tree {
    Tree::new(kind, &[slot], if kind == 8 { vec![Tree::constant(2)] } else { vec![] })
}

/// A field that takes this slot, of any kind, alone or with a number.
fn some_field(slot: u8, random: &mut Random) -> Tree {
    let field = taker(random.pick(&[8, 9, 13]), slot);
    match random.below(3) {
        0 => field,
        1 => Tree::sum(field, Tree::constant(3)),
        _ => Tree::sum(Tree::constant(4), field),
    }
}

/// The slots and variables that a draft leaves free.
struct Unused {
    slots: Vec<u8>,
    variables: Vec<u8>,
}

impl Unused {
    fn of(draft: &Draft) -> Unused {
        let mut used = (vec![], vec![]);
        for (_, body) in &draft.definitions {
            collect(body, &mut used);
        }
        collect(&draft.main, &mut used);
        let free = |used: &[u8], low: u8| (low..=15).rev().filter(|one| !used.contains(one)).collect();
        Unused { slots: free(&used.0, 1), variables: free(&used.1, 0) }
    }

    fn field(&mut self, random: &mut Random) -> Option<Tree> {
        self.slots.pop().map(|slot| some_field(slot, random))
    }

    /// A field that is a node of this kind.
    fn of_kind(&mut self, kind: u8) -> Option<Tree> {
        self.slots.pop().map(|slot| taker(kind, slot))
    }

    /// A number that takes a variable or a slot.
    fn spatial(&mut self, random: &mut Random) -> Option<Tree> {
        if random.chance(50) {
            self.rep()
        } else {
            self.field(random).map(sum)
        }
    }

    /// A number that takes a variable.
    fn rep(&mut self) -> Option<Tree> {
        Some(Tree::new(5, &[self.variables.pop()?], vec![Tree::constant(1), Tree::constant(1)]))
    }
}

/// A number: a field summed up.
fn sum(field: Tree) -> Tree {
    Tree::new(10, &[0], vec![Tree::constant(1), field])
}

/// Adds a definition; its number, or none where there is no room.
fn define(draft: &mut Draft, parameters: usize, body: Tree) -> Option<u8> {
    let number = draft.definitions.len() as u8;
    draft.definitions.push((parameters as u8, body));
    (number < 32).then_some(number)
}

/// One fault of the trees. None where the draft has no room for it; it is then spoiled.
fn tree_fault(label: &str, number: u32, draft: &mut Draft, random: &mut Random) -> Option<()> {
    match number {
        7 => broken_sort(label, draft, random),
        8 => misreading(label, draft, random),
        _ => misuse(label, draft, random),
    }
}

fn broken_sort(label: &str, draft: &mut Draft, random: &mut Random) -> Option<()> {
    let one = || Tree::constant(1);
    let (lag, place) = match NUMBERS.into_iter().find(|(of, _)| *of == label) {
        Some((_, place)) => (false, place),
        None => {
            let row = FIELDS.into_iter().find(|(of, twin, _)| [*of, *twin].contains(&label));
            row.map(|(_, twin, place)| (twin == label, place)).expect(label)
        }
    };
    let mut unused = Unused::of(draft);
    let field = if lag { unused.of_kind(13)? } else { unused.field(random)? };
    let bad = match place {
        Misplaced::Operand(kind, sorts) => over(kind, sorts, field, &mut unused, draft, random)?,
        Misplaced::Argument => {
            let count = random.between(1, 4);
            let mut arguments = vec![one(); count];
            arguments[random.below(count)] = field;
            Tree::new(12, &[define(draft, count, one())?], arguments)
        }
        Misplaced::Main => {
            let old = std::mem::replace(&mut draft.main, one());
            draft.main = if lag { field } else { Tree::sum(old, field) }.offending(7);
            return Some(());
        }
        Misplaced::Body => {
            let alone = lag || random.chance(50);
            let body = if alone { field } else { Tree::new(6, &[], vec![one(), field, unused.field(random)?]) };
            return define(draft, random.below(5), body.offending(7)).map(|_| ());
        }
    };
    let bad = bad.offending(7);
    let number = if bad.kind == 8 { sum(bad) } else { bad };
    graft(&mut draft.main, number, random);
    Some(())
}

/// A node of this kind over numbers (n) and fields (f); the first of these is given.
fn over(
    kind: u8,
    sorts: &str,
    field: Tree,
    unused: &mut Unused,
    draft: &mut Draft,
    random: &mut Random,
) -> Option<Tree> {
    let one = || Tree::constant(1);
    let items = match kind {
        5 => vec![unused.variables.pop()?],
        8 => vec![unused.slots.pop()?],
        10 => vec![0],
        11 => vec![define(draft, 2, one())?],
        _ => vec![],
    };
    let mut first = Some(field);
    let operand = |sort: char| match sort {
        'f' => first.take().or_else(|| unused.field(random)),
        _ => Some(one()),
    };
    let operands: Option<Vec<Tree>> = sorts.chars().map(operand).collect();
    Some(Tree::new(kind, &items, operands?))
}

fn misreading(label: &str, draft: &mut Draft, random: &mut Random) -> Option<()> {
    let one = || Tree::constant(1);
    let read = |v: u8| Tree::new(2, &[v], vec![]);
    let bad = |v: u8| read(v).offending(8);
    let rep = |v: u8, initial: Tree, update: Tree| Tree::new(5, &[v], vec![initial, update]);
    let v = Unused::of(draft).variables.pop();
    let new = match label {
        "8 parameter in main" => Tree::new(1, &[random.below(4) as u8], vec![]).offending(8),
        "8 parameter at its tree's count" => {
            (!draft.definitions.is_empty()).then_some(())?;
            let d = random.below(draft.definitions.len());
            let (count, body) = &mut draft.definitions[d];
            (*count < 4).then_some(())?;
            let p = random.between(usize::from(*count), 3) as u8;
            graft(body, Tree::new(1, &[p], vec![]).offending(8), random);
            return Some(());
        }
        "8 variable without a rep" => bad(v?),
        "8 variable in its own initial part" => {
            let initial = if random.chance(50) { bad(v?) } else { Tree::sum(one(), bad(v?)) };
            rep(v?, initial, read(v?))
        }
        "8 variable beside its rep" => Tree::sum(rep(v?, one(), read(v?)), bad(v?)),
        "8 variable in a definition called under the update" => {
            let d = define(draft, 0, Tree::sum(bad(v?), one()))?;
            rep(v?, one(), Tree::sum(read(v?), Tree::new(12, &[d], vec![])))
        }
        _ => unreachable!("{label} is no misreading"),
    };
    graft(&mut draft.main, new, random);
    Some(())
}

fn misuse(label: &str, draft: &mut Draft, random: &mut Random) -> Option<()> {
    let mut unused = Unused::of(draft);
    let one = || Tree::constant(1);
    let folds_by = match label {
        "9 spatial definition called twice" => return too_many_calls(2, unused.spatial(random)?, draft, random),
        "9 spatial definition called three times" => return too_many_calls(3, unused.spatial(random)?, draft, random),
        "9 spatial definition called twice: nbr-lag" => {
            return too_many_calls(2, sum(unused.of_kind(13)?), draft, random)
        }
        "9 fold by a definition with nbr" => define(draft, 2, sum(unused.of_kind(8)?))?,
        "9 fold by a definition with nbr-range" => define(draft, 2, sum(unused.of_kind(9)?))?,
        "9 fold by a definition with nbr-lag" => define(draft, 2, sum(unused.of_kind(13)?))?,
        "9 fold by a definition with rep" => define(draft, 2, unused.rep()?)?,
        "9 fold by a definition that calls a spatial one" => calling(unused.spatial(random)?, draft)?,
        "9 fold by a definition that calls one with nbr-lag" => calling(sum(unused.of_kind(13)?), draft)?,
        "9 fold by a definition without two parameters" => define(draft, random.pick(&[0, 1, 3, 4]), one())?,
        _ => unreachable!("{label} is no misuse"),
    };
    let fold = Tree::new(11, &[folds_by], vec![one(), unused.field(random)?]);
    graft(&mut draft.main, fold.offending(9), random);
    Some(())
}

/// A definition of two parameters that calls one with this body.
fn calling(body: Tree, draft: &mut Draft) -> Option<u8> {
    let called = define(draft, 0, body)?;
    define(draft, 2, Tree::new(12, &[called], vec![]))
}

/// A spatial definition called so often; every call is marked, though the lowest is right.
fn too_many_calls(times: usize, body: Tree, draft: &mut Draft, random: &mut Random) -> Option<()> {
    let mut called = define(draft, 0, body)?;
    if random.chance(50) {
        // Spatial through a call.
        called = define(draft, 0, Tree::new(12, &[called], vec![]))?;
    }
    let call = || Tree::new(12, &[called], vec![]).offending(9);
    graft(&mut draft.main, call(), random);
    for _ in 1..times {
        if random.chance(50) && draft.definitions.len() < 32 {
            define(draft, 1, call())?;
        } else {
            graft(&mut draft.main, call(), random);
        }
    }
    Some(())
}

/// The slots and variables that a tree takes.
fn collect(tree: &Tree, used: &mut (Vec<u8>, Vec<u8>)) {
    match tree.kind {
        kind if takes_slot(kind) => used.0.push(tree.items[0]),
        2 | 5 => used.1.push(tree.items[0]),
        _ => {}
    }
    for child in &tree.children {
        collect(child, used);
    }
}

/// Puts faults of the trees into a draft, one or several; none where it has no room for them.
fn with_tree_faults(mut draft: Draft, faults: usize, random: &mut Random) -> Option<Broken> {
    let mut chosen: Vec<(&'static str, u32)> = tree_faults().collect();
    random.shuffle(&mut chosen);
    chosen.truncate(faults);
    // A main that is a field must stay main: this one goes last.
    chosen.sort_by_key(|(label, _)| label.starts_with("7 main is a field"));
    for (label, number) in &chosen {
        tree_fault(label, *number, &mut draft, random)?;
    }
    (draft.size() <= 256).then_some(())?;
    let written = any_order(&draft, random);
    let number = chosen.iter().map(|(_, number)| *number).min()?;
    let mut places: Vec<usize> =
        written.offending.iter().filter(|(row, _)| *row == number).map(|(_, node)| *node).collect();
    places.sort();
    let (label, place) = match chosen[..] {
        // However many calls there are, the second lowest is the lowest that offends.
        [(label, _)] if label.starts_with("9 spatial definition called") => (label, places[1]),
        [(label, _)] => (label, places[0]),
        _ => ("7-9 several faults of the trees", places[0]),
    };
    // Among several faults one of sort may mend another (two branches become fields), and all calls of a spatial
    // definition are marked: the place is left open.
    let open = chosen.len() > 1 && number != 8;
    Some(Broken { label, program: bytes(&written.fields), expected: Some((number, (!open).then_some(place))) })
}

fn in_the_trees(faults: usize, random: &mut Random) -> Broken {
    loop {
        let any = Shape::any(random);
        let shape = Shape { nodes: any.nodes.min(200), spare: 5, ..any };
        if let Some(broken) = with_tree_faults(grow::accepted(shape, random), faults, random) {
            return broken;
        }
    }
}

/// One fault of the trees in a program that costs too much: the fault's row comes first.
fn in_dear_trees(random: &mut Random) -> Broken {
    loop {
        let cost = random.near(1_000_001, 3_000_000) as u64;
        // An nbr-lag in place of main leaves nothing that costs.
        let dear = |broken: &Broken| broken.label != "7 main is a field: nbr-lag";
        if let Some(broken) = with_tree_faults(grow::costing(cost, random), 1, random).filter(dear) {
            let label = match broken.expected {
                Some((7, _)) => "7 with 10",
                Some((8, _)) => "8 with 10",
                _ => "9 with 10",
            };
            return Broken { label, ..broken };
        }
    }
}

fn too_dear(random: &mut Random) -> Broken {
    // A cost held in so many bits would wrap to a small one.
    let wraps = |bits: u32, random: &mut Random| {
        let more = random.near(1, 1_000_000) as u64;
        grow::costing_bits(bits, more, random)
    };
    let (label, draft) = match random.below(7) {
        0 => ("10 cost 1,000,001", grow::costing(1_000_001, random)),
        1 => {
            let cost = random.between(1_000_001, 3_000_000) as u64;
            ("10 cost above 1,000,000", grow::costing(cost, random))
        }
        2 => {
            let levels = random.between(22, 32);
            let main = Tree::new(12, &[levels as u8 - 1], vec![]);
            ("10 tower of definitions", Draft { definitions: grow::tower(levels), main, orphans: vec![] })
        }
        3 => ("10 cost just above 2^31", wraps(31, random)),
        4 => ("10 cost just above 2^32", wraps(32, random)),
        5 => ("10 cost just above 2^33", wraps(33, random)),
        _ => ("10 cost just above 2^64", grow::costing_64_bits(random.between(1, 30))),
    };
    Broken { label, program: bytes(&any_order(&draft, random).fields), expected: Some((10, Some(0))) }
}

/// A program with a known fault.
pub fn labelled(random: &mut Random) -> Broken {
    match random.below(100) {
        0..=49 => in_a_field(random),
        50..=55 => too_many(random),
        56..=63 => table_end(random),
        64..=85 => in_the_trees(1, random),
        86..=88 => in_dear_trees(random),
        89..=94 => {
            let faults = random.between(2, 3);
            in_the_trees(faults, random)
        }
        _ => too_dear(random),
    }
}

/// A program spoiled without a plan; often refused, sometimes not.
pub fn spoiled(random: &mut Random) -> Broken {
    let shape = Shape { nodes: random.between(1, 40), ..Shape::any(random) };
    let draft = grow::accepted(shape, random);
    let mut fields = any_order(&draft, random).fields;
    let mut program = bytes(&fields);
    let label = match random.below(5) {
        0 => {
            program.truncate(random.below(program.len()));
            "spoiled: truncated"
        }
        1 => {
            for _ in 0..random.between(1, 4) {
                let at = random.below(program.len());
                program[at] ^= 1 << random.below(8);
            }
            "spoiled: bits flipped"
        }
        2 => {
            // One byte of a body, to a small number or a near one.
            let at = random.below(fields.len());
            let field = &mut fields[at];
            let byte = random.below(field.body.len());
            field.body[byte] = match random.below(3) {
                0 => random.byte() % 18,
                1 => field.body[byte].wrapping_add(1),
                _ => field.body[byte].wrapping_sub(1),
            };
            program = bytes(&fields);
            "spoiled: one byte of a body"
        }
        3 => {
            let at = random.below(fields.len());
            match random.below(3) {
                0 => {
                    fields.remove(at);
                }
                1 => fields.insert(at, fields[random.below(fields.len())].clone()),
                _ => {
                    let other = random.below(fields.len());
                    fields.swap(at, other);
                }
            }
            program = bytes(&fields);
            "spoiled: fields moved"
        }
        _ => {
            let length = random.below(40);
            program = (0..length).map(|_| random.byte() % 15).collect();
            "spoiled: noise"
        }
    };
    Broken { label, program, expected: None }
}
