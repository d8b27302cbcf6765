//! What an answer stands for: 01's rows 14 to 17 by event and by what is wrong.

use crate::table::{split, takes_slot};

/// Every label of an answer.
pub const LABELS: [&str; 33] = [
    "0 fire",
    "0 deliver",
    "0 lose",
    "0 link",
    "0 link ended",
    "0 signal lit",
    "0 signal unlit",
    "14 fire: device",
    "14 deliver: first device",
    "14 deliver: second device",
    "14 deliver: several items",
    "14 lose: first device",
    "14 lose: second device",
    "14 lose: several items",
    "14 link: first device",
    "14 link: second device",
    "14 link: distance below 0",
    "14 link: distance above 1,000,000",
    "14 link: several items",
    "14 signal: device",
    "14 signal: sensor",
    "14 signal: switch",
    "14 signal: several items",
    "15 deliver",
    "15 lose",
    "15 link",
    "16 deliver",
    "16 lose",
    "17 number by number",
    "17 field by number",
    "17 number by field",
    "17 field by field",
    "17 fold",
];

/// The label of an answer without a reason in its event or program; no right answer has it.
pub const UNFOUNDED: &str = "unfounded";

/// The label of the answer to an event of a list that was read.
pub fn label(program: &[u8], event: &[u8], answer: [i32; 2]) -> &'static str {
    match (answer[0], event) {
        (0, [0x10, ..]) => "0 fire",
        (0, [0x11, ..]) => "0 deliver",
        (0, [0x12, ..]) => "0 lose",
        (0, [0x13, .., 0x80, 0, 0, 0]) => "0 link ended",
        (0, [0x13, ..]) => "0 link",
        (0, [0x14, .., 1]) => "0 signal lit",
        (0, [0x14, .., 0]) => "0 signal unlit",
        (14, _) => out_of_range(event),
        (15, [0x11, _, _, a, b]) if a == b => "15 deliver",
        (15, [0x12, _, _, a, b]) if a == b => "15 lose",
        (15, [0x13, _, _, a, b, ..]) if a == b => "15 link",
        (16, [0x11, ..]) => "16 deliver",
        (16, [0x12, ..]) => "16 lose",
        (17, [0x10, ..]) => division(program, answer[1]),
        _ => UNFOUNDED,
    }
}

/// Which item of an event is out of range.
fn out_of_range(event: &[u8]) -> &'static str {
    let out = |device: &u8| !(1..=16).contains(device);
    let (several, items) = match event {
        [0x10, _, _, a] => (UNFOUNDED, vec![(out(a), "14 fire: device")]),
        [0x11, _, _, a, b] => (
            "14 deliver: several items",
            vec![(out(a), "14 deliver: first device"), (out(b), "14 deliver: second device")],
        ),
        [0x12, _, _, a, b] => {
            ("14 lose: several items", vec![(out(a), "14 lose: first device"), (out(b), "14 lose: second device")])
        }
        [0x13, _, _, a, b, d3, d2, d1, d0] => {
            let distance = i32::from_be_bytes([*d3, *d2, *d1, *d0]);
            let below = distance < 0 && distance != i32::MIN;
            let items = vec![
                (out(a), "14 link: first device"),
                (out(b), "14 link: second device"),
                (below, "14 link: distance below 0"),
                (distance > 1_000_000, "14 link: distance above 1,000,000"),
            ];
            ("14 link: several items", items)
        }
        [0x14, _, _, a, sensor, switch] => {
            let (sensor, switch) = ((*sensor > 15, "14 signal: sensor"), (*switch > 1, "14 signal: switch"));
            ("14 signal: several items", vec![(out(a), "14 signal: device"), sensor, switch])
        }
        _ => (UNFOUNDED, vec![]),
    };
    let wrong: Vec<&'static str> = items.into_iter().filter(|(wrong, _)| *wrong).map(|(_, item)| item).collect();
    match wrong[..] {
        [] => UNFOUNDED,
        [item] => item,
        _ => several,
    }
}

/// What the node divided that answered 17.
fn division(program: &[u8], node: i32) -> &'static str {
    // Of the nodes so far, whether each is a field.
    let mut fields: Vec<bool> = vec![];
    let nodes: Vec<&[u8]> = split(program).into_iter().filter(|field| field[0] == 1).map(|field| &field[3..]).collect();
    for body in &nodes {
        let is_field = |child: &u8| fields[usize::from(*child)];
        let field = match body {
            [kind, ..] if takes_slot(*kind) => true,
            [3, _, left, right] => is_field(left) || is_field(right),
            [6, _, then, _] => is_field(then),
            _ => false,
        };
        fields.push(field);
    }
    match usize::try_from(node).ok().and_then(|node| nodes.get(node)) {
        Some([3, 3, left, right]) => match (fields[usize::from(*left)], fields[usize::from(*right)]) {
            (false, false) => "17 number by number",
            (true, false) => "17 field by number",
            (false, true) => "17 number by field",
            (true, true) => "17 field by field",
        },
        Some([10, 3, ..]) => "17 fold",
        _ => UNFOUNDED,
    }
}

#[cfg(test)]
mod tests {
    use super::*;
    use crate::events::{deliver, fire, link, lose, signal};
    use crate::random::Random;
    use crate::table::{bytes, write, Draft, Tree};

    #[test]
    fn items_out_of_range() {
        for (event, expected) in [
            (fire(17), "14 fire: device"),
            (fire(16), UNFOUNDED),
            (deliver(0, 1), "14 deliver: first device"),
            (lose(1, 17), "14 lose: second device"),
            (lose(0, 17), "14 lose: several items"),
            (link(1, 2, -1), "14 link: distance below 0"),
            (link(1, 2, 1_000_001), "14 link: distance above 1,000,000"),
            (link(1, 2, i32::MIN), UNFOUNDED),
            (link(0, 2, i32::MAX), "14 link: several items"),
            (signal(1, 16, 1), "14 signal: sensor"),
            (signal(1, 15, 2), "14 signal: switch"),
            (signal(1, 15, 1), UNFOUNDED),
        ] {
            assert_eq!(label(&[], &event, [14, 0]), expected, "{event:?}");
        }
        assert_eq!(label(&[], &lose(3, 3), [15, 0]), "15 lose");
        assert_eq!(label(&[], &lose(3, 4), [15, 0]), UNFOUNDED);
        assert_eq!(label(&[], &fire(3), [16, 0]), UNFOUNDED);
    }

    #[test]
    fn divisions() {
        let one = || Tree::constant(1);
        let range = |slot: u8| Tree::new(9, &[slot], vec![]);
        let lag = |slot: u8| Tree::new(13, &[slot], vec![]);
        let by = |left: Tree, right: Tree| Tree::new(3, &[3], vec![left, right]);
        let fold = |operator: u8, field: Tree| Tree::new(10, &[operator], vec![one(), field]);
        for (main, node, expected) in [
            (by(one(), one()), 2, "17 number by number"),
            (by(one(), one()), 1, UNFOUNDED),
            (by(one(), one()), 3, UNFOUNDED),
            (fold(0, by(range(1), one())), 3, "17 field by number"),
            (fold(0, by(one(), range(1))), 3, "17 number by field"),
            (fold(0, by(lag(1), one())), 3, "17 field by number"),
            (fold(0, by(range(1), Tree::new(6, &[], vec![one(), lag(2), range(3)]))), 6, "17 field by field"),
            (fold(3, range(1)), 2, "17 fold"),
            (fold(2, range(1)), 2, UNFOUNDED),
        ] {
            let draft = Draft { definitions: vec![], main, orphans: vec![] };
            let program = bytes(&write(&draft, true, &mut Random::new(0, 0)).fields);
            assert_eq!(label(&program, &fire(1), [17, node]), expected);
        }
    }
}
