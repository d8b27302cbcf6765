//! Each refusal with each case that 01's table names, and its place.
mod common;
use common::*;
use second::check;

/// A whole program of one node, for what needs no more.
fn seven() -> Vec<u8> {
    let mut t = Table::new();
    let seven = t.constant(7);
    t.main(seven)
}

/// Two constants, then this field.
fn after_two(tag: u8, body: &[u8]) -> (u32, usize) {
    let mut t = Table::new();
    t.constant(0);
    t.constant(0);
    t.field(tag, body);
    check(&t.bytes)
}

const BODIES: [&[u8]; 14] = [
    &[0, 0, 0, 0, 7],
    &[1, 0],
    &[2, 0],
    &[3, 0, 0, 1],
    &[4, 0],
    &[5, 0, 0, 1],
    &[6, 0, 1, 2],
    &[7, 0, 1, 2],
    &[8, 1, 0],
    &[9, 1],
    &[10, 0, 0, 1],
    &[11, 0, 0, 1],
    &[12, 0],
    &[13, 1],
];

#[test]
fn refusal_1_cut_short() {
    let program = seven();
    for length in 1..program.len() {
        let (number, place) = check(&program[..length]);
        match length {
            8 => assert_eq!((number, place), (6, 0), "whole fields, no main"),
            _ => assert_eq!((number, place), (1, length / 8)),
        }
    }
}

#[test]
fn refusal_1_unknown_tag() {
    for tag in [0, 4, 5, 0x10, 0x80, 255] {
        assert_eq!(after_two(tag, &[0, 0, 0, 0, 7]), (1, 2));
    }
}

#[test]
fn refusal_1_no_kind_byte() {
    assert_eq!(after_two(1, &[]), (1, 2));
}

#[test]
fn refusal_1_wrong_length() {
    for body in BODIES {
        if body[0] == 12 {
            continue;
        }
        for length in 1..body.len() {
            assert_eq!(after_two(1, &body[..length]), (1, 2), "{body:?} cut to {length}");
        }
        let longer = [body, &[0]].concat();
        assert_eq!(after_two(1, &longer), (1, 2), "{longer:?}");
    }
    for body in [&[][..], &[0], &[0, 1, 1]] {
        assert_eq!(after_two(2, body), (1, 2));
    }
    for body in [&[][..], &[0, 1]] {
        assert_eq!(after_two(3, body), (1, 2));
    }
}

#[test]
fn refusal_1_and_4_length_of_a_call() {
    // Definition 0 takes two parameters.
    let start = || {
        let mut t = Table::new();
        let body = t.constant(0);
        t.define(2, body);
        t.constant(1);
        t.constant(2);
        t
    };
    for (body, expected) in [
        (&[12][..], (1, 4)),
        (&[12, 1], (4, 4)),
        (&[12, 1, 1, 2, 9, 9], (4, 4)),
        (&[12, 0], (1, 4)),
        (&[12, 0, 1], (1, 4)),
        (&[12, 0, 1, 2, 2], (1, 4)),
        (&[12, 0, 1, 3], (4, 4)),
        (&[12, 0, 1, 1], (5, 4)),
        (&[11, 1], (1, 4)),
        (&[11, 1, 1, 2], (4, 4)),
    ] {
        let mut t = start();
        t.field(1, body);
        assert_eq!(check(&t.bytes), expected, "{body:?}");
    }
}

#[test]
fn refusal_2_257th_node() {
    // A constant under 255 senses fills the table: 256 nodes pass.
    let chain = |nodes: usize| {
        let mut t = Table::new();
        let mut last = t.constant(0);
        while t.nodes < nodes {
            last = t.node(&[4, last]);
        }
        (t, last)
    };
    let (mut t, last) = chain(256);
    assert_eq!(check(&t.clone().main(last)), (0, 0));
    t.node(&[4, last]);
    assert_eq!(check(&t.bytes), (2, 256));
    for body in [&[13][..], &[13, 0], &[13, 1], &[14], &[255, 1, 2], &[0], &[4, 255]] {
        let (mut t, _) = chain(256);
        t.field(1, body);
        assert_eq!(check(&t.bytes), (2, 256), "the 257th comes before {body:?}");
    }
    let (mut t, _) = chain(256);
    t.field(1, &[]);
    assert_eq!(check(&t.bytes), (1, 256));
}

#[test]
fn refusal_2_33rd_definition() {
    let definitions = |count: usize| {
        let mut t = Table::new();
        for _ in 0..count {
            let body = t.constant(1);
            t.define(4, body);
        }
        t
    };
    let mut t = definitions(32);
    let main = t.constant(5);
    assert_eq!(check(&t.main(main)), (0, 0));
    for body in [&[][..], &[0, 32], &[9, 99], &[0, 0]] {
        let mut t = definitions(32);
        t.constant(3);
        t.field(2, body);
        assert_eq!(check(&t.bytes), (2, 65));
    }
}

#[test]
fn refusal_3_ranges() {
    for kind in [14, 15, 255] {
        assert_eq!(after_two(1, &[kind]), (3, 2), "unknown kind");
        assert_eq!(after_two(1, &[kind, 0, 0, 0, 0, 0, 0]), (3, 2), "unknown kind");
    }
    for body in [
        &[0, 0x80, 0, 0, 0][..],
        &[1, 4],
        &[2, 16],
        &[3, 9, 0, 1],
        &[5, 16, 0, 1],
        &[8, 0, 0],
        &[8, 16, 0],
        &[9, 0],
        &[9, 16],
        &[13, 0],
        &[13, 16],
        &[13, 255],
        &[10, 9, 0, 1],
        // Range comes before naming and taken.
        &[3, 9, 7, 7],
        &[8, 16, 200],
    ] {
        assert_eq!(after_two(1, body), (3, 2), "{body:?}");
    }
    assert_eq!(after_two(2, &[5, 0]), (3, 2), "parameter count");
    assert_eq!(after_two(2, &[5, 9]), (3, 2), "parameter count before naming");
}

#[test]
fn refusal_3_edges_pass() {
    let mut t = Table::new();
    let p = t.parameter(3);
    t.define(4, p);
    let floor = t.constant(FLOOR);
    let x = t.variable(15);
    let compared = t.node(&[3, 8, x, floor]);
    let inf = t.constant(INF);
    let rep = t.node(&[5, 15, inf, compared]);
    let nbr = t.node(&[8, 15, rep]);
    let range = t.range(1);
    let both = t.node(&[3, 8, nbr, range]);
    let start = t.constant(0);
    let fold = t.node(&[10, 8, start, both]);
    assert_eq!(check(&t.main(fold)), (0, 0));
}

#[test]
fn refusal_4_not_yet_given() {
    for body in [
        &[3, 0, 2, 1][..],
        &[3, 0, 0, 2],
        &[4, 2],
        &[4, 255],
        &[5, 0, 2, 0],
        &[5, 0, 0, 2],
        &[6, 2, 0, 1],
        &[6, 0, 2, 1],
        &[6, 0, 1, 2],
        &[7, 2, 0, 1],
        &[7, 0, 2, 1],
        &[7, 0, 1, 2],
        &[8, 1, 2],
        &[10, 0, 2, 1],
        &[10, 0, 0, 2],
        &[11, 0, 0, 1],
        &[12, 0],
        // Naming comes before taken.
        &[3, 0, 2, 2],
        &[6, 0, 0, 9],
    ] {
        assert_eq!(after_two(1, body), (4, 2), "{body:?}");
    }
    assert_eq!(after_two(2, &[0, 2]), (4, 2));
    assert_eq!(after_two(3, &[2]), (4, 2));
}

#[test]
fn refusal_5_taken() {
    // Node 0 is taken by node 2; slot 1 and variable 1 by nodes 4 and 7.
    let start = || {
        let mut t = Table::new();
        let child = t.constant(0);
        t.constant(0);
        t.node(&[4, child]);
        let child = t.constant(0);
        t.node(&[8, 1, child]);
        let initial = t.constant(0);
        let update = t.constant(0);
        t.node(&[5, 1, initial, update]);
        t
    };
    for body in [
        &[3, 0, 0, 1][..],
        &[3, 0, 1, 0],
        &[3, 0, 1, 1],
        &[4, 0],
        &[5, 2, 0, 1],
        &[5, 2, 1, 0],
        &[5, 2, 1, 1],
        &[5, 1, 1, 2],
        &[6, 0, 1, 2],
        &[6, 1, 0, 2],
        &[6, 1, 2, 0],
        &[6, 1, 2, 1],
        &[7, 0, 1, 2],
        &[7, 1, 1, 2],
        &[8, 1, 1],
        &[8, 2, 0],
        &[9, 1],
        &[13, 1],
        &[10, 0, 0, 1],
        &[10, 0, 1, 0],
    ] {
        let mut t = start();
        t.field(1, body);
        assert_eq!(check(&t.bytes), (5, 8), "{body:?}");
    }
    for (tag, body) in [(2, &[0, 0][..]), (3, &[0])] {
        let mut t = start();
        t.field(tag, body);
        assert_eq!(check(&t.bytes), (5, 8));
    }
}

#[test]
fn refusal_6_table_end() {
    assert_eq!(check(&[]), (6, 0), "no main");
    let mut t = Table::new();
    t.constant(1);
    assert_eq!(check(&t.bytes), (6, 0), "no main");
    for tail in [&[0][..], &[1], &[3, 0, 1, 0], &[1, 0, 5, 0, 0, 0, 0, 0], &[9, 9, 9, 9]] {
        assert_eq!(check(&[&seven()[..], tail].concat()), (6, 0), "bytes after main");
    }
    let mut t = Table::new();
    t.constant(1);
    let main = t.constant(1);
    assert_eq!(check(&t.main(main)), (6, 0), "node unnamed");
}

#[test]
fn refusal_7_sorts() {
    // One field is node 0, of this kind, one number node 1; `body` names them.
    let offends = |kind: u8, body: &[u8]| {
        let mut t = Table::new();
        let field = t.node(&[kind, 15]);
        let number = t.constant(1);
        let extra = t.constant(2);
        assert_eq!((field, number, extra), (0, 1, 2));
        let p = t.parameter(0);
        t.define(2, p);
        let node = t.node(body);
        // Whatever is left over is joined with operators, whose sides may be fields.
        let mut left: Vec<u8> = (0..3).filter(|n| !body[1..].contains(n)).collect();
        left.push(node);
        while left.len() > 1 {
            let r = left.pop().unwrap();
            let l = left.pop().unwrap();
            left.push(t.node(&[3, 0, l, r]));
        }
        (check(&t.main(left[0])), usize::from(node))
    };
    for body in [
        &[4, 0][..],
        &[5, 9, 0, 1],
        &[5, 9, 1, 0],
        &[6, 0, 1, 2],
        &[6, 1, 0, 2],
        &[6, 1, 2, 0],
        &[7, 0, 1, 2],
        &[7, 1, 0, 2],
        &[7, 1, 2, 0],
        &[8, 14, 0],
        &[10, 8, 0, 1],
        &[10, 8, 1, 2],
        &[12, 0, 0, 1],
        &[12, 0, 1, 0],
    ] {
        for kind in [9, 13] {
            let (outcome, node) = offends(kind, body);
            assert_eq!(outcome, (7, node), "{body:?}, kind {kind}");
        }
    }
}

#[test]
fn refusal_7_fold_by_definition_and_bodies() {
    for (swap, expected) in [(false, (0, 0)), (true, (7, 4))] {
        let mut t = Table::new();
        let p = t.parameter(0);
        let min = t.define(2, p);
        let field = t.range(1);
        let child = t.constant(4);
        let other = t.node(&[4, child]);
        let (initial, third) = if swap { (field, other) } else { (other, field) };
        let fold = t.node(&[11, min, initial, third]);
        assert_eq!(check(&t.main(fold)), expected);
    }
    let mut t = Table::new();
    let range = t.range(1);
    assert_eq!(check(&t.main(range)), (7, 0), "main is a field");
    let mut t = Table::new();
    let one = t.constant(1);
    let range = t.range(1);
    let sum = t.node(&[3, 0, one, range]);
    t.define(0, sum);
    let main = t.constant(0);
    assert_eq!(check(&t.main(main)), (7, 2), "a body is a field");
    let mut t = Table::new();
    let condition = t.constant(1);
    let range = t.range(1);
    let other = t.range(2);
    let choice = t.node(&[6, condition, range, other]);
    let zero = t.constant(0);
    let fold = t.node(&[10, 0, zero, choice]);
    assert_eq!(check(&t.main(fold)), (0, 0), "an if of two fields is a field");
}

#[test]
fn refusal_8_parameters() {
    let mut t = Table::new();
    let zero = t.constant(0);
    let p = t.parameter(0);
    let sum = t.node(&[3, 0, zero, p]);
    assert_eq!(check(&t.main(sum)), (8, 1), "main has none");
    for (count, expected) in [(0, (8, 0)), (1, (8, 0)), (2, (8, 0)), (3, (0, 0)), (4, (0, 0))] {
        let mut t = Table::new();
        let p = t.parameter(2);
        t.define(count, p);
        let main = t.constant(0);
        assert_eq!(check(&t.main(main)), expected, "not below {count}");
    }
}

#[test]
fn refusal_8_variables() {
    // (rep x 0 x)
    let mut t = Table::new();
    let zero = t.constant(0);
    let x = t.variable(3);
    let rep = t.node(&[5, 3, zero, x]);
    assert_eq!(check(&t.main(rep)), (0, 0));
    // x in its own initial part
    let mut t = Table::new();
    let zero = t.constant(0);
    let x = t.variable(3);
    let rep = t.node(&[5, 3, x, zero]);
    assert_eq!(check(&t.main(rep)), (8, 1));
    // x in the initial part of another rep inside the update
    let mut t = Table::new();
    let zero = t.constant(0);
    let x = t.variable(3);
    let y = t.variable(4);
    let inner = t.node(&[5, 4, x, y]);
    let rep = t.node(&[5, 3, zero, inner]);
    assert_eq!(check(&t.main(rep)), (0, 0));
    // x in a definition called under the update
    let mut t = Table::new();
    let x = t.variable(3);
    let d = t.define(0, x);
    let call = t.node(&[12, d]);
    let zero = t.constant(0);
    let rep = t.node(&[5, 3, zero, call]);
    assert_eq!(check(&t.main(rep)), (8, 0));
    // x beside its rep, and with no rep at all
    let mut t = Table::new();
    let rep = t.counter(3);
    let x = t.variable(3);
    let sum = t.node(&[3, 0, rep, x]);
    assert_eq!(check(&t.main(sum)), (8, 5));
    let mut t = Table::new();
    let x = t.variable(3);
    assert_eq!(check(&t.main(x)), (8, 0));
}

#[test]
fn refusal_9_uses() {
    // A spatial definition called twice: the higher node, by number and not by tree.
    for spatial in [true, false] {
        let mut t = Table::new();
        let body = if spatial { t.counter(0) } else { t.constant(0) };
        let d = t.define(0, body);
        let first = t.node(&[12, d]);
        let second = t.node(&[12, d]);
        t.define(0, second);
        let expected = if spatial { (9, usize::from(second)) } else { (0, 0) };
        assert_eq!(check(&t.main(first)), expected);
    }
    // Spatial through a call.
    let mut t = Table::new();
    let body = t.counter(0);
    let inner = t.define(0, body);
    let call = t.node(&[12, inner]);
    let outer = t.define(0, call);
    let first = t.node(&[12, outer]);
    let second = t.node(&[12, outer]);
    let sum = t.node(&[3, 0, first, second]);
    assert_eq!(check(&t.main(sum)), (9, usize::from(second)));
    // Folds by a spatial definition and by those without two parameters.
    for (parameters, spatial, accepted) in
        [(0, false, false), (1, false, false), (2, false, true), (3, false, false), (4, false, false), (2, true, false)]
    {
        let mut t = Table::new();
        let body = if spatial { t.counter(0) } else { t.constant(0) };
        let d = t.define(parameters, body);
        let zero = t.constant(0);
        let range = t.range(1);
        let fold = t.node(&[11, d, zero, range]);
        let expected = if accepted { (0, 0) } else { (9, usize::from(fold)) };
        assert_eq!(check(&t.main(fold)), expected);
    }
}

/// Definitions that double: body i calls the one before twice.
fn tower(levels: usize) -> (Table, u8) {
    let mut t = Table::new();
    let one = t.constant(1);
    let mut d = t.define(0, one);
    for _ in 1..levels {
        let l = t.node(&[12, d]);
        let r = t.node(&[12, d]);
        let sum = t.node(&[3, 0, l, r]);
        d = t.define(0, sum);
    }
    (t, d)
}

/// A node that costs exactly this, from calls of the tower's levels; level n costs 2^(n+2) - 3.
fn spend(t: &mut Table, top: u8, cost: u32) -> u8 {
    let mut node = t.constant(0);
    let mut spent = 1;
    for level in (0..=top).rev() {
        // A call under an operator costs the body, itself and the operator.
        let step = (1 << (level + 2)) - 1;
        while spent + step <= cost {
            let call = t.node(&[12, level]);
            node = t.node(&[3, 0, node, call]);
            spent += step;
        }
    }
    while spent < cost {
        node = t.node(&[4, node]);
        spent += 1;
    }
    node
}

#[test]
fn refusal_10_cost() {
    let (mut t, d) = tower(32);
    let call = t.node(&[12, d]);
    assert_eq!(check(&t.main(call)), (10, 0), "a tower of 32");
    let (mut t, _) = tower(32);
    let main = t.constant(0);
    assert_eq!(check(&t.main(main)), (0, 0), "only main's cost counts");
    for (cost, expected) in [(1_000_000, (0, 0)), (1_000_001, (10, 0))] {
        let (mut t, top) = tower(19);
        let main = spend(&mut t, top, cost);
        assert_eq!(check(&t.main(main)), expected);
    }
}

#[test]
fn refusal_10_folds_count_fifteen_times() {
    // 15 times 66,666 and the fold with its two operands, one of them nbr-range or nbr-lag, make 999,993.
    for (kind, more, expected) in [(9, 7, (0, 0)), (9, 8, (10, 0)), (13, 7, (0, 0)), (13, 8, (10, 0))] {
        let (mut t, top) = tower(15);
        let body = spend(&mut t, top, 66_666);
        let d = t.define(2, body);
        let zero = t.constant(0);
        let field = t.node(&[kind, 1]);
        let mut main = t.node(&[11, d, zero, field]);
        for _ in 0..more {
            main = t.node(&[4, main]);
        }
        assert_eq!(check(&t.main(main)), expected);
    }
}

#[test]
fn rows_7_to_10_go_in_order() {
    // A parameter in main is node 0, the broken sort comes later: 7 goes first.
    let mut t = Table::new();
    let p = t.parameter(0);
    let range = t.range(1);
    let sense = t.node(&[4, range]);
    let sum = t.node(&[3, 0, p, sense]);
    assert_eq!(check(&t.main(sum)), (7, 2));
    // A second call is node 4, the parameter after it: 8 goes first.
    let mut t = Table::new();
    let body = t.range(1);
    let zero = t.constant(0);
    let fold = t.node(&[10, 0, zero, body]);
    let d = t.define(0, fold);
    let one = t.node(&[12, d]);
    let two = t.node(&[12, d]);
    let sum = t.node(&[3, 0, one, two]);
    let p = t.parameter(0);
    let all = t.node(&[3, 0, sum, p]);
    assert_eq!(check(&t.main(all)), (8, usize::from(p)));
}

/// Calls run and event with one fire, and sees that a refusal changed nothing.
fn refused_on(program: &[u8], network: &[i32], list: &[u8], space: usize) -> [(u32, usize); 2] {
    [second::run, second::event].map(|call| {
        let mut cells = network.to_vec();
        let mut answers = vec![77; space];
        let outcome = call(program, &mut cells, list, &mut answers);
        if outcome != (0, 0) {
            assert!(cells == network, "a refusal changed the network");
            assert_eq!(answers, vec![77; space], "a refusal changed the answers");
        }
        outcome
    })
}

#[test]
fn refusal_11_wrong_length() {
    // A network without ages had 8,464 cells.
    for length in [0, 1, 8_464, CELLS - 1, CELLS + 1, CELLS + 16] {
        let mut network = vec![5; length];
        assert_eq!(second::fresh(&mut network), (11, 0));
        assert_eq!(network, vec![5; length]);
        assert_eq!(refused_on(&seven(), &vec![ABSENT; length], &fire(1), 2), [(11, 0); 2]);
    }
}

#[test]
fn refusal_11_network() {
    let spoil = |place: usize, number: i32| {
        let mut network = fresh();
        network[place] = number;
        refused_on(&seven(), &network, &fire(1), 2)
    };
    for (place, good, bad) in [
        (block(3) + 16, &[1, 65_535][..], &[-1, 65_536, ABSENT][..]),
        (heard_cell(2, 9, 0), &[0, 1_000_000], &[-1, 1_000_001, FLOOR]),
        (pending_cell(16, 9, 0), &[1], &[2, -1, ABSENT]),
        (pending_cell(2, 9, 1), &[], &[0, 1, FLOOR]),
        (pending_cell(2, 16, 15), &[], &[0]),
        (heard_cell(2, 2, 0), &[], &[0, 5]),
        (heard_cell(2, 2, 15), &[], &[0]),
        (pending_cell(2, 2, 0), &[], &[1, 2, ABSENT]),
        (pending_cell(16, 16, 15), &[], &[0]),
        (age_cell(2, 9), &[0, 1, 2], &[3, 4, -1, FLOOR, INF, 1_000_000]),
        (age_cell(16, 1), &[0, 1, 2], &[3, -1]),
        (age_cell(1, 16), &[0, 1, 2], &[3, -1]),
        (age_cell(2, 2), &[], &[0, 1, 2, 3, -1]),
        (age_cell(16, 16), &[], &[0]),
        (variable_cell(2, 15), &[0, FLOOR, INF], &[]),
    ] {
        for number in good {
            assert_eq!(spoil(place, *number), [(0, 0); 2], "cell {place} = {number}");
        }
        for number in bad {
            assert_eq!(spoil(place, *number), [(11, place); 2], "cell {place} = {number}");
        }
    }
    let mut network = fresh();
    let lowest = pending_cell(8, 9, 7);
    for place in [variable_cell(2, 2), lowest, age_cell(8, 9), block(9) + 16, age_cell(16, 16)] {
        network[place] = 70_000_000;
    }
    assert_eq!(refused_on(&seven(), &network, &fire(1), 2), [(11, lowest); 2], "the lowest");
    let mut network = fresh();
    network[pending_cell(1, 1, 0)] = 1;
    network[pending_cell(1, 1, 3)] = 1;
    assert_eq!(refused_on(&seven(), &network, &fire(1), 2), [(11, pending_cell(1, 1, 0)); 2]);
}

#[test]
fn refusal_11_a_slot_heard_asks_for_an_age() {
    let outcome = |network: &[i32]| refused_on(&seven(), network, &fire(1), 2);
    for (a, b) in [(1, 2), (2, 1), (2, 9), (16, 15), (15, 16)] {
        for slot in 1..=15 {
            for number in [0, FLOOR, INF] {
                let mut network = fresh();
                network[heard_cell(a, b, slot)] = number;
                assert_eq!(outcome(&network), [(11, age_cell(a, b)); 2], "the age's cell, not the slot's");
                for age in 0..=2 {
                    network[age_cell(a, b)] = age;
                    assert_eq!(outcome(&network), [(0, 0); 2], "{number} heard in slot {slot}, age {age}");
                }
                network[age_cell(a, b)] = 3;
                assert_eq!(outcome(&network), [(11, age_cell(a, b)); 2]);
            }
        }
    }
    // A distance asks for none, nor does an age ask for a slot.
    let mut network = fresh();
    network[heard_cell(2, 9, 0)] = 0;
    network[age_cell(2, 10)] = 2;
    assert_eq!(outcome(&network), [(0, 0); 2]);
    // A slot of its own row offends itself, before the age that is missing beside it.
    let mut network = fresh();
    network[heard_cell(2, 2, 1)] = 0;
    assert_eq!(outcome(&network), [(11, heard_cell(2, 2, 1)); 2]);
}

#[test]
fn refusal_11_ages_stand_behind_the_pending_cells() {
    let mut network = fresh();
    let mut expect = |place: usize, number: i32, lowest: usize| {
        network[place] = number;
        assert_eq!(refused_on(&seven(), &network, &fire(1), 2), [(11, lowest); 2], "cell {place} = {number}");
    };
    // Each cell stands before those that were broken so far, but for those with another named.
    expect(block(4) + 16, -1, block(4) + 16);
    expect(age_cell(3, 16), 3, age_cell(3, 16));
    expect(heard_cell(3, 9, 15), 7, age_cell(3, 9));
    expect(heard_cell(3, 8, 1), 7, age_cell(3, 8));
    expect(age_cell(3, 2), INF, age_cell(3, 2));
    expect(age_cell(3, 3), 0, age_cell(3, 2));
    expect(pending_cell(3, 16, 15), 5, pending_cell(3, 16, 15));
    expect(pending_cell(3, 16, 0), 2, pending_cell(3, 16, 0));
    expect(age_cell(3, 1), -1, pending_cell(3, 16, 0));
    expect(age_cell(2, 16), FLOOR, age_cell(2, 16));
}

#[test]
fn refusal_12_list() {
    let bad = [
        vec![0x0f, 0, 1, 1],
        vec![0x15, 0, 1, 1],
        vec![0x10, 0, 0],
        vec![0x10, 0, 2, 1, 1],
        vec![0x11, 0, 1, 1],
        vec![0x11, 0, 3, 1, 2, 3],
        vec![0x12, 0, 1, 1],
        vec![0x13, 0, 5, 1, 2, 0, 0, 0],
        vec![0x13, 0, 7, 1, 2, 0, 0, 0, 0, 0],
        vec![0x14, 0, 2, 1, 1],
        vec![0x14, 0, 4, 1, 1, 1, 1],
        vec![0x10],
        vec![0x10, 0],
        vec![0x10, 0, 1],
        vec![0x10, 1, 1, 1],
    ];
    for event in bad {
        assert_eq!(refused_on(&seven(), &fresh(), &event, 2), [(12, 0); 2], "{event:?}");
        let second_of_two = [fire(1), event.clone()].concat();
        assert_eq!(refused_on(&seven(), &fresh(), &second_of_two, 4), [(12, 1); 2]);
        let three = [fire(1), fire(200), event.clone()].concat();
        assert_eq!(refused_on(&seven(), &fresh(), &three, 9), [(12, 2), (12, 1)]);
        let first_of_two = [event.clone(), fire(1)].concat();
        let [_, one] = refused_on(&seven(), &fresh(), &first_of_two, 4);
        if event.len() > 3 && event[1] == 0 {
            assert_eq!(one, (12, 0), "the first fault counts");
        }
    }
    assert_eq!(refused_on(&seven(), &fresh(), &[], 2), [(0, 0), (12, 0)]);
    assert_eq!(refused_on(&seven(), &fresh(), &[fire(1), fire(1)].concat(), 4), [(0, 0), (12, 1)]);
    assert_eq!(refused_on(&seven(), &fresh(), &[fire(1), vec![0]].concat(), 4), [(12, 1); 2]);
}

#[test]
fn refusal_13_answer_space() {
    for (space, outcome) in [(0, (13, 0)), (1, (13, 0)), (2, (0, 0)), (3, (0, 0))] {
        assert_eq!(refused_on(&seven(), &fresh(), &fire(1), space), [outcome; 2]);
    }
    let list = [fire(1), fire(99), fire(2)].concat();
    for (space, outcome) in [(4, (13, 0)), (5, (13, 0)), (6, (0, 0)), (7, (0, 0))] {
        assert_eq!(refused_on(&seven(), &fresh(), &list, space)[0], outcome);
    }
    assert_eq!(refused_on(&seven(), &fresh(), &[], 0)[0], (0, 0));
}

#[test]
fn refusals_1_to_13_go_in_order() {
    let unsound = vec![0; CELLS];
    let cut = [0x10];
    assert_eq!(refused_on(&[1], &unsound, &cut, 0), [(1, 0); 2]);
    assert_eq!(refused_on(&seven(), &unsound, &cut, 0), [(11, 17); 2]);
    assert_eq!(refused_on(&seven(), &fresh(), &cut, 0), [(12, 0); 2]);
    assert_eq!(refused_on(&seven(), &fresh(), &fire(0), 0), [(13, 0); 2]);
}

#[test]
fn refusals_14_to_17_change_only_their_answer() {
    let mut t = Table::new();
    let one = t.constant(1);
    let zero = t.constant(0);
    let division = t.node(&[3, DIV, one, zero]);
    let divides = t.main(division);
    let mut busy = fresh();
    busy[pending_cell(1, 2, 0)] = 1;
    busy[pending_cell(1, 2, 7)] = 70;
    busy[heard_cell(1, 3, 0)] = 7;
    put_heard(&mut busy, 1, 3, 2, 30);
    for (event, answer) in [
        (fire(0), (14, 0)),
        (fire(17), (14, 0)),
        (fire(255), (14, 0)),
        (deliver(0, 1), (14, 0)),
        (deliver(1, 17), (14, 0)),
        (deliver(17, 17), (14, 0)),
        (lose(0, 1), (14, 0)),
        (lose(1, 17), (14, 0)),
        (link(0, 1, 5), (14, 0)),
        (link(1, 17, 5), (14, 0)),
        (link(1, 2, 1_000_001), (14, 0)),
        (link(1, 2, -1), (14, 0)),
        (link(1, 2, FLOOR), (14, 0)),
        (link(1, 1, 2_000_000), (14, 0)),
        (signal(0, 1, 1), (14, 0)),
        (signal(17, 1, 1), (14, 0)),
        (signal(1, 16, 1), (14, 0)),
        (signal(1, 1, 2), (14, 0)),
        (deliver(1, 1), (15, 0)),
        (lose(2, 2), (15, 0)),
        (link(16, 16, 5), (15, 0)),
        (link(3, 3, ABSENT), (15, 0)),
        (deliver(2, 1), (16, 0)),
        (lose(1, 3), (16, 0)),
        (fire(1), (17, 2)),
    ] {
        let mut network = busy.clone();
        assert_eq!(run(&divides, &mut network, std::slice::from_ref(&event)), [answer], "{event:?}");
        assert!(network == busy, "{event:?} changed the network");
    }
}
