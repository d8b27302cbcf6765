//! 01's 'Runs on paper', boundary cases and shortcuts, against the second engine.
mod common;
use common::*;

fn operator(o: u8, left: i32, right: i32) -> Vec<u8> {
    let mut t = Table::new();
    let l = t.constant(left);
    let r = t.constant(right);
    let op = t.node(&[3, o, l, r]);
    t.main(op)
}

#[test]
fn i_counts() {
    let mut t = Table::new();
    let rep = t.counter(0);
    let program = t.main(rep);
    let mut network = fresh();
    assert_eq!(run(&program, &mut network, &[fire(1), fire(1), fire(1)]), [(0, 0), (0, 1), (0, 2)]);
    let mut expected = fresh();
    expected[variable_cell(1, 0)] = 2;
    assert_eq!(network, expected);
}

#[test]
fn ii_restarts_under_if() {
    let mut t = Table::new();
    let sensor = t.constant(1);
    let sense = t.node(&[4, sensor]);
    let rep = t.counter(0);
    let seven = t.constant(7);
    let choice = t.node(&[6, sense, rep, seven]);
    let program = t.main(choice);
    let events = [signal(1, 1, 1), fire(1), fire(1), signal(1, 1, 0), fire(1), signal(1, 1, 1), fire(1)];
    let answers = run(&program, &mut fresh(), &events);
    assert_eq!(answers, [(0, 0), (0, 0), (0, 1), (0, 0), (0, 7), (0, 0), (0, 0)]);
}

/// The store of 000's example at device 2.
fn example_store(slot_2_heard: bool) -> Vec<i32> {
    let mut network = fresh();
    network[variable_cell(2, 0)] = INF;
    for (b, estimate) in [(1, 10), (3, INF)] {
        network[heard_cell(2, b, 0)] = 10;
        put_heard(&mut network, 2, b, 1, estimate);
        if slot_2_heard {
            put_heard(&mut network, 2, b, 2, 0);
        }
    }
    network
}

#[test]
fn iii_distance_to() {
    let before = example_store(true);
    let mut network = before.clone();
    assert_eq!(run(&distance_to(), &mut network, &[fire(2)]), [(0, 20)]);
    let mut expected = before;
    expected[variable_cell(2, 0)] = 20;
    for b in [1, 3] {
        expected[pending_cell(2, b, 0)] = 1;
        expected[pending_cell(2, b, 1)] = INF;
        expected[pending_cell(2, b, 2)] = 0;
        expected[age_cell(2, b)] = 1;
    }
    assert_eq!(network, expected);
}

#[test]
fn iv_distance_to_with_slot_2_unheard() {
    assert_eq!(run(&distance_to(), &mut example_store(false), &[fire(2)]), [(0, INF)]);
}

#[test]
fn v_to_viii_arithmetic() {
    assert_eq!(value(&operator(ADD, INF, -5)), INF);
    assert_eq!(value(&operator(SUB, 5, INF)), FLOOR);
    assert_eq!(value(&operator(DIV, -7, 2)), -3);
    assert_eq!(value(&operator(MUL, 65_536, 32_768)), INF);
}

#[test]
fn ix_condition_2_takes_else() {
    for kind in [6, 7] {
        for (condition, taken) in [(0, 20), (1, 10), (2, 20), (-1, 20), (INF, 20)] {
            let mut t = Table::new();
            let condition = t.constant(condition);
            let then = t.constant(10);
            let otherwise = t.constant(20);
            let choice = t.node(&[kind, condition, then, otherwise]);
            assert_eq!(value(&t.main(choice)), taken);
        }
    }
}

#[test]
fn x_fold_by_greater() {
    let mut t = Table::new();
    let five = t.constant(5);
    let zero = t.constant(0);
    let nbr = t.node(&[8, 1, zero]);
    let fold = t.node(&[10, GREATER, five, nbr]);
    let program = t.main(fold);
    let mut network = fresh();
    put_heard(&mut network, 2, 1, 1, 3);
    put_heard(&mut network, 2, 3, 1, 0);
    assert_eq!(run(&program, &mut network, &[fire(2)]), [(0, 1)]);
}

#[test]
fn boundaries() {
    let mut t = Table::new();
    let rep = t.counter(0);
    let program = t.main(rep);
    let events = [
        link(1, 2, 1_000_000),
        link(1, 2, 1_000_001),
        link(1, 2, 0),
        link(1, 2, -1),
        link(1, 2, ABSENT),
        signal(1, 15, 1),
        signal(1, 16, 1),
        signal(1, 0, 2),
        fire(16),
        fire(17),
        fire(0),
    ];
    let codes: Vec<i32> = run(&program, &mut fresh(), &events).iter().map(|answer| answer.0).collect();
    assert_eq!(codes, [0, 14, 0, 14, 0, 0, 14, 14, 0, 14, 14]);
}

#[test]
fn replay_example() {
    let program = [
        0x01, 0, 5, 0, 0, 0, 0, 0, 0x01, 0, 2, 2, 0, 0x01, 0, 5, 0, 0, 0, 0, 1, 0x01, 0, 4, 3, 0, 1, 2, 0x01, 0, 4, 5,
        0, 0, 3, 0x03, 0, 1, 4,
    ];
    let list = [0x10, 0, 1, 1, 0x11, 0, 2, 1, 1, 0x10, 0, 1, 1, 0x11, 0, 2, 1, 2];
    assert_eq!(second::check(&program), (0, 0));
    let mut answers = [5; 8];
    assert_eq!(second::run(&program, &mut fresh(), &list, &mut answers), (0, 0));
    assert_eq!(answers, [0, 0, 15, 0, 0, 1, 16, 0]);
    let mut t = Table::new();
    let rep = t.counter(0);
    assert_eq!(t.main(rep), program);
}

#[test]
fn shortcut_merging_a_receipt() {
    // The first message has slots 1 and 2, the second only slot 2: slot 1 must become absent again.
    let mut t = Table::new();
    let sensor = t.constant(0);
    let lit = t.node(&[4, sensor]);
    let zero = t.constant(0);
    let child = t.constant(4);
    let nbr = t.node(&[8, 1, child]);
    let fold = t.node(&[10, ADD, zero, nbr]);
    let other = t.constant(0);
    let choice = t.node(&[6, lit, fold, other]);
    let five = t.constant(5);
    let nbr = t.node(&[8, 2, five]);
    let zero = t.constant(0);
    let fold = t.node(&[10, ADD, zero, nbr]);
    let sum = t.node(&[3, ADD, choice, fold]);
    let program = t.main(sum);
    let mut network = fresh();
    run(&program, &mut network, &[link(1, 2, 3), link(2, 1, 3), signal(1, 0, 1), fire(1), deliver(1, 2)]);
    assert_eq!((network[heard_cell(2, 1, 1)], network[heard_cell(2, 1, 2)]), (4, 5));
    run(&program, &mut network, &[signal(1, 0, 0), fire(1), deliver(1, 2)]);
    assert_eq!((network[heard_cell(2, 1, 1)], network[heard_cell(2, 1, 2)]), (ABSENT, 5));
    assert_eq!(network[heard_cell(2, 1, 0)], 3, "slot 0 stays");
    assert_eq!(network[pending_cell(1, 2, 0)], 0);
    assert_eq!(network[pending_cell(1, 2, 2)], ABSENT);
}

/// (rep x (fold + 1 (nbr 1 5)) (fold + 0 (nbr 2 6)))
fn rep_that_sends() -> Vec<u8> {
    let mut t = Table::new();
    let one = t.constant(1);
    let five = t.constant(5);
    let nbr = t.node(&[8, 1, five]);
    let initial = t.node(&[10, ADD, one, nbr]);
    let zero = t.constant(0);
    let six = t.constant(6);
    let nbr = t.node(&[8, 2, six]);
    let update = t.node(&[10, ADD, zero, nbr]);
    let rep = t.node(&[5, 3, initial, update]);
    t.main(rep)
}

#[test]
fn shortcut_update_in_the_first_round_and_initial_later() {
    let program = rep_that_sends();
    let mut network = fresh();
    assert_eq!(run(&program, &mut network, &[link(1, 2, 0), fire(1)]), [(0, 0), (0, 1)]);
    let row = pending_cell(1, 2, 0);
    assert_eq!(network[row..row + 3], [1, 5, ABSENT], "the first round sends from the initial part only");
    assert_eq!(run(&program, &mut network, &[fire(1)]), [(0, 0)]);
    assert_eq!(network[row..row + 3], [1, 5, 6], "a later round evaluates the initial part too");
}

#[test]
fn shortcut_sending_nothing_when_no_slot_was_sent() {
    let mut t = Table::new();
    let rep = t.counter(0);
    let program = t.main(rep);
    let mut network = fresh();
    put_heard(&mut network, 2, 1, 4, 8);
    assert_eq!(run(&program, &mut network, &[link(1, 2, 9), fire(1), deliver(1, 2)]), [(0, 0), (0, 0), (0, 0)]);
    assert_eq!(network[heard_cell(2, 1, 4)], ABSENT, "the empty message replaced what was heard");
}

#[test]
fn a_fire_takes_what_was_pending_also_on_ended_links() {
    let mut t = Table::new();
    let rep = t.counter(0);
    let program = t.main(rep);
    let events =
        [link(1, 2, 9), link(1, 3, 0), fire(1), link(1, 2, ABSENT), fire(1), deliver(1, 2), deliver(1, 3), lose(1, 3)];
    let codes: Vec<i32> = run(&program, &mut fresh(), &events).iter().map(|answer| answer.0).collect();
    assert_eq!(codes, [0, 0, 0, 0, 0, 16, 0, 16]);
}

#[test]
fn a_message_on_an_ended_link_still_arrives() {
    let events = [link(1, 2, 9), fire(1), link(1, 2, ABSENT), deliver(1, 2)];
    let mut network = fresh();
    let answers = run(&distance_to(), &mut network, &events);
    assert_eq!(answers, [(0, 0), (0, INF), (0, 0), (0, 0)]);
    // The first round skips the update, so no slot was sent.
    assert_eq!(network[heard_cell(2, 1, 1)], ABSENT);
}

#[test]
fn an_if_erases_at_any_depth() {
    // A definition with a rep, called in the condition of an if in the else branch.
    let mut t = Table::new();
    let rep = t.counter(5);
    let inner = t.define(0, rep);
    let call = t.node(&[12, inner]);
    let outer = t.define(0, call);
    let sensor = t.constant(0);
    let lit = t.node(&[4, sensor]);
    let seven = t.constant(7);
    let condition = t.node(&[12, outer]);
    let a = t.constant(100);
    let b = t.constant(200);
    let choice = t.node(&[6, condition, a, b]);
    let top = t.node(&[6, lit, seven, choice]);
    let program = t.main(top);
    let mut network = fresh();
    let events = [fire(1), fire(1), fire(1), signal(1, 0, 1), fire(1), signal(1, 0, 0), fire(1), fire(1)];
    let values: Vec<i32> = run(&program, &mut network, &events).iter().map(|answer| answer.1).collect();
    assert_eq!(values, [200, 100, 200, 0, 7, 0, 200, 100]);
    assert_eq!(network[variable_cell(1, 5)], 1);
}

#[test]
fn a_fault_changes_nothing() {
    // (+ (if (sense 0) 0 counter) (/ 6 (fold + 0 (nbr 1 2)))): an empty fold faults.
    let mut t = Table::new();
    let sensor = t.constant(0);
    let lit = t.node(&[4, sensor]);
    let nought = t.constant(0);
    let rep = t.counter(0);
    let choice = t.node(&[6, lit, nought, rep]);
    let six = t.constant(6);
    let zero = t.constant(0);
    let two = t.constant(2);
    let nbr = t.node(&[8, 1, two]);
    let fold = t.node(&[10, ADD, zero, nbr]);
    let division = t.node(&[3, DIV, six, fold]);
    let sum = t.node(&[3, ADD, choice, division]);
    let program = t.main(sum);
    let mut network = fresh();
    put_heard(&mut network, 1, 16, 1, 3);
    assert_eq!(run(&program, &mut network, &[link(1, 2, 5), fire(1), fire(1)]), [(0, 0), (0, 2), (0, 3)]);
    network[heard_cell(1, 16, 1)] = ABSENT;
    assert_eq!(network[age_cell(1, 16)], 2, "after two rounds");
    let mut before = network.clone();
    before[16] = 1;
    let answers = run(&program, &mut network, &[signal(1, 0, 1), fire(1)]);
    assert_eq!(answers, [(0, 0), (17, i32::from(division))]);
    assert_eq!(network, before);
}

#[test]
fn the_node_that_divided() {
    // A fold by / names the fold; in a definition the node there; mux goes then, else, condition.
    let mut t = Table::new();
    let one = t.constant(1);
    let zero = t.constant(0);
    let in_condition = t.node(&[3, DIV, one, zero]);
    let p = t.parameter(0);
    let q = t.parameter(1);
    let in_definition = t.node(&[3, DIV, p, q]);
    let d = t.define(2, in_definition);
    let one = t.constant(1);
    let zero = t.constant(0);
    let then = t.node(&[12, d, one, zero]);
    let otherwise = t.constant(3);
    let mux = t.node(&[7, in_condition, then, otherwise]);
    let program = t.main(mux);
    assert_eq!(run(&program, &mut fresh(), &[fire(4)]), [(17, i32::from(in_definition))]);

    let mut t = Table::new();
    let one = t.constant(1);
    let zero = t.constant(0);
    let nbr = t.node(&[8, 1, zero]);
    let fold = t.node(&[10, DIV, one, nbr]);
    let program = t.main(fold);
    let mut network = fresh();
    assert_eq!(run(&program, &mut network, &[fire(4)]), [(0, 1)], "no device, no division");
    put_heard(&mut network, 4, 5, 1, 0);
    assert_eq!(run(&program, &mut network, &[fire(4)]), [(17, i32::from(fold))]);
}

#[test]
fn fields_pointwise() {
    // (fold - 100 (+ (nbr 1 0) (nbr 2 0))) over shared devices; (fold + 0 (/ (nbr 3 0) 0)) over none.
    let mut t = Table::new();
    let hundred = t.constant(100);
    let zero = t.constant(0);
    let left = t.node(&[8, 1, zero]);
    let zero = t.constant(0);
    let right = t.node(&[8, 2, zero]);
    let sum = t.node(&[3, ADD, left, right]);
    let fold = t.node(&[10, SUB, hundred, sum]);
    let nought = t.constant(0);
    let zero = t.constant(0);
    let nbr = t.node(&[8, 3, zero]);
    let zero = t.constant(0);
    let division = t.node(&[3, DIV, nbr, zero]);
    let empty = t.node(&[10, ADD, nought, division]);
    let total = t.node(&[3, ADD, fold, empty]);
    let program = t.main(total);
    let mut network = fresh();
    for (b, slot, number) in [(2, 1, 1), (3, 1, 2), (3, 2, 20), (4, 2, 40)] {
        put_heard(&mut network, 1, b, slot, number);
    }
    assert_eq!(run(&program, &mut network, &[fire(1)]), [(0, 78)]);
    put_heard(&mut network, 1, 4, 3, 9);
    assert_eq!(run(&program, &mut network, &[fire(1)]), [(17, i32::from(division))]);
}

#[test]
fn nbr_range_asks_for_0_heard_and_a_link() {
    let mut t = Table::new();
    let zero = t.constant(0);
    let range = t.range(1);
    let fold = t.node(&[10, ADD, zero, range]);
    let program = t.main(fold);
    let mut network = fresh();
    for (b, distance) in [(2, 3), (3, 40), (4, 500), (6, 0)] {
        network[heard_cell(1, b, 0)] = distance;
    }
    for (b, number) in [(2, 0), (3, 1), (5, 0), (6, 0)] {
        put_heard(&mut network, 1, b, 1, number);
    }
    assert_eq!(run(&program, &mut network, &[fire(1)]), [(0, 3)]);
}

#[test]
fn folds_go_from_the_lowest_device() {
    let mut t = Table::new();
    let p = t.parameter(0);
    let ten = t.constant(10);
    let shifted = t.node(&[3, MUL, p, ten]);
    let q = t.parameter(1);
    let sum = t.node(&[3, ADD, shifted, q]);
    let d = t.define(2, sum);
    let zero = t.constant(0);
    let child = t.constant(0);
    let nbr = t.node(&[8, 15, child]);
    let fold = t.node(&[11, d, zero, nbr]);
    let program = t.main(fold);
    let mut network = fresh();
    for b in [1, 2, 9, 16] {
        put_heard(&mut network, 5, b, 15, (b % 10) as i32);
    }
    assert_eq!(run(&program, &mut network, &[fire(5)]), [(0, 1_296)]);
}

#[test]
fn sense_outside_0_to_15() {
    let lit = [(0, 1), (1, 0), (15, 1), (16, 0), (31, 0), (32, 0), (47, 0), (-1, 0), (-32, 0), (INF, 0), (FLOOR, 0)];
    for (sensor, result) in lit {
        let mut t = Table::new();
        let child = t.constant(sensor);
        let sense = t.node(&[4, child]);
        let program = t.main(sense);
        let mut network = fresh();
        network[16] = 0x8001;
        assert_eq!(run(&program, &mut network, &[fire(1)]), [(0, result)], "sensor {sensor}");
    }
}

#[test]
fn one_event_is_a_run_of_one() {
    let program = distance_to();
    let mut network = fresh();
    let mut same = fresh();
    for event in [link(1, 2, 4), signal(1, 1, 1), fire(1), fire(1), deliver(1, 2), deliver(1, 2), fire(2), fire(17)] {
        let mut answers = [9; 2];
        assert_eq!(second::event(&program, &mut network, &event, &mut answers), (0, 0));
        assert_eq!(run(&program, &mut same, std::slice::from_ref(&event)), [(answers[0], answers[1])]);
        assert_eq!(network, same);
    }
}

#[test]
fn a_long_run_finds_the_distances() {
    let program = distance_to();
    let mut events = vec![signal(1, 1, 1)];
    for a in 1..16 {
        events.push(link(a, a + 1, 10));
        events.push(link(a + 1, a, 10));
    }
    while events.len() < 20_000 {
        for a in 1..=16 {
            events.push(fire(a));
            for b in [a - 1, a + 1] {
                events.push(deliver(a, b));
            }
        }
    }
    let mut network = fresh();
    run(&program, &mut network, &events);
    let estimates: Vec<i32> = (1..=16).map(|a| network[variable_cell(a, 0)]).collect();
    assert_eq!(estimates, (0..16).map(|n| 10 * n).collect::<Vec<i32>>());
}
