//! 02's L2: nbr-lag (kind 13), which is nbr-range with the age as its measure, and asks for no link.
mod common;
use common::*;
use second::check;

/// (fold d 0 field) where d gives 16 times what is so far, then next and 1: the field's numbers as digits, 1 more each.
fn digits(kind: u8, slot: u8) -> Vec<u8> {
    let mut t = Table::new();
    let so_far = t.parameter(0);
    let sixteen = t.constant(16);
    let shifted = t.node(&[3, MUL, so_far, sixteen]);
    let next = t.parameter(1);
    let one = t.constant(1);
    let digit = t.node(&[3, ADD, next, one]);
    let sum = t.node(&[3, ADD, shifted, digit]);
    let d = t.define(2, sum);
    let zero = t.constant(0);
    let field = t.node(&[kind, slot]);
    let fold = t.node(&[11, d, zero, field]);
    t.main(fold)
}

/// nbr-range and nbr-lag of slot 1, at device 2, as digits.
fn both(network: &[i32]) -> [i32; 2] {
    [9, 13].map(|kind| values(&digits(kind, 1), &mut network.to_vec(), &[fire(2)])[0])
}

/// A fresh network in which 2 has heard a number in slot 1 from b, with an age and a distance, absent where there is none.
fn holding(senders: &[(usize, i32, i32, i32)]) -> Vec<i32> {
    let mut network = fresh();
    for (b, number, age, distance) in senders {
        network[heard_cell(2, *b, 1)] = *number;
        network[age_cell(2, *b)] = *age;
        network[heard_cell(2, *b, 0)] = *distance;
    }
    network
}

#[test]
fn a_neighbour_is_weighted_by_its_lag() {
    // (fold + 0 (* (nbr 100) (- 3 (nbr-lag)))): 3, 2 and 1 times what was heard.
    let mut t = Table::new();
    let hundred = t.constant(100);
    let nbr = t.node(&[8, 1, hundred]);
    let three = t.constant(3);
    let lag = t.lag(2);
    let freshness = t.node(&[3, SUB, three, lag]);
    let weighted = t.node(&[3, MUL, nbr, freshness]);
    let total = t.total(weighted);
    let program = t.main(total);
    let mut network = fresh();
    let hear = |b: u8| [link(b, 2, 9), fire(b), deliver(b, 2)];
    values(&program, &mut network, &hear(1));
    assert_eq!(values(&program, &mut network, &[fire(2)]), [300]);
    values(&program, &mut network, &hear(5));
    assert_eq!(values(&program, &mut network, &[fire(2), fire(2), fire(2), fire(2)]), [500, 300, 100, 0]);
}

#[test]
fn an_age_counts_the_rounds_before_this_one() {
    let program = digits(13, 7);
    let mut network = fresh();
    values(&program, &mut network, &[link(1, 2, 9), fire(1), deliver(1, 2)]);
    for (value, after) in [(1, 1), (2, 2), (3, ABSENT), (0, ABSENT)] {
        assert_eq!(values(&program, &mut network, &[fire(2)]), [value]);
        assert_eq!(network[age_cell(2, 1)], after, "the round ages after its reading");
    }
    // Heard anew, it is 0 anew; the sender's own rounds don't count.
    values(&program, &mut network, &[fire(1), deliver(1, 2), fire(1), fire(1)]);
    assert_eq!(values(&program, &mut network, &[fire(2), deliver(1, 2), fire(2), fire(2)]), [1, 1, 2]);
}

#[test]
fn a_faulted_round_adds_no_lag() {
    // (+ (fold + 0 (nbr-lag)) (/ 1 (- 1 (sense 0))))
    let mut t = Table::new();
    let lag = t.lag(1);
    let total = t.total(lag);
    let division = t.faults_when_lit();
    let sum = t.node(&[3, ADD, total, division]);
    let program = t.main(sum);
    let mut network = holding(&[(1, 0, 1, ABSENT)]);
    let lit = run(&program, &mut network, &[signal(2, 0, 1), fire(2), fire(2), signal(2, 0, 0)]);
    assert_eq!(lit[1..3], [(17, i32::from(division)); 2]);
    assert_eq!(values(&program, &mut network, &[fire(2), fire(2), fire(2)]), [2, 3, 1]);
}

#[test]
fn heard_with_0_link_or_none() {
    for age in 0..=2 {
        for distance in [ABSENT, 0, 7] {
            let range = if distance == ABSENT { 0 } else { distance + 1 };
            assert_eq!(both(&holding(&[(1, 0, age, distance)])), [range, age + 1], "age {age}, distance {distance}");
            for number in [5, 1, -1, age, INF, FLOOR].into_iter().filter(|number| *number != 0) {
                assert_eq!(both(&holding(&[(1, number, age, distance)])), [0, 0], "heard with {number}");
            }
            assert_eq!(both(&holding(&[(1, ABSENT, age, distance)])), [0, 0], "heard, but not in the slot");
        }
    }
    assert_eq!(both(&holding(&[(1, ABSENT, ABSENT, 7)])), [0, 0], "a link alone");
    // 0 in another slot does not count.
    let mut network = holding(&[(1, 5, 1, 7)]);
    network[heard_cell(2, 1, 2)] = 0;
    network[heard_cell(2, 1, 15)] = 0;
    assert_eq!(both(&network), [0, 0]);
}

#[test]
fn each_sender_has_its_own_age_lowest_first() {
    let senders = [(1, 0, 2, ABSENT), (3, 5, 1, 7), (4, 0, 0, 7), (9, ABSENT, 1, 3), (15, 0, 1, 0), (16, 0, 2, ABSENT)];
    assert_eq!(both(&holding(&senders)), [0x81, 0x3123]);
    // In every slot, whichever device has the slot's number.
    for slot in 1..=15 {
        let mut network = fresh();
        for (b, age) in [(1, 1), (3, 0), (16, 2)] {
            put_heard(&mut network, 2, b, usize::from(slot), 0);
            network[age_cell(2, b)] = age;
        }
        assert_eq!(values(&digits(13, slot), &mut network, &[fire(2)]), [0x213]);
    }
}

#[test]
fn fields_of_lags_meet_others_pointwise() {
    // (fold + 0 (+ (nbr-lag 1) (nbr-range 2))): of those in both.
    let mut t = Table::new();
    let lag = t.lag(1);
    let range = t.range(2);
    let sum = t.node(&[3, ADD, lag, range]);
    let total = t.total(sum);
    let program = t.main(total);
    let mut network = holding(&[(1, 0, 2, 10), (3, 0, 1, 40), (4, 0, 1, ABSENT), (5, 5, 1, 100)]);
    for b in [1, 4, 5] {
        network[heard_cell(2, b, 2)] = 0;
    }
    assert_eq!(values(&program, &mut network, &[fire(2)]), [12]);
}

#[test]
fn it_sends_0_in_its_slot() {
    for senders in [&[][..], &[(1, 0, 2, 7)], &[(1, 5, 1, 7), (3, 0, 1, ABSENT)]] {
        let mut network = holding(senders);
        network[heard_cell(2, 9, 0)] = 7;
        values(&digits(13, 1), &mut network, &[fire(2)]);
        let mut message = [ABSENT; 16];
        (message[0], message[1]) = (1, 0);
        assert_eq!(network[pending_cell(2, 9, 0)..=pending_cell(2, 9, 15)], message, "and nothing else: {senders:?}");
    }
}

#[test]
fn in_the_branch_not_taken_it_sends_nothing() {
    // (if (sense 1) (fold + 0 (nbr-lag 3)) 7), and with two fields (fold + 0 (if (sense 1) (nbr-lag 3) (nbr-range 4)))
    let sense = |t: &mut Table| {
        let sensor = t.constant(1);
        t.node(&[4, sensor])
    };
    let mut t = Table::new();
    let condition = sense(&mut t);
    let lag = t.lag(3);
    let total = t.total(lag);
    let seven = t.constant(7);
    let choice = t.node(&[6, condition, total, seven]);
    let numbers = t.main(choice);
    let mut t = Table::new();
    let condition = sense(&mut t);
    let (lag, range) = (t.lag(3), t.range(4));
    let choice = t.node(&[6, condition, lag, range]);
    let total = t.total(choice);
    let fields = t.main(total);
    for (program, other) in [(numbers, ABSENT), (fields, 0)] {
        for (lit, sent) in [(0, [ABSENT, other]), (1, [0, ABSENT])] {
            let mut network = fresh();
            values(&program, &mut network, &[link(2, 1, 5), signal(2, 1, lit), fire(2)]);
            assert_eq!(network[pending_cell(2, 1, 3)..=pending_cell(2, 1, 4)], sent);
        }
    }
}

#[test]
fn refusal_5_a_slot_has_one_taker() {
    // nbr, nbr-range and nbr-lag of a slot, in any order of two; in two slots they pass.
    let take = |t: &mut Table, kind: u8, slot: u8| match kind {
        8 => {
            let child = t.constant(1);
            t.node(&[8, slot, child])
        }
        _ => t.node(&[kind, slot]),
    };
    for (first, then) in [(13, 8), (13, 9), (13, 13), (8, 13), (9, 13)] {
        for (slot, other) in [(1, 1), (15, 15), (1, 2), (14, 15)] {
            let mut t = Table::new();
            let left = take(&mut t, first, slot);
            let right = take(&mut t, then, other);
            let sum = t.node(&[3, ADD, left, right]);
            let total = t.total(sum);
            let expected = if slot == other { (5, usize::from(right)) } else { (0, 0) };
            assert_eq!(check(&t.main(total)), expected, "kinds {first} and {then}, slots {slot} and {other}");
        }
    }
}

#[test]
fn refusals_6_and_7_it_is_a_field_that_needs_a_name() {
    let mut t = Table::new();
    t.lag(1);
    let seven = t.constant(7);
    assert_eq!(check(&t.main(seven)), (6, 0), "unnamed");
    let mut t = Table::new();
    let lag = t.lag(1);
    assert_eq!(check(&t.main(lag)), (7, 0), "main is a field");
    let mut t = Table::new();
    let lag = t.lag(1);
    t.define(0, lag);
    let seven = t.constant(7);
    assert_eq!(check(&t.main(seven)), (7, 0), "a body is a field");
}

#[test]
fn refusal_9_it_makes_spatial() {
    let start = |parameters: u8| {
        let mut t = Table::new();
        let lag = t.lag(1);
        let total = t.total(lag);
        let d = t.define(parameters, total);
        (t, d)
    };
    let (mut t, d) = start(0);
    let once = t.node(&[12, d]);
    assert_eq!(check(&t.clone().main(once)), (0, 0));
    let twice = t.node(&[12, d]);
    let sum = t.node(&[3, ADD, once, twice]);
    assert_eq!(check(&t.main(sum)), (9, usize::from(twice)));
    // Through a call.
    let (mut t, d) = start(0);
    let call = t.node(&[12, d]);
    let outer = t.define(0, call);
    let once = t.node(&[12, outer]);
    let twice = t.node(&[12, outer]);
    let sum = t.node(&[3, ADD, once, twice]);
    assert_eq!(check(&t.main(sum)), (9, usize::from(twice)));
    // It may not fold, itself or through a call.
    let fold = |mut t: Table, d: u8| {
        let zero = t.constant(0);
        let field = t.lag(2);
        let fold = t.node(&[11, d, zero, field]);
        (check(&t.main(fold)), usize::from(fold))
    };
    let (t, d) = start(2);
    let (outcome, node) = fold(t, d);
    assert_eq!(outcome, (9, node));
    let (mut t, d) = start(0);
    let call = t.node(&[12, d]);
    let outer = t.define(2, call);
    let (outcome, node) = fold(t, outer);
    assert_eq!(outcome, (9, node));
}
