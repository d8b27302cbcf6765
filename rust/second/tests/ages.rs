//! 02's L1: what was heard fades, three rounds after it came.
mod common;
use common::*;

/// (+ (fold + 0 (nbr 1 5)) (/ 1 (- 1 (sense 0)))): one more than what was heard in slot 1; sensor 0 lit, it faults.
fn listens() -> Vec<u8> {
    let mut t = Table::new();
    let zero = t.constant(0);
    let five = t.constant(5);
    let nbr = t.node(&[8, 1, five]);
    let fold = t.node(&[10, ADD, zero, nbr]);
    let division = t.faults_when_lit();
    let sum = t.node(&[3, ADD, fold, division]);
    t.main(sum)
}

/// Reads and sends nothing.
fn deaf() -> Vec<u8> {
    let mut t = Table::new();
    let rep = t.counter(0);
    t.main(rep)
}

/// A network in which 2 has links to and from 1, 3 and 4, and what fires can be delivered to it.
fn linked() -> Vec<i32> {
    let mut network = fresh();
    for b in [1, 3, 4] {
        network[heard_cell(2, b, 0)] = 10;
        network[heard_cell(b, 2, 0)] = 10;
    }
    network
}

/// Of what 2 heard from b: slot 1 and the age.
fn from(network: &[i32], b: usize) -> (i32, i32) {
    (network[heard_cell(2, b, 1)], network[age_cell(2, b)])
}

const NOTHING: (i32, i32) = (ABSENT, ABSENT);

#[test]
fn fresh_ages_are_absent() {
    let network = fresh();
    for a in 1..=16 {
        assert_eq!(network[age_cell(a, 1)..=age_cell(a, 16)], [ABSENT; 16]);
    }
    assert_eq!((age_cell(1, 1), age_cell(1, 16), age_cell(2, 1), age_cell(16, 16)), (529, 544, 1_074, 8_719));
}

#[test]
fn three_rounds_read_a_message() {
    let mut network = linked();
    assert_eq!(values(&listens(), &mut network, &[fire(1), deliver(1, 2)]), [1]);
    for (value, after) in [(6, (5, 1)), (6, (5, 2)), (6, NOTHING), (1, NOTHING), (1, NOTHING)] {
        assert_eq!(values(&listens(), &mut network, &[fire(2)]), [value]);
        assert_eq!(from(&network, 1), after);
        assert_eq!(network[heard_cell(2, 1, 0)], 10, "the distance stays");
    }
}

#[test]
fn every_slot_fades_and_nothing_else() {
    let mut network = linked();
    for slot in 1..=15 {
        put_heard(&mut network, 2, 16, slot, slot as i32);
        put_heard(&mut network, 3, 16, slot, slot as i32);
    }
    network[heard_cell(2, 16, 0)] = 7;
    network[age_cell(2, 16)] = 2;
    network[age_cell(3, 16)] = 2;
    let mut expected = network.clone();
    assert_eq!(values(&deaf(), &mut network, &[fire(2)]), [0]);
    expected[heard_cell(2, 16, 1)..=heard_cell(2, 16, 15)].fill(ABSENT);
    expected[age_cell(2, 16)] = ABSENT;
    expected[variable_cell(2, 0)] = 0;
    for b in [1, 3, 4, 16] {
        expected[pending_cell(2, b, 0)] = 1;
    }
    assert_eq!(network, expected);
}

#[test]
fn a_faulted_round_ages_nothing() {
    let mut network = linked();
    values(&listens(), &mut network, &[fire(1), deliver(1, 2), fire(2), signal(2, 0, 1)]);
    let before = network.clone();
    let answers = run(&listens(), &mut network, &[fire(2), fire(2), fire(2), fire(2)]);
    assert_eq!(answers, [(17, 9); 4]);
    assert_eq!(network, before);
    assert_eq!(values(&listens(), &mut network, &[signal(2, 0, 0), fire(2), fire(2), fire(2)]), [6, 6, 1]);
}

#[test]
fn a_second_delivery_starts_it_anew() {
    for rounds in 0..=4 {
        let mut network = linked();
        values(&listens(), &mut network, &[fire(1), deliver(1, 2), fire(1)]);
        values(&listens(), &mut network, &vec![fire(2); rounds]);
        values(&listens(), &mut network, &[deliver(1, 2)]);
        assert_eq!(from(&network, 1), (5, 0), "after {rounds} rounds");
        assert_eq!(values(&listens(), &mut network, &vec![fire(2); 4]), [6, 6, 6, 1]);
    }
}

#[test]
fn an_empty_message_has_an_age() {
    let mut network = linked();
    put_heard(&mut network, 2, 1, 1, 5);
    network[age_cell(2, 1)] = 2;
    values(&deaf(), &mut network, &[fire(1), deliver(1, 2)]);
    for age in [0, 1, 2, ABSENT, ABSENT] {
        assert_eq!(from(&network, 1), (ABSENT, age));
        assert_eq!(values(&listens(), &mut network, &[fire(2)]), [1]);
    }
    // Also of one that was never heard before.
    values(&deaf(), &mut network, &[fire(3), deliver(3, 2)]);
    assert_eq!(from(&network, 3), (ABSENT, 0));
}

#[test]
fn senders_have_ages_of_their_own() {
    let mut network = linked();
    let hear = |b: u8| [fire(b), deliver(b, 2)];
    values(&listens(), &mut network, &hear(4));
    assert_eq!(values(&listens(), &mut network, &[fire(2)]), [6]);
    values(&listens(), &mut network, &hear(1));
    assert_eq!(values(&listens(), &mut network, &[fire(2)]), [11]);
    values(&listens(), &mut network, &hear(3));
    assert_eq!([4, 1, 3].map(|b| from(&network, b)), [(5, 2), (5, 1), (5, 0)]);
    assert_eq!(values(&listens(), &mut network, &vec![fire(2); 4]), [16, 11, 6, 1]);
    assert_eq!([4, 1, 3].map(|b| from(&network, b)), [NOTHING; 3]);
}

#[test]
fn a_round_ages_what_it_does_not_read() {
    let mut network = linked();
    values(&listens(), &mut network, &[fire(1), deliver(1, 2), link(2, 1, ABSENT)]);
    values(&deaf(), &mut network, &[fire(2)]);
    assert_eq!(from(&network, 1), (5, 1), "a program without nbr, a sender without a link");
    values(&deaf(), &mut network, &[fire(2), fire(2)]);
    assert_eq!(from(&network, 1), NOTHING);
}

#[test]
fn a_round_ages_only_what_its_device_heard() {
    let mut network = linked();
    values(&listens(), &mut network, &[fire(1), deliver(1, 2)]);
    // Neither the sender's rounds nor another's.
    assert_eq!(values(&listens(), &mut network, &[fire(1), fire(1), fire(1), fire(3)]), [1; 4]);
    assert_eq!(from(&network, 1), (5, 0));
    for a in [1, 3] {
        assert_eq!(network[age_cell(a, 1)..=age_cell(a, 16)], [ABSENT; 16], "who heard nothing has no age");
    }
    assert_eq!(run(&listens(), &mut network, &[fire(0), fire(17)]), [(14, 0); 2]);
    assert_eq!(from(&network, 1), (5, 0));
}

#[test]
fn only_a_delivery_that_was_done_sets_an_age() {
    let mut network = linked();
    values(&listens(), &mut network, &[fire(1), deliver(1, 2), fire(2), fire(1), fire(3)]);
    for (event, code) in [
        (lose(1, 2), 0),
        (lose(3, 2), 0),
        (deliver(1, 2), 16),
        (deliver(3, 2), 16),
        (deliver(2, 2), 15),
        (deliver(17, 2), 14),
        (deliver(1, 0), 14),
        (link(2, 1, 3), 0),
        (link(1, 2, 3), 0),
        (link(2, 3, ABSENT), 0),
        (signal(2, 1, 1), 0),
    ] {
        assert_eq!(run(&listens(), &mut network, std::slice::from_ref(&event)), [(code, 0)], "{event:?}");
        assert_eq!([1, 3].map(|b| from(&network, b)), [(5, 1), NOTHING], "{event:?}");
    }
}
