//! Demand 3 by hand: orders of the same events in which clashing events keep their order.
mod common;
use common::*;

/// Runs both lists on fresh networks; networks must agree, and the answers to the k-th copy of each event.
fn alike(program: &[u8], first: &[Vec<u8>], second: &[Vec<u8>]) {
    let (mut one, mut two) = (fresh(), fresh());
    let of_first = run(program, &mut one, first);
    let of_second = run(program, &mut two, second);
    assert!(one == two, "the networks differ");
    let copies = |list: &[Vec<u8>], answers: &[(i32, i32)]| {
        let mut copies: Vec<(Vec<u8>, usize, (i32, i32))> = Vec::new();
        for (place, event) in list.iter().enumerate() {
            let copy = list[..place].iter().filter(|other| *other == event).count();
            copies.push((event.clone(), copy, answers[place]));
        }
        copies.sort();
        copies
    };
    assert_eq!(copies(first, &of_first), copies(second, &of_second));
}

#[test]
fn empty_lists() {
    alike(&distance_to(), &[], &[]);
}

#[test]
fn two_crews_far_apart() {
    let left =
        [link(1, 2, 5), signal(1, 1, 1), fire(1), fire(1), deliver(1, 2), fire(2), fire(2), deliver(2, 1), fire(1)];
    let right = [link(8, 9, 3), fire(8), fire(8), lose(8, 9), lose(8, 9), fire(8), deliver(8, 9), fire(9), fire(99)];
    let one_after_the_other = [&left[..], &right[..]].concat();
    let other_first = [&right[..], &left[..]].concat();
    let woven: Vec<Vec<u8>> = left.iter().zip(&right).flat_map(|(l, r)| [l.clone(), r.clone()]).collect();
    alike(&distance_to(), &one_after_the_other, &other_first);
    alike(&distance_to(), &one_after_the_other, &woven);
}

#[test]
fn events_at_one_device_that_do_not_clash() {
    // Delivery to 2 against links from 2, signals at 2, another sender's delivery, and a fire elsewhere.
    let start = [link(1, 2, 5), link(3, 2, 6), fire(1), fire(3), fire(1), fire(3)];
    let then = [deliver(1, 2), link(2, 1, 4), signal(2, 1, 1), deliver(3, 2), fire(7), link(1, 2, ABSENT)];
    let end = [fire(2), fire(2)];
    let forward = [&start[..], &then[..], &end[..]].concat();
    let backward: Vec<Vec<u8>> = start.iter().chain(then.iter().rev()).chain(&end).cloned().collect();
    alike(&distance_to(), &forward, &backward);
}

#[test]
fn what_fades_in_another_order() {
    // 2 hears 1 and reads it till it fades, 9 hears 8 and reads it once; woven, and one after the other.
    let sends = |a: u8| [link(a, a + 1, 5), fire(a), fire(a), deliver(a, a + 1)];
    let left = [&sends(1)[..], &[fire(2), fire(2), fire(2), fire(2)]].concat();
    let right = [&sends(8)[..], &[fire(9), link(9, 8, 5), signal(9, 1, 1), lose(8, 9)]].concat();
    let woven: Vec<Vec<u8>> = left.iter().zip(&right).flat_map(|(l, r)| [l.clone(), r.clone()]).collect();
    for program in [distance_to(), distance_by(13)] {
        alike(&program, &[&left[..], &right[..]].concat(), &[&right[..], &left[..]].concat());
        alike(&program, &[&left[..], &right[..]].concat(), &woven);
    }
    let mut network = fresh();
    run(&distance_to(), &mut network, &woven);
    assert_eq!((network[age_cell(2, 1)], network[age_cell(9, 8)]), (ABSENT, 1));
}

#[test]
fn copies_and_refused_events() {
    let first = [fire(1), fire(0), link(1, 1, 5), fire(1), fire(0), deliver(4, 5), fire(1), signal(2, 16, 0)];
    let second = [fire(0), deliver(4, 5), fire(1), signal(2, 16, 0), fire(0), fire(1), link(1, 1, 5), fire(1)];
    alike(&distance_to(), &first, &second);
}
