//! Lists of events: valid ones with refused events among them, malformed ones, and reorderings.

use crate::broken::Expected;
use crate::random::Random;

pub type Event = Vec<u8>;

pub fn fire(a: u8) -> Event {
    vec![0x10, 0, 1, a]
}

pub fn deliver(a: u8, b: u8) -> Event {
    vec![0x11, 0, 2, a, b]
}

pub fn lose(a: u8, b: u8) -> Event {
    vec![0x12, 0, 2, a, b]
}

pub fn link(a: u8, b: u8, distance: i32) -> Event {
    let mut event = vec![0x13, 0, 6, a, b];
    event.extend(distance.to_be_bytes());
    event
}

pub fn signal(a: u8, sensor: u8, switch: u8) -> Event {
    vec![0x14, 0, 3, a, sensor, switch]
}

const DISTANCES: [i32; 9] = [0, 0, 1, 3, 10, 999_999, 1_000_000, i32::MIN, i32::MIN];

/// One event among these devices; 14 and 15 come seldom, 16 and 17 by themselves.
pub fn any(devices: &[u8], odd: usize, random: &mut Random) -> Event {
    if random.chance(odd) {
        return odd_one(devices, random);
    }
    let a = random.pick(devices);
    let b = random.pick(devices);
    if a == b {
        return match random.below(8) {
            0 => signal(a, random.below(16) as u8, random.below(2) as u8),
            1 => signal(a, random.below(3) as u8, 1),
            _ => fire(a),
        };
    }
    match random.below(20) {
        0..=5 => fire(a),
        6..=11 => deliver(a, b),
        12 => lose(a, b),
        13..=16 => link(a, b, random.pick(&DISTANCES)),
        17 => signal(a, random.below(16) as u8, random.below(2) as u8),
        _ => signal(a, random.below(3) as u8, random.below(2) as u8),
    }
}

/// An event with one or several things out of range, or with a = b.
fn odd_one(devices: &[u8], random: &mut Random) -> Event {
    let a = random.pick(devices);
    let b = random.pick(devices);
    let out = random.pick(&[0, 17, 18, 32, 128, 255]);
    let far = random.pick(&[1_000_001, 1_000_002, -1, -1_000_000, i32::MAX, -i32::MAX, 1 << 24]);
    let sensor = random.pick(&[16, 17, 31, 32, 255]);
    let switch = random.pick(&[2, 3, 128, 255]);
    match random.below(18) {
        0 => fire(out),
        1 => deliver(out, b),
        2 => deliver(a, out),
        3 => lose(out, b),
        4 => lose(a, out),
        5 => link(out, b, 5),
        6 => link(a, out, 5),
        7 => link(a, b, far),
        8 => signal(out, 1, 1),
        9 => signal(a, sensor, 1),
        10 => signal(a, 1, switch),
        11 => deliver(a, a),
        12 => lose(a, a),
        13 => deliver(out, out),
        14 => lose(out, random.pick(&[0, 17, 255])),
        15 => link(out, b, far),
        16 => signal(a, sensor, switch),
        _ => link(a, a, random.pick(&[0, 5, i32::MIN, far])),
    }
}

pub fn list(length: usize, devices: &[u8], odd: usize, random: &mut Random) -> Vec<Event> {
    let mut events = vec![];
    while events.len() < length {
        // Now and then one device does several rounds, in which what it heard fades.
        if random.chance(4) {
            let rounds = random.between(2, 5);
            events.resize(events.len() + rounds, fire(random.pick(devices)));
        }
        events.push(any(devices, odd, random));
    }
    events.truncate(length);
    events
}

pub struct Malformed {
    pub label: &'static str,
    pub list: Vec<u8>,
    /// What a run returns, and what the one-event call returns.
    pub run: Expected,
    pub event: Expected,
}

/// The labels of malformed lists.
pub const LABELS: [&str; 6] = [
    "12 unknown tag",
    "12 wrong length",
    "12 wrong length in the high byte",
    "12 cut short",
    "12 after 300 events",
    "12 after 3,000 events",
];

/// A field that is no event, its label, and whether it is whole.
fn bad_field(devices: &[u8], random: &mut Random) -> (&'static str, Event, bool) {
    let field = |tag: u8, length: usize, random: &mut Random| {
        let junk = (0..length).map(|_| random.byte() % 18);
        [tag, 0, length as u8].into_iter().chain(junk).collect()
    };
    match random.below(4) {
        0 => {
            let tag = random.pick(&[0, 1, 2, 3, 0x0f, 0x15, 0x16, 0x17, 0x20, 0x90, 255]);
            let length = random.pick(&[0, 1, 2, 3, 6, 7]);
            ("12 unknown tag", field(tag, length, random), true)
        }
        1 => {
            let tag = random.below(5);
            let right = [1, 2, 2, 6, 3][tag];
            let wrong: Vec<usize> = (0..=8).filter(|length| *length != right).collect();
            let length = random.pick(&wrong);
            ("12 wrong length", field(0x10 + tag as u8, length, random), true)
        }
        2 => {
            // The length's high byte counts.
            let mut event = any(devices, 10, random);
            event[1] = random.between(1, 3) as u8;
            let body = usize::from(event[1]) * 256 + usize::from(event[2]);
            event.resize(3 + body, 1);
            ("12 wrong length in the high byte", event, true)
        }
        _ => {
            let mut event = any(devices, 10, random);
            event.truncate(random.between(1, event.len() - 1));
            ("12 cut short", event, false)
        }
    }
}

/// A list with a bad field after `length` good ones.
pub fn malformed(length: usize, devices: &[u8], random: &mut Random) -> Malformed {
    let good = list(length, devices, 10, random);
    let (label, bad, whole) = bad_field(devices, random);
    let label = match length {
        3_000.. => "12 after 3,000 events",
        300.. => "12 after 300 events",
        _ => label,
    };
    let mut bytes = [good.concat(), bad].concat();
    if whole && random.chance(60) {
        bytes.extend(list(2, devices, 10, random).concat());
    }
    let place = |place: usize| Some((12, Some(place)));
    Malformed { label, list: bytes, run: place(length), event: place(length.min(1)) }
}

/// Whether two events clash, by 01's list.
pub fn clash(one: &[u8], two: &[u8]) -> bool {
    let fires = |one: &[u8], two: &[u8]| {
        let a = one[3];
        one[0] == 0x10
            && match two[0] {
                0x10 | 0x12 | 0x13 | 0x14 => two[3] == a,
                _ => two[3] == a || two[4] == a,
            }
    };
    let carries = |event: &[u8]| event[0] == 0x11 || event[0] == 0x12;
    fires(one, two)
        || fires(two, one)
        || carries(one) && carries(two) && one[3..5] == two[3..5]
        || one[0] == 0x14 && two[0] == 0x14 && one[3..5] == two[3..5]
        || one[0] == 0x13 && two[0] == 0x13 && one[3..5] == two[3..5]
}

/// The same events in another order; clashing ones keep theirs.
pub fn reordered(list: &[Event], random: &mut Random) -> Vec<Event> {
    let mut left: Vec<&Event> = list.iter().collect();
    let mut order = vec![];
    // Sometimes prefer late events, to move far.
    let late = random.chance(50);
    while !left.is_empty() {
        let free: Vec<usize> =
            (0..left.len()).filter(|at| !left[..*at].iter().any(|earlier| clash(earlier, left[*at]))).collect();
        let at = if late && random.chance(70) { free[free.len() - 1] } else { random.pick(&free) };
        order.push(left.remove(at).clone());
    }
    order
}

#[cfg(test)]
mod tests {
    use super::*;

    #[test]
    fn clashes_of_01() {
        let f = fire(1);
        for clashing in [fire(1), signal(1, 3, 0), link(1, 2, 5), deliver(1, 2), deliver(2, 1), lose(1, 2)] {
            assert!(clash(&f, &clashing) && clash(&clashing, &f), "{clashing:?}");
        }
        for other in [fire(2), signal(2, 3, 0), link(2, 1, 5), deliver(2, 3), lose(2, 1)] {
            assert!(!clash(&f, &other) && !clash(&other, &f), "{other:?}");
        }
        assert!(clash(&deliver(1, 2), &lose(1, 2)));
        assert!(!clash(&deliver(1, 2), &lose(2, 1)));
        assert!(!clash(&deliver(1, 2), &deliver(3, 2)));
        assert!(clash(&link(1, 2, 3), &link(1, 2, 4)));
        assert!(!clash(&link(1, 2, 3), &link(2, 1, 3)));
        assert!(!clash(&link(1, 2, 3), &deliver(1, 2)));
        assert!(clash(&signal(1, 2, 0), &signal(1, 2, 1)));
        assert!(!clash(&signal(1, 2, 0), &signal(1, 3, 0)));
        assert!(!clash(&signal(1, 2, 0), &link(1, 2, 0)));
    }

    #[test]
    fn reordering_keeps_clashing_pairs() {
        let mut random = Random::new(5, 5);
        for _ in 0..50 {
            let list = list(30, &[1, 2, 3], 10, &mut random);
            let other = reordered(&list, &mut random);
            for kind in &list {
                for second in &list {
                    if !clash(kind, second) {
                        continue;
                    }
                    let pair = |events: &[Event]| -> Vec<bool> {
                        events
                            .iter()
                            .filter(|event| *event == kind || *event == second)
                            .map(|event| event == kind)
                            .collect()
                    };
                    assert_eq!(pair(&list), pair(&other));
                }
            }
        }
    }
}
