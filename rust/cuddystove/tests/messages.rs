//! Messages taken and put: bytes by hand, there and back, every byte string near a message, and from network to
//! network.

use cuddystove::events::{Event, List};
use cuddystove::messages::{put, take};
use cuddystove::{cells, event, fresh, run, ABSENT, CELLS, FLOOR, INF, LONGEST_MESSAGE, ROW};

const EDGES: [i32; 4] = [INF, FLOOR, -1, 0];

fn fresh_network() -> Vec<i32> {
    let mut network = vec![7; CELLS];
    assert_eq!(fresh(&mut network), Ok(()));
    network
}

fn row(a: i64, b: i64) -> std::ops::Range<usize> {
    let first = cells::is_pending(a, b).expect("two devices");
    first..first + ROW
}

/// A network with a message pending from a to b that has these numbers in its slots.
fn pending(a: i64, b: i64, slots: &[(usize, i32)]) -> Vec<i32> {
    let mut network = fresh_network();
    let row = &mut network[row(a, b)];
    row[0] = 1;
    slots.iter().for_each(|(i, number)| row[*i] = *number);
    network
}

/// Sender, hearer, and the numbers of slots.
type Sample = (i64, i64, Vec<(usize, i32)>);

/// A message with no slot, with one, with four and with all, with numbers at the edges.
fn samples() -> Vec<Sample> {
    let mut all: Vec<Sample> = vec![
        (1, 2, vec![]),
        (16, 15, vec![(1, INF), (2, FLOOR), (14, -1), (15, 0)]),
        (1, 16, (1..=15).map(|i| (i, EDGES[i % 4])).collect()),
        (16, 1, (1..=15).map(|i| (i, 0x0102_0304 * i as i32)).collect()),
    ];
    for i in 1..=15 {
        all.extend(EDGES.map(|number| (3, 2, vec![(i, number)])));
    }
    all
}

fn taken(network: &mut [i32], a: i64, b: i64) -> Option<Vec<u8>> {
    let mut message = [0xee; LONGEST_MESSAGE];
    take(network, a, b, &mut message).map(<[u8]>::to_vec)
}

#[test]
fn bytes_by_hand() {
    assert_eq!(taken(&mut pending(1, 2, &[]), 1, 2), Some(vec![1, 2, 0, 0]));
    assert_eq!(taken(&mut pending(16, 1, &[(1, 40)]), 16, 1), Some(vec![16, 1, 0, 2, 0, 0, 0, 40]));
    let mut network = pending(3, 4, &[(15, FLOOR), (7, -1), (8, INF), (9, 0)]);
    let expected =
        [3, 4, 0x83, 0x80, 0xff, 0xff, 0xff, 0xff, 0x7f, 0xff, 0xff, 0xff, 0, 0, 0, 0, 0x80, 0, 0, 1].to_vec();
    assert_eq!(taken(&mut network, 3, 4), Some(expected));
    let all: Vec<(usize, i32)> = (1..=15).map(|i| (i, 0x0102_0300 + i as i32)).collect();
    let mut expected = vec![5, 6, 0xff, 0xfe];
    expected.extend((1..=15).flat_map(|i| [1, 2, 3, i]));
    assert_eq!(expected.len(), LONGEST_MESSAGE);
    assert_eq!(taken(&mut pending(5, 6, &all), 5, 6), Some(expected));
}

/// A take leaves the network as if the message had never been; a put makes it what it was.
#[test]
fn there_and_back() {
    let samples = samples();
    assert_eq!(samples.len(), 64);
    for (a, b, slots) in samples {
        let before = pending(a, b, &slots);
        let mut network = before.clone();
        let message = taken(&mut network, a, b).expect("it is pending");
        assert_eq!(message.len(), 4 + 4 * slots.len());
        assert_eq!(network, fresh_network());
        assert_eq!(put(&mut network, &message), Some((a, b)));
        assert_eq!(network, before);
        // In place of another.
        let mut other = pending(a, b, &(1..=15).map(|i| (i, 5)).collect::<Vec<_>>());
        assert_eq!(put(&mut other, &message), Some((a, b)));
        assert_eq!(other, before);
    }
}

/// Puts the bytes: they are refused and nothing is written, or a take gives just these back. True if they were put.
fn exact(bytes: &[u8]) -> bool {
    let before = fresh_network();
    let mut network = before.clone();
    let Some((a, b)) = put(&mut network, bytes) else {
        assert_eq!(network, before, "{bytes:?} refused and written");
        return false;
    };
    assert_eq!(run(&[1, 0, 5, 0, 0, 0, 0, 0, 3, 0, 1, 0], &mut network, &[], &mut []), Ok(()), "{bytes:?}: unsound");
    assert_eq!(taken(&mut network, a, b).as_deref(), Some(bytes));
    assert_eq!(network, before);
    true
}

#[test]
fn every_byte_string_near_a_message() {
    let (mut put, mut refused) = (0, 0);
    let mut tried = |bytes: &[u8]| if exact(bytes) { put += 1 } else { refused += 1 };
    for (a, b, slots) in samples() {
        let message = taken(&mut pending(a, b, &slots), a, b).expect("it is pending");
        (0..message.len()).for_each(|cut| tried(&message[..cut]));
        for more in [&[0][..], &[1], &[0xff], &[0; 4], &[0xff; 4], &[0; 60], &[7; 64]] {
            tried(&[&message[..], more].concat());
        }
        for bit in 0..8 * message.len() {
            let mut changed = message.clone();
            changed[bit / 8] ^= 1 << (bit % 8);
            tried(&changed);
        }
    }
    assert!(put > 1_000 && refused > 1_000, "{put} put, {refused} refused");
}

/// Every sender and hearer, every two bytes of slots, with as many numbers as they want and one less or more.
#[test]
fn every_head() {
    let mut network = fresh_network();
    for pair in 0..=u16::MAX {
        let [a, b] = pair.to_be_bytes();
        let good = (1..=16).contains(&a) && (1..=16).contains(&b) && a != b;
        assert_eq!(put(&mut network, &[a, b, 0, 0]).is_some(), good, "{a} {b}");
    }
    for slots in 0..=u16::MAX {
        let [high, low] = slots.to_be_bytes();
        let wanted = slots.count_ones();
        for count in wanted.saturating_sub(1)..=wanted + 1 {
            let mut bytes = vec![1, 2, high, low];
            (0..count).for_each(|_| bytes.extend([0, 0, 0, 9]));
            let good = slots & 1 == 0 && count == wanted;
            assert_eq!(put(&mut network, &bytes).is_some(), good, "{slots:#x} {count}");
        }
    }
}

#[test]
fn the_mark_is_no_number() {
    let mut network = fresh_network();
    assert_eq!(put(&mut network, &[1, 2, 0, 2, 0x80, 0, 0, 0]), None);
    assert_eq!(put(&mut network, &[1, 2, 0, 6, 0, 0, 0, 1, 0x80, 0, 0, 0]), None);
    assert_eq!(network, fresh_network());
    assert_eq!(put(&mut network, &[1, 2, 0, 2, 0x80, 0, 0, 1]), Some((1, 2)));
    assert_eq!(cells::pending(1, 2, 1).map(|cell| network[cell]), Some(FLOOR));
}

#[test]
fn another_length_of_network() {
    for length in [0, 1, row(1, 2).end, CELLS - 1, CELLS + 1] {
        let mut network = pending(1, 2, &[(1, 5)]);
        network.resize(length, 7);
        let before = network.clone();
        let mut message = [0xee; LONGEST_MESSAGE];
        assert_eq!(take(&mut network, 1, 2, &mut message), None);
        assert_eq!(put(&mut network, &[1, 2, 0, 0]), None);
        assert_eq!((network, message), (before, [0xee; LONGEST_MESSAGE]));
    }
}

/// A take where nothing is pending, or where there are no such two devices, changes nothing.
#[test]
fn nothing_to_take() {
    let before = pending(1, 2, &[(1, 5), (15, 6)]);
    let wrong = [i64::MIN, -(1 << 32) + 1, -1, 0, 17, 256, 257, 258, (1 << 32) + 1, i64::MAX];
    let mut pairs: Vec<(i64, i64)> = (1..=16).flat_map(|a| (1..=16).map(move |b| (a, b))).collect();
    pairs.retain(|pair| *pair != (1, 2));
    pairs.extend(wrong.iter().flat_map(|n| [(*n, 2), (1, *n), (*n, *n)]));
    for (a, b) in pairs {
        let (mut network, mut message) = (before.clone(), [0xee; LONGEST_MESSAGE]);
        assert_eq!(take(&mut network, a, b, &mut message), None, "{a} {b}");
        assert_eq!((&network, message), (&before, [0xee; LONGEST_MESSAGE]), "{a} {b}");
    }
    // Twice: the second finds none.
    let mut network = before.clone();
    assert!(taken(&mut network, 1, 2).is_some());
    assert_eq!(taken(&mut network, 1, 2), None);
    // A mark that is neither 0 nor 1, and a device that is pending to itself, are unsound: they are no message.
    for (a, b, mark) in [(1, 2, 2), (1, 2, ABSENT), (1, 2, -1), (3, 3, 1)] {
        let mut network = fresh_network();
        network[row(a, b)][0] = mark;
        let before = network.clone();
        assert_eq!(taken(&mut network, a, b), None);
        assert_eq!(network, before);
    }
}

/// (fold-hood + 0 (nbr 7)) with its nbr in slot 1: 7 for each device heard.
const SEVENS: [u8; 33] =
    [1, 0, 5, 0, 0, 0, 0, 0, 1, 0, 5, 0, 0, 0, 0, 7, 1, 0, 3, 8, 1, 1, 1, 0, 4, 10, 0, 0, 2, 3, 0, 1, 3];

/// (fold-hood* + 0 (+ 10 (nbr-lag))) with its nbr-lag in slot 1: 10 and its age for each device heard.
const LAGS: [u8; 39] = [
    1, 0, 5, 0, 0, 0, 0, 0, 1, 0, 5, 0, 0, 0, 0, 10, 1, 0, 2, 13, 1, 1, 0, 4, 3, 0, 1, 2, 1, 0, 4, 10, 0, 0, 3, 3, 0,
    1, 4,
];

fn does_by(program: &[u8], network: &mut [i32], list: &[u8]) -> [i32; 2] {
    let mut space = [5; 2];
    assert_eq!(event(program, network, list, &mut space), Ok(()));
    space
}

fn does(network: &mut [i32], list: &[u8]) -> [i32; 2] {
    does_by(&SEVENS, network, list)
}

/// A receipt sets the age, and rounds add to it; a put and a take leave it as it is.
#[test]
fn a_message_fades() {
    let mut network = fresh_network();
    let (age, heard) = (cells::age(2, 1).expect("two devices"), cells::heard(2, 1, 1).expect("a slot"));
    let (deliver, fire) = (Event::deliver(1, 2).expect("bytes"), Event::fire(2).expect("bytes"));
    let message = [1, 2, 0, 2, 0, 0, 0, 9];
    assert_eq!(put(&mut network, &message), Some((1, 2)));
    assert_eq!(network[age], ABSENT);
    for _ in 0..2 {
        assert_eq!(does(&mut network, deliver.as_bytes()), [0, 0]);
        assert_eq!((network[age], network[heard]), (0, 9));
        for after in [1, 2] {
            assert_eq!(does(&mut network, fire.as_bytes()), [0, 9]);
            assert_eq!(network[age], after);
        }
        assert_eq!(put(&mut network, &message), Some((1, 2)));
        assert_eq!(network[age], 2);
        assert_eq!(taken(&mut network, 1, 2).as_deref(), Some(&message[..]));
        assert_eq!(network[age], 2);
        assert_eq!(put(&mut network, &message), Some((1, 2)));
    }
    assert_eq!(does(&mut network, fire.as_bytes()), [0, 9]);
    assert_eq!((network[age], network[heard]), (ABSENT, ABSENT));
    assert_eq!(does(&mut network, fire.as_bytes()), [0, 0]);
}

/// nbr-lag sends 0, and gives the age of a message as its receipt and the rounds since have left it; no link is needed.
#[test]
fn a_message_lags() {
    let (mut one, mut two) = (fresh_network(), fresh_network());
    let (link, fire) = (Event::link(1, 2, 40).expect("bytes"), [1, 2].map(|a| Event::fire(a).expect("bytes")));
    assert_eq!(does_by(&LAGS, &mut one, link.as_bytes()), [0, 0]);
    assert_eq!(does_by(&LAGS, &mut one, fire[0].as_bytes()), [0, 0]);
    let message = taken(&mut one, 1, 2).expect("it was fired");
    assert_eq!(message, [1, 2, 0, 2, 0, 0, 0, 0]);
    // The same with 5 in the slot: such a device is in no field of lags.
    for (sent, values) in [(0, [10, 11, 12, 0]), (5, [0, 0, 0, 0])] {
        assert_eq!(put(&mut two, &[1, 2, 0, 2, 0, 0, 0, sent]), Some((1, 2)));
        assert_eq!(does_by(&LAGS, &mut two, Event::deliver(1, 2).expect("bytes").as_bytes()), [0, 0]);
        for value in values {
            assert_eq!(does_by(&LAGS, &mut two, fire[1].as_bytes()), [0, value], "{sent} in the slot");
        }
    }
}

/// Tablets 1 and 2, each with its own network, and the office with one network for both.
#[test]
fn from_network_to_network() {
    let (mut one, mut two, mut office) = (fresh_network(), fresh_network(), fresh_network());
    let link = Event::link(1, 2, 40).expect("bytes");
    let fire = [1, 2].map(|a| Event::fire(a).expect("bytes"));
    for event in [link, fire[0]] {
        assert_eq!(does(&mut one, event.as_bytes()), does(&mut office, event.as_bytes()));
    }
    let message = taken(&mut one, 1, 2).expect("it was fired");
    assert_eq!(message, [1, 2, 0, 2, 0, 0, 0, 7]);
    let (a, b) = put(&mut two, &message).expect("a message");
    let deliver = Event::deliver(a, b).expect("bytes");
    assert_eq!(does(&mut two, deliver.as_bytes()), [0, 0]);
    assert_eq!(does(&mut office, deliver.as_bytes()), [0, 0]);
    assert_eq!(does(&mut two, fire[1].as_bytes()), [0, 7]);
    assert_eq!(does(&mut office, fire[1].as_bytes()), [0, 7]);
    let block = |a| cells::block(a).expect("a device")..cells::block(a + 1).expect("a device");
    assert_eq!((&one[block(1)], &two[block(2)]), (&office[block(1)], &office[block(2)]));
    // A loss that tablet 1 hears of.
    let mut bytes = [0; 5];
    let mut list = List::new(&mut bytes);
    assert_eq!(put(&mut one, &message), Some((1, 2)));
    assert_eq!(list.lose(1, 2), Ok(()));
    assert_eq!(does(&mut one, list.as_bytes()), [0, 0]);
    assert_eq!(does(&mut one, list.as_bytes()), [16, 0]);
    assert_eq!(one[block(1)], office[block(1)]);
}
