//! Each event as bytes written by hand, at the edges of its items and beyond them; lists with too little room.

use cuddystove::events::{Event, List, NotWritten};
use cuddystove::{answers, fresh, run, Answer, ABSENT, ANSWER, CELLS, LONGEST_EVENT};

type Written = Result<Event, NotWritten>;

const NO_BYTE: Written = Err(NotWritten::NoByte);
/// No byte is one of these, and most of them would become one if they were cut to a byte.
const WRONG: [i64; 9] = [i64::MIN, -(1 << 32) + 1, -256, -1, 256, 257, 1 << 16, (1 << 32) + 1, i64::MAX];

fn bytes(event: Written) -> Vec<u8> {
    event.expect("it has its bytes").as_bytes().to_vec()
}

#[test]
fn bytes_by_hand() {
    assert_eq!(bytes(Event::fire(1)), [0x10, 0, 1, 1]);
    assert_eq!(bytes(Event::fire(16)), [0x10, 0, 1, 16]);
    assert_eq!(bytes(Event::deliver(3, 16)), [0x11, 0, 2, 3, 16]);
    assert_eq!(bytes(Event::lose(16, 1)), [0x12, 0, 2, 16, 1]);
    assert_eq!(bytes(Event::link(1, 2, 0)), [0x13, 0, 6, 1, 2, 0, 0, 0, 0]);
    assert_eq!(bytes(Event::link(1, 2, 40)), [0x13, 0, 6, 1, 2, 0, 0, 0, 40]);
    assert_eq!(bytes(Event::link(16, 15, 1_000_000)), [0x13, 0, 6, 16, 15, 0, 0x0f, 0x42, 0x40]);
    assert_eq!(bytes(Event::link(1, 2, 0x0102_0304)), [0x13, 0, 6, 1, 2, 1, 2, 3, 4]);
    assert_eq!(bytes(Event::link(1, 2, 0x7fff_ffff)), [0x13, 0, 6, 1, 2, 0x7f, 0xff, 0xff, 0xff]);
    assert_eq!(bytes(Event::unlink(1, 2)), [0x13, 0, 6, 1, 2, 0x80, 0, 0, 0]);
    assert_eq!(bytes(Event::signal(1, 0, 1)), [0x14, 0, 3, 1, 0, 1]);
    assert_eq!(bytes(Event::signal(16, 15, 0)), [0x14, 0, 3, 16, 15, 0]);
}

/// What has its bytes is written, in range or not.
#[test]
fn every_byte_is_written() {
    for item in 0..=255_u8 {
        let (n, other) = (i64::from(item), i64::from(!item));
        assert_eq!(bytes(Event::fire(n)), [0x10, 0, 1, item]);
        assert_eq!(bytes(Event::deliver(n, other)), [0x11, 0, 2, item, !item]);
        assert_eq!(bytes(Event::lose(n, other)), [0x12, 0, 2, item, !item]);
        assert_eq!(bytes(Event::link(n, other, n << 8)), [0x13, 0, 6, item, !item, 0, 0, item, 0]);
        assert_eq!(bytes(Event::unlink(n, other)), [0x13, 0, 6, item, !item, 0x80, 0, 0, 0]);
        assert_eq!(bytes(Event::signal(n, other, n)), [0x14, 0, 3, item, !item, item]);
    }
}

#[test]
fn an_item_without_a_byte_is_refused() {
    for wrong in WRONG {
        assert_eq!(Event::fire(wrong), NO_BYTE, "{wrong}");
        for (a, b) in [(wrong, 1), (1, wrong), (wrong, wrong)] {
            assert_eq!(Event::deliver(a, b), NO_BYTE, "{a} {b}");
            assert_eq!(Event::lose(a, b), NO_BYTE, "{a} {b}");
            assert_eq!(Event::link(a, b, 40), NO_BYTE, "{a} {b}");
            assert_eq!(Event::unlink(a, b), NO_BYTE, "{a} {b}");
            assert_eq!(Event::signal(a, b, 1), NO_BYTE, "{a} {b}");
        }
        assert_eq!(Event::signal(1, 1, wrong), NO_BYTE, "{wrong}");
    }
    let mark = i64::from(ABSENT);
    for wrong in [i64::MIN, mark - 1, mark, mark + 1, -1, 1 << 31, (1 << 32) - 1, 1 << 32, (1 << 32) + 40, i64::MAX] {
        assert_eq!(Event::link(1, 2, wrong), NO_BYTE, "{wrong}");
    }
}

/// Appends the event to a list with this much room, once by its name and once as an event; both do the same.
fn appended(room: usize, event: Written, by_name: impl Fn(&mut List) -> Result<(), NotWritten>) {
    let (mut one, mut two) = (vec![0xee; room], vec![0xee; room]);
    let mut list = List::new(&mut one);
    let result = by_name(&mut list);
    let expected =
        event.and_then(|event| if event.as_bytes().len() > room { Err(NotWritten::NoRoom) } else { Ok(event) });
    assert_eq!(result, expected.map(|_| ()));
    let length = expected.map_or(0, |event| event.as_bytes().len());
    assert_eq!(list.as_bytes(), expected.as_ref().map_or(&[][..], Event::as_bytes));
    assert!(one[length..].iter().all(|byte| *byte == 0xee), "written past the event, or at all");
    if let Ok(event) = event {
        assert_eq!(List::new(&mut two).add(event), result);
        assert_eq!(one, two);
    }
}

#[test]
fn a_list_takes_what_fits() {
    for room in 0..=LONGEST_EVENT + 1 {
        for a in [1, 255, 256, -1] {
            appended(room, Event::fire(a), |list| list.fire(a));
            appended(room, Event::deliver(a, 2), |list| list.deliver(a, 2));
            appended(room, Event::lose(2, a), |list| list.lose(2, a));
            appended(room, Event::link(a, 2, 40), |list| list.link(a, 2, 40));
            appended(room, Event::link(1, 2, a), |list| list.link(1, 2, a));
            appended(room, Event::unlink(a, 2), |list| list.unlink(a, 2));
            appended(room, Event::signal(1, a, 0), |list| list.signal(1, a, 0));
        }
    }
}

#[test]
fn a_list_grows() {
    let mut bytes = [0xee; 27];
    let mut list = List::new(&mut bytes);
    assert_eq!(list.as_bytes(), []);
    assert_eq!(list.link(1, 2, 40), Ok(()));
    assert_eq!(list.fire(256), Err(NotWritten::NoByte));
    assert_eq!(list.fire(1), Ok(()));
    assert_eq!(list.deliver(1, 2), Ok(()));
    assert_eq!(list.unlink(1, 2), Ok(()));
    let all = [0x13, 0, 6, 1, 2, 0, 0, 0, 40, 0x10, 0, 1, 1, 0x11, 0, 2, 1, 2, 0x13, 0, 6, 1, 2, 0x80, 0, 0, 0];
    assert_eq!(list.as_bytes(), all);
    assert_eq!(list.fire(1), Err(NotWritten::NoRoom));
    assert_eq!(list.as_bytes(), all);
    list.clear();
    assert_eq!(list.as_bytes(), []);
    assert_eq!(list.lose(3, 4), Ok(()));
    assert_eq!(list.as_bytes(), [0x12, 0, 2, 3, 4]);
}

/// Items at their edges and one beyond, as the engine answers them: 14 where they are out of range.
#[test]
fn the_engine_reads_them() {
    let out = Answer::OutOfRange;
    let done = Answer::from_pair([0, 7]).expect("an answer");
    let other = Answer::from_pair([0, 0]).expect("an answer");
    let cases = [
        (Event::fire(0), out),
        (Event::fire(1), done),
        (Event::fire(16), done),
        (Event::fire(17), out),
        (Event::fire(255), out),
        (Event::deliver(1, 17), out),
        (Event::deliver(2, 1), Answer::NothingPending),
        (Event::lose(1, 1), Answer::Itself),
        (Event::link(1, 2, 0), other),
        (Event::link(1, 2, 1_000_000), other),
        (Event::link(1, 2, 1_000_001), out),
        (Event::link(1, 2, 0x7fff_ffff), out),
        (Event::link(0, 2, 40), out),
        (Event::unlink(1, 2), other),
        (Event::signal(1, 0, 0), other),
        (Event::signal(1, 15, 1), other),
        (Event::signal(1, 16, 1), out),
        (Event::signal(1, 15, 2), out),
    ];
    let seven = [1, 0, 5, 0, 0, 0, 0, 7, 3, 0, 1, 0];
    let (mut network, mut bytes, mut space) = (vec![0; CELLS], [0; 200], [0; 18 * ANSWER]);
    assert_eq!(fresh(&mut network), Ok(()));
    let mut list = List::new(&mut bytes);
    for (event, _) in cases {
        assert_eq!(list.add(event.expect("it has its bytes")), Ok(()));
    }
    assert_eq!(run(&seven, &mut network, list.as_bytes(), &mut space), Ok(()));
    let answered: Vec<Answer> = answers(&space).flatten().collect();
    assert_eq!(answered, cases.map(|(_, answer)| answer));
}

#[test]
fn in_words() {
    let error: &dyn std::error::Error = &NotWritten::NoByte;
    assert_eq!(error.to_string(), "An item of the event has no byte.");
    assert_eq!(NotWritten::NoRoom.to_string(), "The event does not fit into the list.");
}
