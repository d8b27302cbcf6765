//! The wrapper with the library behind it: each call, accepted and refused, and refusals in words.

use std::collections::BTreeSet;

use cuddystove::{
    answers, cells, check, event, fresh, read_text, run, run_both, Answer, Refusal, ABSENT, BLOCK, CELLS, INF, OLDEST,
};

/// 01's program (i): (rep x 0 (+ x 1)).
const COUNTER: [u8; 39] = [
    0x01, 0, 5, 0, 0, 0, 0, 0, 0x01, 0, 2, 2, 0, 0x01, 0, 5, 0, 0, 0, 0, 1, 0x01, 0, 4, 3, 0, 1, 2, 0x01, 0, 4, 5, 0,
    0, 3, 0x03, 0, 1, 4,
];
/// (/ 1 0)
const DIVIDES: [u8; 27] = [0x01, 0, 5, 0, 0, 0, 0, 1, 0x01, 0, 5, 0, 0, 0, 0, 0, 0x01, 0, 4, 3, 3, 0, 1, 0x03, 0, 1, 2];

fn fresh_network() -> Vec<i32> {
    let mut network = vec![7; CELLS];
    assert_eq!(fresh(&mut network), Ok(()));
    network
}

fn number_and_place(result: Result<(), Refusal>) -> (u32, usize) {
    result.map_or_else(|refusal| (refusal.number, refusal.place), |()| (0, 0))
}

/// Outside the crate nobody makes this one by its name, since requests will add to it.
fn done(value: i32) -> Answer {
    Answer::from_pair([0, value]).expect("an answer")
}

fn all(space: &[i32]) -> Vec<Answer> {
    answers(space).map(|answer| answer.expect("the engine writes no other")).collect()
}

#[test]
fn check_accepts_and_refuses() {
    assert_eq!(check(&COUNTER), Ok(()));
    assert_eq!(number_and_place(check(&[])), (6, 0));
    assert_eq!(number_and_place(check(&[1, 0, 1, 14])), (3, 0));
    assert_eq!(number_and_place(check(&[1, 0, 1, 13])), (1, 0));
    for cut in 1..COUNTER.len() {
        assert!(check(&COUNTER[..cut]).is_err(), "cut after {cut}");
    }
}

/// A text's table starts the slice, and the rest stays; a slice that is one byte too short gets 13.
#[test]
fn read_text_writes_the_table() {
    let mut table = [7; 64];
    assert_eq!(read_text(b"(rep x 0\n  (+ x 1))\n", &mut table), Ok(COUNTER.len()));
    assert_eq!(table[..COUNTER.len()], COUNTER);
    assert_eq!(table[COUNTER.len()..], [7; 64 - COUNTER.len()]);
    assert_eq!(read_text(b"(/ 1 0)", &mut table), Ok(DIVIDES.len()));
    assert_eq!(table[..DIVIDES.len()], DIVIDES);
    assert_eq!(table[DIVIDES.len()..COUNTER.len()], COUNTER[DIVIDES.len()..]);
    for length in [COUNTER.len(), COUNTER.len() + 1] {
        assert_eq!(read_text(b"(rep x 0 (+ x 1))", &mut table[..length]), Ok(COUNTER.len()));
    }
    for length in [0, 1, COUNTER.len() - 1] {
        let mut short = vec![7; length];
        let refusal = read_text(b"(rep x 0 (+ x 1))", &mut short).expect_err("too short");
        assert_eq!((refusal.number, refusal.place), (13, 0));
        assert!(short.iter().all(|byte| *byte == 7), "{length}");
    }
}

/// Each refusal of a text comes with its place, writes nothing, and comes before 13.
#[test]
fn read_text_refuses() {
    for (text, number, place) in [
        ("", 19, 0),
        ("(+ 1", 19, 4),
        ("(+ 1)", 19, 4),
        ("(+\t1 2)", 19, 2),
        ("if", 19, 2),
        ("2147483648", 19, 9),
        ("abcdefghijklmnopq", 19, 16),
        ("1 x", 19, 2),
        ("x", 20, 0),
        ("(rep x x 1)", 20, 0),
        ("(def f () (f)) 1", 20, 0),
        ("(def if () 1) 1", 20, 0),
        ("(def f (a a) a) (f 1 2)", 20, 0),
        ("(def f (a) a) (f 1 2)", 1, 4),
        ("(nbr 1)", 7, 1),
        ("(def f () (rep x 0 x)) (+ (f) (f))", 9, 4),
    ] {
        let mut table = [7; 128];
        for length in [0, 1, 128] {
            let refusal = read_text(text.as_bytes(), &mut table[..length]).expect_err(text);
            assert_eq!((refusal.number, refusal.place), (number, place), "{text}");
        }
        assert_eq!(table, [7; 128], "{text}");
    }
    let deep = ["(sense ".repeat(256), "1".into(), ")".repeat(256)].concat();
    assert_eq!(read_text(deep.as_bytes(), &mut []).map_err(|refusal| (refusal.number, refusal.place)), Err((2, 256)));
}

#[test]
fn fresh_sets_every_cell() {
    let network = fresh_network();
    for (cell, number) in network.iter().enumerate() {
        let zero = match cell % BLOCK {
            16 => true,
            within => (273..529).contains(&within) && (within - 273) % 16 == 0,
        };
        assert_eq!(*number, if zero { 0 } else { ABSENT }, "cell {cell}");
    }
    for length in [0, 1, CELLS - 1, CELLS + 1] {
        let mut network = vec![7; length];
        assert_eq!(number_and_place(fresh(&mut network)), (11, 0));
        assert!(network.iter().all(|number| *number == 7));
    }
}

#[test]
fn event_does_one() {
    let mut network = fresh_network();
    let mut space = [5; 3];
    for value in 0..3 {
        assert_eq!(event(&COUNTER, &mut network, &[0x10, 0, 1, 2], &mut space), Ok(()));
        assert_eq!(space, [0, value, 5]);
        assert_eq!(network[BLOCK], value);
    }
    let before = network.clone();
    let mut one = |list: &[u8], space: &mut [i32]| number_and_place(event(&COUNTER, &mut network, list, space));
    assert_eq!(one(&[], &mut space), (12, 0));
    assert_eq!(one(&[0x10, 0, 1, 1, 0x10, 0, 1, 1], &mut space), (12, 1));
    assert_eq!(one(&[0x10, 0, 1, 1], &mut []), (13, 0));
    assert_eq!(one(&[0x10, 0, 1, 17], &mut space), (0, 0));
    assert_eq!(all(&space), [Answer::OutOfRange]);
    assert_eq!(event(&DIVIDES, &mut network, &[0x10, 0, 1, 1], &mut space), Ok(()));
    assert_eq!(all(&space), [Answer::DividedByZero(2)]);
    assert_eq!(network, before);
}

/// A slot that was heard asks for an age, whose cell is named; an age asks for no slot.
#[test]
fn an_age_beside_slots() {
    let (slot, age) = (cells::heard(3, 5, 15).expect("a slot"), cells::age(3, 5).expect("an age"));
    let refused = |network: &mut [i32]| number_and_place(run(&COUNTER, network, &[], &mut []));
    for number in [ABSENT, 7] {
        let mut network = fresh_network();
        network[slot] = number;
        assert_eq!(refused(&mut network), if number == ABSENT { (0, 0) } else { (11, age) });
        for good in 0..=OLDEST {
            network[age] = good;
            assert_eq!(refused(&mut network), (0, 0), "age {good}");
        }
        for bad in [-1, OLDEST + 1, INF] {
            network[age] = bad;
            assert_eq!(refused(&mut network), (11, age), "age {bad}");
        }
    }
    let mut network = fresh_network();
    let own = cells::age(3, 3).expect("an age");
    network[own] = 0;
    assert_eq!(refused(&mut network), (11, own));
}

/// 01's replay example.
#[test]
fn run_does_all() {
    let mut network = fresh_network();
    let list = [0x10, 0, 1, 1, 0x11, 0, 2, 1, 1, 0x10, 0, 1, 1, 0x11, 0, 2, 1, 2];
    let mut space = [5; 9];
    assert_eq!(run(&COUNTER, &mut network, &list, &mut space), Ok(()));
    assert_eq!(all(&space), [done(0), Answer::Itself, done(1), Answer::NothingPending]);
    assert_eq!(space[8], 5);
    assert_eq!(run(&COUNTER, &mut network, &[], &mut []), Ok(()));
    assert_eq!(number_and_place(run(&COUNTER, &mut network, &list[..17], &mut space)), (12, 3));
    assert_eq!(number_and_place(run(&COUNTER, &mut network, &list, &mut space[..7])), (13, 0));
    network[BLOCK + 16] = 65_536;
    assert_eq!(number_and_place(run(&COUNTER, &mut network, &list, &mut space)), (11, BLOCK + 16));
    assert_eq!(number_and_place(run(&COUNTER[1..], &mut network, &list, &mut space)), (1, 0));
}

/// Two orders of one shift end alike; each run is refused by itself.
#[test]
fn run_both_runs_each() {
    let (mut one, mut two) = (fresh_network(), fresh_network());
    let first = [0x10, 0, 1, 1, 0x10, 0, 1, 2, 0x10, 0, 1, 1];
    let second = [0x10, 0, 1, 1, 0x10, 0, 1, 1, 0x10, 0, 1, 2];
    let (mut space1, mut space2) = ([5; 6], [5; 7]);
    let both = run_both(&COUNTER, [&mut one, &mut two], [&first, &second], [&mut space1, &mut space2]);
    assert_eq!(both, [Ok(()), Ok(())]);
    assert_eq!(one, two);
    assert_eq!((one[0], one[BLOCK]), (1, 0));
    assert_eq!(space1, [0, 0, 0, 0, 0, 1]);
    assert_eq!(space2, [0, 0, 0, 1, 0, 0, 5]);
    let before = two.clone();
    let both = run_both(&COUNTER, [&mut one, &mut two], [&first, &second[..5]], [&mut space1, &mut space2]);
    assert_eq!(both.map(number_and_place), [(0, 0), (12, 1)]);
    assert_eq!((one[0], &two), (3, &before));
    let both = run_both(&COUNTER, [&mut one[1..], &mut two], [&first, &second], [&mut space1, &mut space2[..5]]);
    assert_eq!(both.map(number_and_place), [(11, 0), (13, 0)]);
    assert_eq!(two, before);
}

#[test]
fn refusals_in_words() {
    let refusal = check(&COUNTER[..38]).expect_err("cut short");
    assert_eq!((refusal.number, refusal.name, refusal.place), (1, "bad field", 5));
    assert_eq!(
        refusal.to_string(),
        "refused 1 5 (bad field): Field 5 of the program is cut short, of unknown tag, of the wrong length or without \
         a kind byte."
    );
    let refusal = read_text(b"(rep x 0 (+ x))", &mut []).expect_err("an operand is missing");
    assert_eq!(
        refusal.to_string(),
        "refused 19 13 (outside the notation): The text is outside the notation: no program is written so; its first 13 \
         bytes begin one."
    );
    let refusal = fresh(&mut [0; 3]).expect_err("too short");
    assert_eq!(refusal.sentence().to_string(), "The network is not 8,720 cells long.");
    let mut network = fresh_network();
    network[2 * BLOCK + 273 + 16 * 4] = 2;
    let refusal = run(&COUNTER, &mut network, &[], &mut []).expect_err("unsound");
    assert_eq!(
        refusal.sentence().to_string(),
        "Cell 1427 of the network holds what it may not (device 3, cell 337 of its block)."
    );
    let error: &dyn std::error::Error = &refusal;
    assert_eq!(error.to_string(), format!("refused 11 1427 (unsound network): {}", refusal.sentence()));
}

/// Each number has a name and a sentence of its own, be it returned or answered.
#[test]
fn every_number_has_its_words() {
    let returned = (1..=13).chain(18..=20).map(|number| Refusal::new(number, 7));
    let returned = returned.map(|refusal| (refusal.name, refusal.sentence().to_string()));
    let answered = (14..=17).map(|number| {
        let answer = Answer::from_pair([number, 0]).expect("an answer");
        assert_eq!(answer.number(), number as u32);
        (answer.name(), answer.sentence().to_string())
    });
    let done = (done(0).name(), done(0).sentence().to_string());
    let other = Refusal::new(21, 7);
    let other = (other.name, other.sentence().to_string());
    let words: Vec<(&str, String)> = returned.chain(answered).chain([done, other]).collect();
    let names: BTreeSet<&str> = words.iter().map(|(name, _)| *name).collect();
    let sentences: BTreeSet<&str> = words.iter().map(|(_, sentence)| &sentence[..]).collect();
    assert_eq!((words.len(), names.len(), sentences.len()), (22, 22, 22), "{words:?}");
    for (name, sentence) in &words {
        assert!(!name.is_empty() && sentence.ends_with('.'), "{name}: {sentence}");
    }
    // The place stands in the sentence of a refusal that has one.
    for number in [1, 2, 3, 4, 5, 7, 8, 9, 11, 12, 19] {
        assert!(Refusal::new(number, 4_321).sentence().to_string().contains(" 4321 "), "{number}");
    }
}

#[test]
fn answers_in_words() {
    let pairs = [0, 4, 14, 0, 15, 0, 16, 0, 17, 3, 18, 0, 14, 1, -1, 0, 0];
    let read: Vec<Option<Answer>> = answers(&pairs).collect();
    let expected = [done(4), Answer::OutOfRange, Answer::Itself, Answer::NothingPending, Answer::DividedByZero(3)];
    assert_eq!(read[..5], expected.map(Some));
    assert_eq!(read[5..], [None, None, None]);
    assert_eq!(expected.map(Answer::number), [0, 14, 15, 16, 17]);
    assert_eq!(expected.map(Answer::value), [Some(4), None, None, None, None]);
    assert!(matches!(expected[0], Answer::Done { value: 4, .. }));
    assert_eq!(done(-4).sentence().to_string(), "Done; the value is -4.");
    assert_eq!(done(INF).sentence().to_string(), "Done; the value is inf.");
    assert_eq!(done(INF).to_string(), "Done; the value is inf.");
    assert_eq!(
        Answer::DividedByZero(3).sentence().to_string(),
        "The round divided by 0 in node 3, and the fire changed nothing."
    );
}
