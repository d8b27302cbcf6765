//! The works that are timed.

use crate::engines::table;
use crate::work::{Call, Effort, Start, Work};
use cases::events;
use cases::grow::{self, Shape};
use cases::random::Random;
use cases::spell::spell;
use cases::table::{Draft, Tree};
use differ::{Engine, Second};

/// Who hears a device.
type Near = fn(u8) -> Vec<u8>;

/// In a square, those beside, before and behind it.
fn square(a: u8) -> Vec<u8> {
    let (row, column) = ((a - 1) / 4, (a - 1) % 4);
    (1..=16).filter(|b| (row.abs_diff((b - 1) / 4) + column.abs_diff((b - 1) % 4)) == 1).collect()
}

/// In a ring, the one on either side, of every fourth the one opposite too.
fn ring(a: u8) -> Vec<u8> {
    let steps: &[u8] = if a % 4 == 1 { &[1, 8, 15] } else { &[1, 15] };
    steps.iter().map(|step| (a - 1 + step) % 16 + 1).collect()
}

/// Device 1 is lit, each device linked to those near it.
fn linked(near: Near) -> Vec<Vec<u8>> {
    let links = (1..=16).flat_map(|a| near(a).into_iter().map(move |b| events::link(a, b, 10)));
    [events::signal(1, 1, 1)].into_iter().chain(links).collect()
}

/// Every device fires and, where `heard`, those near it hear it.
fn turn(near: Near, heard: bool) -> Vec<Vec<u8>> {
    let one = |a: u8| {
        let hearers = if heard { near(a) } else { vec![] };
        [events::fire(a)].into_iter().chain(hearers.into_iter().map(move |b| events::deliver(a, b)))
    };
    (1..=16).flat_map(one).collect()
}

/// So many events of a fleet of sixteen devices, in which each is heard in every `often`-th turn.
fn fleet(near: Near, often: usize, count: usize) -> Vec<Vec<u8>> {
    let turns = (1..).flat_map(|number| turn(near, number % often == 0));
    linked(near).into_iter().chain(turns).take(count).collect()
}

/// A fleet in a square that misses no message.
fn grid(count: usize) -> Vec<Vec<u8>> {
    fleet(square, 1, count)
}

/// A program of 200 nodes that calculates: operators in a chain, with constants.
fn arithmetic() -> Vec<u8> {
    let mut main = Tree::new(4, &[], vec![Tree::constant(1)]);
    let mut o = 0;
    while main.size() < 200 {
        main = Tree::new(3, &[o % 3], vec![main, Tree::constant(i32::from(o) + 1)]);
        o = (o + 1) % 9;
    }
    assert_eq!(main.size(), 200);
    table(&Draft { definitions: vec![], main, orphans: vec![] })
}

/// Operators with halves of equal size below them, `size` nodes in all (odd).
fn balanced(size: usize) -> Tree {
    if size < 3 {
        return Tree::constant(size as i32);
    }
    let left = ((size - 1) / 2) | 1;
    Tree::new(3, &[(size % 3) as u8], vec![balanced(left), balanced(size - 1 - left)])
}

/// Folds a field of eight nbrs, joined by sums; after each sum a constant is multiplied or subtracted.
fn fields() -> Vec<u8> {
    let nbr = |slot: u8, child: Tree| Tree::new(8, &[slot], vec![child]);
    let mut field = nbr(1, Tree::new(4, &[], vec![Tree::constant(1)]));
    for slot in 2..=8 {
        field = Tree::sum(field, nbr(slot, Tree::constant(slot.into())));
        field = Tree::new(3, &[1 + slot % 2], vec![field, Tree::constant(3)]);
    }
    let main = Tree::new(10, &[0], vec![Tree::constant(0), field]);
    table(&Draft { definitions: vec![], main, orphans: vec![] })
}

/// Costs exactly 1,000,000. Each definition calls the one before it twice with two arguments; main folds what device 1 hears
/// by the last of them, and calls them until the cost is spent.
fn folds_and_calls() -> Draft {
    const LAST: u8 = 12;
    let parameter = |p: u8| Tree::new(1, &[p], vec![]);
    let mut definitions = vec![(2, Tree::sum(parameter(0), parameter(1)))];
    for below in 0..LAST {
        let call = |p, q| Tree::new(12, &[below], vec![parameter(p), parameter(q)]);
        definitions.push((2, Tree::sum(call(0, 1), call(1, 0))));
    }
    let body = |level: u8| 10 * (1_u32 << level) - 7;
    let heard = Tree::new(8, &[1], vec![Tree::constant(1)]);
    let mut main = Tree::new(11, &[LAST], vec![Tree::constant(0), heard]);
    let mut spent = 4 + 15 * body(LAST);
    for level in (0..=LAST).rev() {
        while spent + body(level) + 4 <= 1_000_000 {
            let call = Tree::new(12, &[level], vec![Tree::constant(1), Tree::constant(2)]);
            main = Tree::sum(main, call);
            spent += body(level) + 4;
        }
    }
    while spent < 1_000_000 {
        main = Tree::new(4, &[], vec![main]);
        spent += 1;
    }
    Draft { definitions, main, orphans: vec![] }
}

/// Device 1 hears all others in slot 1.
fn hears_all() -> Start {
    let heard = Tree::new(8, &[1], vec![Tree::constant(2)]);
    let main = Tree::new(10, &[0], vec![Tree::constant(0), heard]);
    let program = table(&Draft { definitions: vec![], main, orphans: vec![] });
    let hears = |b: u8| [events::link(b, 1, 10), events::fire(b), events::deliver(b, 1)];
    Start { program, list: (2..=16).flat_map(hears).collect() }
}

fn mostly_refused(count: usize) -> Vec<Vec<u8>> {
    let random = &mut Random::new(3, 3);
    let event = |at: usize| match at % 10 {
        0 => events::fire(1),
        1..=4 => events::deliver(1 + random.below(16) as u8, 17),
        5..=7 => events::deliver(1, 2),
        _ => events::link(3, 3, 5),
    };
    (0..count).map(event).collect()
}

/// A call of run.
fn run(name: &str, program: &[u8], list: Vec<Vec<u8>>, times: usize) -> Work {
    let call = Call::Run;
    Work { events: list.len(), call, ..event(name, program, vec![list.concat()], times) }
}

/// Calls of event, one for each list.
fn event(name: &str, program: &[u8], lists: Vec<Vec<u8>>, times: usize) -> Work {
    let (name, program, call) = (name.into(), program.to_vec(), Call::Event);
    Work { name, program, lists, call, times, number: 0, events: 1, start: None, effort: Effort::Usual }
}

/// Calls of check.
fn check(name: &str, draft: &Draft, number: u32) -> Work {
    Work { number, events: 0, call: Call::Check, ..event(name, &table(draft), vec![vec![]], 1_000) }
}

fn distance_to() -> Vec<u8> {
    table(&grow::distance_to(9, [1, 2], 0))
}

/// distance-to with nbr-lag in place of nbr-range: how stale the news of the lit device is.
fn lag_to() -> Vec<u8> {
    table(&grow::distance_to(13, [1, 2], 0))
}

/// A fold of nbr-lag and nbr-range, both of which send 0.
fn lags_and_ranges() -> Vec<u8> {
    let field = Tree::sum(Tree::new(13, &[1], vec![]), Tree::new(9, &[2], vec![]));
    let main = Tree::new(10, &[0], vec![Tree::constant(0), field]);
    table(&Draft { definitions: vec![], main, orphans: vec![] })
}

/// Fifteen folds, each of an nbr: sums, by this kind (10, by operator; 11, by a definition that adds).
fn sums(kind: u8) -> Vec<u8> {
    let parameter = |p: u8| Tree::new(1, &[p], vec![]);
    let nbr = |slot: u8| Tree::new(8, &[slot], vec![Tree::constant(slot.into())]);
    let fold = |slot: u8| Tree::new(kind, &[0], vec![Tree::constant(0), nbr(slot)]);
    let main = (2..=15).fold(fold(1), |sum, slot| Tree::sum(sum, fold(slot)));
    table(&Draft { definitions: vec![(2, Tree::sum(parameter(0), parameter(1)))], main, orphans: vec![] })
}

/// Runs on a whole fleet.
fn fleets() -> Vec<Work> {
    let seldom = fleet(square, 5, 20_000);
    let level = Draft { definitions: vec![], main: balanced(199), orphans: vec![] };
    assert_eq!(level.size(), 199);
    vec![
        run("run of 20,000 events: distance-to, a grid of 16 devices", &distance_to(), grid(20_000), 1),
        run("the same with 199 nodes of arithmetic, halves below halves", &table(&level), grid(20_000), 1),
        run("the same with 200 nodes of arithmetic in a chain, 100 deep", &arithmetic(), grid(20_000), 1),
        run("the same with a fold of eight nbrs, sums and constants between them", &fields(), grid(20_000), 1),
        run("run of 20,000 events: distance-to by nbr-lag, the grid", &lag_to(), grid(20_000), 1),
        run(
            "run of 20,000 events: distance-to, a ring, each hears two or three",
            &distance_to(),
            fleet(ring, 1, 20_000),
            1,
        ),
        run("the same with fifteen folds of an nbr by an operator", &sums(10), fleet(ring, 1, 20_000), 1),
        run("the same with fifteen folds of an nbr by a definition", &sums(11), fleet(ring, 1, 20_000), 1),
        run(
            "run of 20,000 events: distance-to, the grid, one message in five is heard, and fades",
            &distance_to(),
            seldom.clone(),
            1,
        ),
        run(
            "run of 20,000 events: a fold of nbr-lag and nbr-range, the grid, one message in five is heard",
            &lags_and_ranges(),
            seldom,
            1,
        ),
    ]
}

/// Single fires that cost all that one may.
fn dear_fires() -> Vec<Work> {
    let calls = Draft { definitions: grow::tower(19), main: grow::spend(19, 1_000_000), orphans: vec![] };
    let mut folds = folds_and_calls();
    let folds_table = &table(&folds);
    folds.main = Tree::new(4, &[], vec![folds.main]);
    assert_eq!(Second.check(&table(&folds)), (10, 0), "one more is too much");
    let fire = |name: &str, program: &[u8]| event(name, program, vec![events::fire(1)], 1);
    vec![
        fire("one fire of a program that costs 1,000,000: calls without arguments", &table(&calls)),
        Work {
            start: Some(hears_all()),
            ..fire("the same: a fold by definition, calls with two arguments", folds_table)
        },
    ]
}

/// An event a call.
fn single_events() -> Vec<Work> {
    let program = &distance_to();
    let mut all = vec![
        event("one event, distance-to: fire", program, vec![events::fire(1)], 1_000),
        event("one event: signal", program, vec![events::signal(1, 1, 1)], 1_000),
        event("one event: link", program, vec![events::link(1, 2, 10)], 1_000),
    ];
    for (name, end) in [("deliver", events::deliver(1, 2)), ("lose", events::lose(1, 2))] {
        let lists = vec![events::link(1, 2, 10), events::fire(1), end];
        all.push(event(&format!("one event, in turn link, fire, {name}: each"), program, lists, 350));
    }
    all.push(in_use());
    all.push(silent());
    all
}

/// A grid in which all have heard each other: the events of its next turns, an event a call.
fn in_use() -> Work {
    let program = distance_to();
    let list = [linked(square), turn(square, true), turn(square, true)].concat();
    let name = "one event, a grid in use, its fires and deliveries in turn: each";
    Work { start: Some(Start { program: program.clone(), list }), ..event(name, &program, turn(square, true), 16) }
}

/// A grid with all its links in which nobody has been heard, as when all have faded: signals, an event a call.
fn silent() -> Work {
    let program = distance_to();
    let lists = (1..=16).flat_map(|a| [events::signal(a, 2, 1), events::signal(a, 2, 0)]).collect();
    let name = "one event, a grid in which nobody is heard: signal";
    Work { start: Some(Start { program: program.clone(), list: linked(square) }), ..event(name, &program, lists, 16) }
}

/// A program of 256 nodes, of kinds that older libraries know too.
fn full() -> Draft {
    let shape = Shape { nodes: 256, definitions: 8, cost: 4_000, spare: 0, deep: 20, measures: &[9] };
    let mut full = grow::accepted(shape, &mut Random::new(8, 8));
    grow::pad(&mut full, 256);
    assert_eq!(full.size(), 256);
    full
}

/// What is done without events.
fn checks() -> Vec<Work> {
    let tower = Draft { definitions: grow::tower(32), main: Tree::new(12, &[31], vec![]), orphans: vec![] };
    vec![
        check("check of 256 nodes", &full(), 0),
        check("check of a tower of 32 definitions, refused with 10", &tower, 10),
        Work { call: Call::Fresh, ..check("fresh", &tower, 0) },
    ]
}

/// Calls of read_text.
fn read_text(name: &str, text: Vec<u8>, number: u32, times: usize) -> Work {
    Work { number, events: 0, call: Call::ReadText, ..event(name, &text, vec![vec![]], times) }
}

const KB: usize = 1_024;
const MB: usize = KB * KB;

/// So many times a piece that the whole text, with its front and end, has about `size` bytes and no more.
fn filled(size: usize, front: &str, piece: &str, end: &str) -> Vec<u8> {
    [front, &piece.repeat((size - front.len() - end.len()) / piece.len()), end].concat().into_bytes()
}

/// A parameter, read so often that the text has this size. Each is sought outwards, past all that stand before it in the
/// definition.
fn names(size: usize) -> Vec<u8> {
    filled(size, "(def h () 1)(def g (x) (h", " x", "))1")
}

/// So many definitions that the text has about this size. Each name is sought among those before it, from the start.
fn definitions(size: usize) -> Vec<u8> {
    let one = |n: usize| format!("(def d{n:06}()1)");
    let all: String = (0..(size - 1) / one(0).len()).map(one).collect();
    (all + "1").into_bytes()
}

/// Calls in calls, so deep that the text has this size.
fn nested(size: usize) -> Vec<u8> {
    let front = "(def f (a) a)";
    let depth = (size - front.len()) / 3;
    [front, &"(f".repeat(depth), " 1", &")".repeat(depth)].concat().into_bytes()
}

/// Texts: a program that is accepted, then long ones, whose 257th node is refused when all else has been tested.
fn texts() -> Vec<Work> {
    let words = spell(&full(), &mut Random::new(8, 8)).words;
    // One blank between words; or as many line ends as make up the size.
    let plain: Vec<u8> = words.iter().flat_map(|word| [word.text.as_bytes(), b" "].concat()).collect();
    let spread = |size: usize| {
        let blanks = "\n".repeat((size - plain.len()) / words.len() + 1);
        words.iter().flat_map(|word| [word.text.as_bytes(), blanks.as_bytes()].concat()).collect::<Vec<u8>>()
    };
    let call = "(def f (a) a)(f";
    vec![
        read_text("read_text of 256 nodes", plain.clone(), 0, 100),
        read_text("the same with blanks, 16 KB", spread(16 * KB), 0, 10),
        read_text("read_text of 16 KB: a call of numbers, refused with 2", filled(16 * KB, call, " 1", ")"), 2, 10),
        read_text("read_text of 16 KB: a parameter read again and again, refused with 2", names(16 * KB), 2, 1),
        read_text("read_text of 16 KB: definitions of a number, refused with 2", definitions(16 * KB), 2, 1),
        read_text("read_text of 1 MB: a call of numbers, refused with 2", filled(MB, call, " 1", ")"), 2, 1),
        read_text("read_text of 1 MB: calls in calls, (f(f(f.., refused with 2", nested(MB), 2, 1),
        Work {
            effort: Effort::NotSecond,
            ..read_text("the same without their ends, refused with 19", filled(MB, "", "(f", ""), 19, 1)
        },
        Work {
            effort: Effort::Long,
            ..read_text("read_text of 1 MB: a parameter read again and again, refused with 2", names(MB), 2, 1)
        },
    ]
}

/// The works of the first table; those that take minutes too, where `long`.
pub fn all(long: bool) -> Vec<Work> {
    let refused = mostly_refused(20_000);
    let refused = run("run of 20,000 events, nine in ten refused (14, 15, 16)", &distance_to(), refused, 1);
    let works = [fleets(), dear_fires(), single_events(), checks(), vec![refused], texts()];
    works.into_iter().flatten().filter(|work| long || work.effort != Effort::Long).collect()
}

/// Runs of ever more events.
pub fn growth() -> Vec<Work> {
    [(0, 1_000), (1_000, 20), (10_000, 1), (100_000, 1)]
        .map(|(count, times)| run(&format!("{count}"), &distance_to(), grid(count), times))
        .into()
}
