//! The wrapper against the header's inline functions: `agree.c` writes what these give, and every line is the same
//! here.

use std::fmt::Write;
use std::path::Path;
use std::process::Command;

use cuddystove::events::{Event, List};
use cuddystove::messages::{put, take};
use cuddystove::{cells, CELLS, LONGEST_EVENT, LONGEST_MESSAGE};

const ITEMS: [i64; 23] = [
    i64::MIN,
    -4_294_967_295,
    -256,
    -1,
    0,
    1,
    2,
    15,
    16,
    17,
    40,
    255,
    256,
    257,
    65_536,
    1_000_001,
    i32::MIN as i64,
    i32::MAX as i64,
    2_147_483_648,
    4_294_967_295,
    4_294_967_297,
    4_294_967_336,
    i64::MAX,
];

struct Random(u64);

impl Random {
    fn next(&mut self, below: u32) -> u32 {
        self.0 = self.0.wrapping_mul(6_364_136_223_846_793_005).wrapping_add(1_442_695_040_888_963_407);
        (self.0 >> 33) as u32 % below
    }
}

fn hex(bytes: &[u8]) -> String {
    bytes.iter().fold(String::new(), |text, byte| format!("{text}{byte:02x}"))
}

fn cells_of(a: i64, b: i64, i: i64) -> String {
    let all = [
        cells::block(a),
        cells::variable(a, b),
        cells::sensors(a),
        cells::distance(a, b),
        cells::heard(a, b, i),
        cells::age(a, b),
        cells::is_pending(a, b),
        cells::pending(a, b, i),
    ];
    all.map(|cell| cell.map_or(" -".into(), |cell| format!(" {cell}"))).concat()
}

fn events_of(a: i64, b: i64, c: i64, room: usize) -> String {
    let all = [
        Event::fire(a),
        Event::deliver(a, b),
        Event::lose(a, b),
        Event::link(a, b, c),
        Event::unlink(a, b),
        Event::signal(a, b, c),
    ];
    all.map(|event| {
        let mut bytes = [0; LONGEST_EVENT];
        let mut list = List::new(&mut bytes[..room]);
        match event.and_then(|event| list.add(event)) {
            Ok(()) => format!(" {}", hex(list.as_bytes())),
            Err(_) => " -".into(),
        }
    })
    .concat()
}

/// A message, or bytes that are nearly one.
fn message(random: &mut Random) -> (Vec<u8>, usize) {
    // Some with slot 0, some with no slot, some with all fifteen.
    let (mask, more) = match random.next(8) {
        0 => (0xffff, 0),
        6 => (0, 0),
        7 => (0, 0xfffe),
        _ => (0xfffe, 0),
    };
    let kinds = if random.next(8) == 0 { 6 } else { 5 };
    let (off, sum_at) = (random.next(4), random.next(CELLS as u32) as usize);
    let (slots, sender, hearer) = (random.next(65_536) & mask | more, random.next(18), random.next(18));
    let mut bytes = [sender, hearer, slots >> 8, slots].map(|number| number as u8).to_vec();
    for i in 0..16 {
        let number = [0, 1, 0x7fff_ffff, 0x8000_0001, 0xffff_ffff, 0x8000_0000_u32][random.next(kinds) as usize];
        if slots >> i & 1 == 1 {
            bytes.extend(number.to_be_bytes());
        }
    }
    match off {
        0 => bytes.truncate(bytes.len() - random.next(4) as usize),
        1 => bytes.push(0),
        _ => {}
    }
    (bytes, sum_at)
}

fn messages_of(random: &mut Random, network: &mut [i32]) -> String {
    let (bytes, sum_at) = message(random);
    let length = put(network, &bytes).map_or(0, |_| bytes.len());
    let sum = network[sum_at..].iter().fold(0_u32, |sum, cell| sum.wrapping_mul(31).wrapping_add(*cell as u32));
    let mut out = [0; LONGEST_MESSAGE];
    let (a, b) = (random.next(18).into(), random.next(18).into());
    let taken = take(network, a, b, &mut out).map_or("-".into(), hex);
    format!("put {length} {sum} {taken}")
}

fn ours() -> String {
    let mut text = String::new();
    for (i, a) in ITEMS.into_iter().enumerate() {
        for (j, b) in ITEMS.into_iter().enumerate() {
            for (k, c) in ITEMS.into_iter().enumerate() {
                let (some, all) =
                    (events_of(a, b, c, (i + j + k) % (LONGEST_EVENT + 1)), events_of(a, b, c, LONGEST_EVENT));
                writeln!(text, "{a} {b} {c}:{}{some}{all}", cells_of(a, b, c)).expect("a line");
            }
        }
    }
    let (mut random, mut network) = (Random(1), vec![0; CELLS]);
    (0..20_000).for_each(|_| writeln!(text, "{}", messages_of(&mut random, &mut network)).expect("a line"));
    text
}

#[test]
fn line_by_line() {
    let here = Path::new(env!("CARGO_MANIFEST_DIR"));
    let program = Path::new(env!("CARGO_TARGET_TMPDIR")).join("agree");
    let mut compiler = Command::new("gcc");
    compiler.args(["-std=c99", "-O1", "-Wall", "-Wextra", "-Werror", "-I"]).arg(here.join("../../include"));
    let built = compiler.arg(here.join("tests/agree.c")).arg("-o").arg(&program).output().expect("gcc runs");
    assert!(built.status.success(), "{}", String::from_utf8_lossy(&built.stderr));
    let theirs = Command::new(&program).output().expect("it runs").stdout;
    let (theirs, ours) = (String::from_utf8(theirs).expect("text"), ours());
    for (theirs, ours) in theirs.lines().zip(ours.lines()) {
        assert_eq!(theirs, ours, "C, then Rust");
    }
    assert_eq!(theirs.lines().count(), ITEMS.len().pow(3) + 20_000);
    assert_eq!(theirs.len(), ours.len());
    // Messages of both sorts are among them.
    for (sort, least) in [("put 0 ", 5_000), ("put 4 ", 500), ("put 64 ", 500), ("put ", 20_000)] {
        let count = ours.lines().filter(|line| line.starts_with(sort)).count();
        assert!(count >= least, "{count} of {sort}");
    }
    let taken = ours.lines().filter(|line| line.starts_with("put ") && !line.ends_with('-')).count();
    assert!(taken > 1_000, "{taken} taken");
}
