//! Networks as cells: sound ones, and ones with a broken rule.

use crate::broken::Expected;
use crate::random::Random;

pub const ABSENT: i32 = i32::MIN;
pub const BLOCK: usize = 545;
pub const CELLS: usize = 16 * BLOCK;
/// Lengths that no network has: 8,464 was the length before ages.
pub const WRONG_LENGTHS: [usize; 10] =
    [0, 1, 16, BLOCK, CELLS - BLOCK, 8_464, CELLS - 1, CELLS + 1, 8_736, CELLS + BLOCK];

pub fn variable(a: usize, v: usize) -> usize {
    (a - 1) * BLOCK + v
}

pub fn sensors(a: usize) -> usize {
    (a - 1) * BLOCK + 16
}

/// Slot i last heard from b; i = 0 is the link's distance.
pub fn heard(a: usize, b: usize, i: usize) -> usize {
    (a - 1) * BLOCK + 17 + 16 * (b - 1) + i
}

/// The message pending from a to b; i = 0 is its mark.
pub fn pending(a: usize, b: usize, i: usize) -> usize {
    (a - 1) * BLOCK + 273 + 16 * (b - 1) + i
}

/// The age of what a last heard from b.
pub fn age(a: usize, b: usize) -> usize {
    (a - 1) * BLOCK + 529 + (b - 1)
}

/// Whether a has heard b in a slot 1 to 15.
pub fn hears(cells: &[i32], a: usize, b: usize) -> bool {
    cells[heard(a, b, 1)..=heard(a, b, 15)].iter().any(|slot| *slot != ABSENT)
}

pub fn fresh() -> Vec<i32> {
    let mut cells = vec![ABSENT; CELLS];
    for a in 1..=16 {
        cells[sensors(a)] = 0;
        for b in 1..=16 {
            cells[pending(a, b, 0)] = 0;
        }
    }
    cells
}

/// The devices that a case lets act; few, so that they meet.
pub fn devices(random: &mut Random) -> Vec<u8> {
    let mut all: Vec<u8> = (1..=16).collect();
    random.shuffle(&mut all);
    let few = random.weighted(&[(4, 2), (5, 3), (3, 4), (2, 6), (1, 16)]);
    all.truncate(few);
    if random.chance(30) && !all.contains(&16) {
        all[0] = 16;
    }
    if random.chance(30) && !all.contains(&1) {
        all[1] = 1;
    }
    all
}

/// A sound network; busy among `devices`, as when fresh elsewhere or busy everywhere.
pub fn sound(devices: &[u8], random: &mut Random) -> Vec<i32> {
    match random.below(10) {
        0..=2 => fresh(),
        3..=8 => busy(devices, random),
        _ => busy(&(1..=16).collect::<Vec<u8>>(), random),
    }
}

/// A sound network, busy among `devices` and as when fresh elsewhere.
pub fn busy(devices: &[u8], random: &mut Random) -> Vec<i32> {
    let mut cells = fresh();
    let full = random.pick(&[10, 40, 80, 100]);
    let zeros = random.pick(&[0, 50, 90]);
    let slot = |random: &mut Random| if random.chance(zeros) { 0 } else { random.number() };
    for a in devices {
        let a = usize::from(*a);
        for v in 0..16 {
            if random.chance(full) {
                cells[variable(a, v)] = random.number();
            }
        }
        cells[sensors(a)] = match random.below(3) {
            0 => 0,
            1 => random.below(65_536) as i32,
            _ => random.below(8) as i32 | random.pick(&[0, 32_768]),
        };
        for b in devices.iter().map(|b| usize::from(*b)).filter(|b| *b != a) {
            if random.chance(60) {
                cells[heard(a, b, 0)] = random.pick(&[0, 1, 5, 10, 999_999, 1_000_000]);
            }
            let pends = random.chance(50);
            cells[pending(a, b, 0)] = i32::from(pends);
            for i in 1..16 {
                if random.chance(full) {
                    cells[heard(a, b, i)] = slot(random);
                }
                if pends && random.chance(full) {
                    cells[pending(a, b, i)] = slot(random);
                }
            }
            // An empty message has an age too.
            if hears(&cells, a, b) || random.chance(30) {
                cells[age(a, b)] = random.below(3) as i32;
            }
        }
    }
    cells
}

/// The labels of unsound networks.
pub const LABELS: [&str; 22] = [
    "11 sensors below 0",
    "11 sensors above 65,535",
    "11 distance below 0",
    "11 distance above 1,000,000",
    "11 mark above 1",
    "11 mark below 0",
    "11 slot present where the mark is 0",
    "11 own distance",
    "11 own heard slot",
    "11 own mark",
    "11 own pending slot",
    "11 age below 0",
    "11 age above 2",
    "11 own age",
    "11 age absent beside slot 1 alone",
    "11 age absent beside slot 15 alone",
    "11 age absent beside slots",
    "11 mark and age of one device",
    "11 ages of two senders",
    "11 age and the next device's sensors",
    "11 several cells",
    "11 wrong length",
];

/// Breaks a rule of a network, sometimes two; the label and the lowest cell that offends.
fn spoil(cells: &mut [i32], random: &mut Random) -> (&'static str, usize) {
    match random.chance(40) {
        true => spoil_ages(cells, random),
        false => spoil_others(cells, random),
    }
}

/// What is heard by a from b: these slots alone, and no age.
fn without_age(cells: &mut [i32], a: usize, b: usize, slots: &[usize], random: &mut Random) -> usize {
    cells[heard(a, b, 1)..=heard(a, b, 15)].fill(ABSENT);
    for slot in slots {
        cells[heard(a, b, *slot)] = random.number();
    }
    cells[age(a, b)] = ABSENT;
    age(a, b)
}

const TOO_LOW: [i32; 5] = [-1, -2, -3, -1_000_000, -i32::MAX];
const TOO_HIGH: [i32; 7] = [3, 3, 4, 256, 65_536, 1_000_000, i32::MAX];

/// Breaks the age of what a heard from b, in one of the ways; its cell.
fn spoil_age(cells: &mut [i32], a: usize, b: usize, random: &mut Random) -> usize {
    match random.below(3) {
        0 => cells[age(a, b)] = random.pick(&TOO_LOW),
        1 => cells[age(a, b)] = random.pick(&TOO_HIGH),
        _ => {
            let slot = random.between(1, 15);
            without_age(cells, a, b, &[slot], random);
        }
    }
    age(a, b)
}

/// Breaks an age, alone or with another cell.
fn spoil_ages(cells: &mut [i32], random: &mut Random) -> (&'static str, usize) {
    let a = random.between(1, 16);
    let mut others: Vec<usize> = (1..=16).filter(|b| *b != a).collect();
    random.shuffle(&mut others);
    let (b, c) = (others[0], others[1]);
    let mut put = |place: usize, number: i32| {
        cells[place] = number;
        place
    };
    match random.below(9) {
        0 => ("11 age below 0", put(age(a, b), random.pick(&TOO_LOW))),
        1 => ("11 age above 2", put(age(a, b), random.pick(&TOO_HIGH))),
        2 => ("11 own age", put(age(a, a), random.pick(&[0, 0, 1, 2, 3, -1, i32::MAX]))),
        3 => ("11 age absent beside slot 1 alone", without_age(cells, a, b, &[1], random)),
        4 => ("11 age absent beside slot 15 alone", without_age(cells, a, b, &[15], random)),
        5 => {
            let slots = [random.between(1, 7), random.between(8, 15)];
            ("11 age absent beside slots", without_age(cells, a, b, &slots, random))
        }
        6 => {
            let mark = put(pending(a, c, 0), random.pick(&[2, -1, ABSENT]));
            spoil_age(cells, a, b, random);
            ("11 mark and age of one device", mark)
        }
        7 => {
            let ages = [b, c].map(|from| spoil_age(cells, a, from, random));
            ("11 ages of two senders", ages[0].min(ages[1]))
        }
        _ => {
            let (a, b) = if a == 16 { (15, 16) } else { (a, b) };
            put(sensors(a + 1), random.pick(&[-1, 65_536]));
            ("11 age and the next device's sensors", spoil_age(cells, a, b, random))
        }
    }
}

/// Breaks one rule of other cells.
fn spoil_others(cells: &mut [i32], random: &mut Random) -> (&'static str, usize) {
    let a = random.between(1, 16);
    let b = (a + random.between(1, 15) - 1) % 16 + 1;
    let i = random.between(1, 15);
    let mut put = |label: &'static str, place: usize, number: i32| {
        cells[place] = number;
        (label, place)
    };
    match random.below(11) {
        0 => put("11 sensors below 0", sensors(a), random.pick(&[-1, -65_536, ABSENT, -i32::MAX])),
        1 => put("11 sensors above 65,535", sensors(a), random.pick(&[65_536, 65_537, i32::MAX])),
        2 => put("11 distance below 0", heard(a, b, 0), random.pick(&[-1, -1_000_000, -i32::MAX])),
        3 => put("11 distance above 1,000,000", heard(a, b, 0), random.pick(&[1_000_001, 2_000_000, i32::MAX])),
        4 => put("11 mark above 1", pending(a, b, 0), random.pick(&[2, 3, 256, i32::MAX])),
        5 => put("11 mark below 0", pending(a, b, 0), random.pick(&[-1, ABSENT, -i32::MAX])),
        6 => {
            for other in 0..16 {
                put("", pending(a, b, other), if other == 0 { 0 } else { ABSENT });
            }
            let number = random.number();
            put("11 slot present where the mark is 0", pending(a, b, i), number)
        }
        7 => put("11 own distance", heard(a, a, 0), random.pick(&[0, 1, 1_000_000, -1])),
        8 => {
            let number = random.number();
            put("11 own heard slot", heard(a, a, i), number)
        }
        9 => put("11 own mark", pending(a, a, 0), random.pick(&[1, 2, -1, ABSENT])),
        _ => {
            let number = random.number();
            put("11 own pending slot", pending(a, a, i), number)
        }
    }
}

pub struct Unsound {
    pub label: &'static str,
    pub cells: Vec<i32>,
    pub expected: Expected,
}

pub fn unsound(devices: &[u8], random: &mut Random) -> Unsound {
    if random.chance(15) {
        let length = random.pick(&WRONG_LENGTHS);
        let mut cells = sound(devices, random);
        cells.resize(length, ABSENT);
        return Unsound { label: "11 wrong length", cells, expected: Some((11, Some(0))) };
    }
    let mut cells = sound(devices, random);
    if random.chance(70) {
        let (label, place) = spoil(&mut cells, random);
        return Unsound { label, cells, expected: Some((11, Some(place))) };
    }
    for _ in 0..random.between(1, 6) {
        if random.chance(60) {
            spoil(&mut cells, random);
        } else {
            let at = random.below(CELLS);
            cells[at] = random.pick(&[0, 1, 2, -1, 70_000, ABSENT, i32::MAX]);
        }
    }
    // The last one is not mended by another.
    spoil(&mut cells, random);
    Unsound { label: "11 several cells", cells, expected: None }
}
