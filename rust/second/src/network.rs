//! The network: its cells, and the maps they stand for.

use super::number::ABSENT;
use super::{refused, Refusal};
use std::collections::{BTreeMap, BTreeSet};
use std::sync::LazyLock;

/// Devices 1 to 16.
pub const DEVICES: usize = 16;
const BLOCK: usize = 545;
pub const CELLS: usize = DEVICES * BLOCK;
pub const FARTHEST: i32 = 1_000_000;
/// So many rounds read a message.
pub const READINGS: i32 = 3;

/// From device to number.
pub type Field = BTreeMap<u8, i32>;
/// From slot to number.
pub type Message = BTreeMap<u8, i32>;

/// What one device holds.
#[derive(Clone, Debug, Default, PartialEq, Eq)]
pub struct Device {
    pub variables: BTreeMap<u8, i32>,
    /// Its lit sensors.
    pub lit: BTreeSet<u8>,
    /// Its links to others.
    pub distances: Field,
    /// By sender, the message last heard from it.
    pub heard: BTreeMap<u8, Message>,
    /// By sender, how many more rounds read that message, also an empty one: its age counted from the other end.
    pub readings: BTreeMap<u8, i32>,
    /// By hearer, the message pending to it.
    pub pending: BTreeMap<u8, Message>,
}

impl Device {
    /// Hears a message in place of the one before.
    pub fn hear(&mut self, from: u8, message: Message) {
        self.readings.insert(from, READINGS);
        self.heard.insert(from, message);
    }

    /// A round has read all that was heard; what had its last reading is forgotten.
    pub fn fade(&mut self) {
        self.readings.values_mut().for_each(|left| *left -= 1);
        self.readings.retain(|_, left| *left > 0);
        self.heard.retain(|from, _| self.readings.contains_key(from));
    }
}

#[derive(Clone, Debug, PartialEq, Eq)]
pub struct Network {
    pub devices: BTreeMap<u8, Device>,
}

/// What a cell of a device's block stands for.
#[derive(Clone, Copy, Debug, PartialEq, Eq)]
enum Cell {
    Variable(u8),
    Sensors,
    Distance { to: u8 },
    Heard { from: u8, slot: u8 },
    Pending { to: u8 },
    Sent { to: u8, slot: u8 },
    Age { from: u8 },
}

/// The device that owns a cell, and what the cell stands for.
fn meaning(cell: usize) -> (u8, Cell) {
    let device = (cell / BLOCK + 1) as u8;
    let within = cell % BLOCK;
    let row = |start: usize| (((within - start) / 16 + 1) as u8, ((within - start) % 16) as u8);
    let stands_for = match within {
        0..=15 => Cell::Variable(within as u8),
        16 => Cell::Sensors,
        17..=272 => match row(17) {
            (to, 0) => Cell::Distance { to },
            (from, slot) => Cell::Heard { from, slot },
        },
        273..=528 => match row(273) {
            (to, 0) => Cell::Pending { to },
            (to, slot) => Cell::Sent { to, slot },
        },
        _ => Cell::Age { from: (within - 529 + 1) as u8 },
    };
    (device, stands_for)
}

/// The meanings of all cells, found once.
static MEANINGS: LazyLock<Vec<(u8, Cell)>> = LazyLock::new(|| (0..CELLS).map(meaning).collect());

/// Where a cell lies: the other way round.
fn address(device: u8, cell: Cell) -> usize {
    let row = |start: usize, other: u8, slot: u8| start + 16 * (usize::from(other) - 1) + usize::from(slot);
    let within = match cell {
        Cell::Variable(v) => usize::from(v),
        Cell::Sensors => 16,
        Cell::Distance { to } => row(17, to, 0),
        Cell::Heard { from, slot } => row(17, from, slot),
        Cell::Pending { to } => row(273, to, 0),
        Cell::Sent { to, slot } => row(273, to, slot),
        Cell::Age { from } => 529 + usize::from(from) - 1,
    };
    (usize::from(device) - 1) * BLOCK + within
}

/// The number in a cell of a fresh network.
fn when_fresh(cell: Cell) -> i32 {
    match cell {
        Cell::Sensors | Cell::Pending { .. } => 0,
        _ => ABSENT,
    }
}

/// Whether a cell of this device may hold this number, among the others of its network.
fn sound(cells: &[i32], device: u8, cell: Cell, number: i32) -> bool {
    match cell {
        Cell::Variable(_) => true,
        Cell::Sensors => (0..=65_535).contains(&number),
        Cell::Distance { to: other }
        | Cell::Heard { from: other, .. }
        | Cell::Pending { to: other }
        | Cell::Sent { to: other, .. }
        | Cell::Age { from: other }
            if other == device =>
        {
            number == when_fresh(cell)
        }
        Cell::Distance { .. } => number == ABSENT || (0..=FARTHEST).contains(&number),
        Cell::Heard { .. } => true,
        Cell::Pending { .. } => number == 0 || number == 1,
        Cell::Sent { to, .. } => number == ABSENT || cells[address(device, Cell::Pending { to })] != 0,
        Cell::Age { from } if number == ABSENT => {
            (1..=15).all(|slot| cells[address(device, Cell::Heard { from, slot })] == ABSENT)
        }
        Cell::Age { .. } => (0..READINGS).contains(&number),
    }
}

impl Network {
    pub fn fresh() -> Network {
        Network { devices: (1..=DEVICES as u8).map(|device| (device, Device::default())).collect() }
    }

    /// Reads a sound network; refusal 11 otherwise.
    pub fn decode(cells: &[i32]) -> Result<Network, Refusal> {
        if cells.len() != CELLS {
            return refused(11, 0);
        }
        let mut network = Network::fresh();
        for (place, (number, &(device, cell))) in cells.iter().zip(MEANINGS.iter()).enumerate() {
            if !sound(cells, device, cell, *number) {
                return refused(11, place);
            }
            if *number == when_fresh(cell) {
                continue;
            }
            let device = network.device(device);
            match cell {
                Cell::Variable(v) => {
                    device.variables.insert(v, *number);
                }
                Cell::Sensors => device.lit = (0..16).filter(|s| number >> s & 1 == 1).collect(),
                Cell::Distance { to } => {
                    device.distances.insert(to, *number);
                }
                Cell::Heard { from, slot } => {
                    device.heard.entry(from).or_default().insert(slot, *number);
                }
                Cell::Pending { to } => {
                    device.pending.insert(to, Message::new());
                }
                Cell::Sent { to, slot } => {
                    device.pending.entry(to).or_default().insert(slot, *number);
                }
                Cell::Age { from } => {
                    device.readings.insert(from, READINGS - number);
                }
            }
        }
        Ok(network)
    }

    /// Writes all cells.
    pub fn encode(&self, cells: &mut [i32]) {
        for (number, (_, cell)) in cells.iter_mut().zip(MEANINGS.iter()) {
            *number = when_fresh(*cell);
        }
        for (a, device) in &self.devices {
            let mut put = |cell: Cell, number: i32| cells[address(*a, cell)] = number;
            for (v, number) in &device.variables {
                put(Cell::Variable(*v), *number);
            }
            put(Cell::Sensors, device.lit.iter().map(|s| 1 << s).sum());
            for (b, distance) in &device.distances {
                put(Cell::Distance { to: *b }, *distance);
            }
            for (b, message) in &device.heard {
                for (slot, number) in message {
                    put(Cell::Heard { from: *b, slot: *slot }, *number);
                }
            }
            for (b, left) in &device.readings {
                put(Cell::Age { from: *b }, READINGS - left);
            }
            for (b, message) in &device.pending {
                put(Cell::Pending { to: *b }, 1);
                for (slot, number) in message {
                    put(Cell::Sent { to: *b, slot: *slot }, *number);
                }
            }
        }
    }

    pub fn device(&mut self, a: u8) -> &mut Device {
        self.devices.get_mut(&a).expect("devices 1 to 16")
    }
}

#[cfg(test)]
mod tests {
    use super::*;

    #[test]
    fn every_cell_has_one_address() {
        for place in 0..CELLS {
            let (device, cell) = meaning(place);
            assert_eq!(address(device, cell), place);
        }
    }

    #[test]
    fn decoding_and_encoding_keeps_every_sound_cell() {
        let mut cells = vec![0; CELLS];
        for (place, number) in cells.iter_mut().enumerate() {
            let (device, cell) = meaning(place);
            *number = match cell {
                Cell::Variable(v) => i32::from(v) - 7,
                Cell::Sensors => 0x8001 + i32::from(device),
                Cell::Distance { to } if to != device => 62_500 * i32::from(to),
                Cell::Heard { from, slot } if from != device && from != 9 && slot != 3 => place as i32,
                Cell::Pending { to } if to != device => i32::from(to) % 2,
                Cell::Sent { to, slot } if to != device && to % 2 == 1 && slot > 4 => -(place as i32),
                // Device 9 is heard in no slot: its age is that of an empty message.
                Cell::Age { from } if from != device => i32::from(from) % 3,
                cell => when_fresh(cell),
            };
        }
        let mut again = vec![5; CELLS];
        Network::decode(&cells).unwrap().encode(&mut again);
        assert_eq!(cells, again);
    }
}
