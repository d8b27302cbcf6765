//! Events: reading a list, and what each does to the network.

use super::network::{Network, DEVICES, FARTHEST};
use super::number::ABSENT;
use super::round::{self, Fault};
use super::table::take_field;
use super::tree::Program;
use super::{refused, Refusal};

/// An event as its field has it; nothing is in range yet.
#[derive(Clone, Copy, Debug, PartialEq, Eq)]
pub enum Event {
    Fire { a: u8 },
    Deliver { a: u8, b: u8 },
    Lose { a: u8, b: u8 },
    Link { a: u8, b: u8, distance: i32 },
    Signal { a: u8, sensor: u8, switch: u8 },
}

/// An event that was refused: the two numbers of its answer.
pub struct Turned {
    pub number: i32,
    pub value: i32,
}

/// The whole list.
pub fn all(list: &[u8]) -> Result<Vec<Event>, Refusal> {
    let mut events = Vec::new();
    let mut rest = list;
    while !rest.is_empty() {
        let Some((event, after)) = first(rest) else {
            return refused(12, events.len());
        };
        events.push(event);
        rest = after;
    }
    Ok(events)
}

/// A list of exactly one field.
pub fn only(list: &[u8]) -> Result<Vec<Event>, Refusal> {
    match first(list) {
        None => refused(12, 0),
        Some((event, [])) => Ok(vec![event]),
        Some(_) => refused(12, 1),
    }
}

/// The first event of a list and the bytes after it; none if the field is no event.
fn first(list: &[u8]) -> Option<(Event, &[u8])> {
    let (tag, body, rest) = take_field(list)?;
    let event = match (tag, body) {
        (0x10, &[a]) => Event::Fire { a },
        (0x11, &[a, b]) => Event::Deliver { a, b },
        (0x12, &[a, b]) => Event::Lose { a, b },
        (0x13, &[a, b, d3, d2, d1, d0]) => Event::Link { a, b, distance: i32::from_be_bytes([d3, d2, d1, d0]) },
        (0x14, &[a, sensor, switch]) => Event::Signal { a, sensor, switch },
        _ => return None,
    };
    Some((event, rest))
}

fn is_device(a: u8) -> bool {
    (1..=DEVICES).contains(&usize::from(a))
}

fn is_distance(distance: i32) -> bool {
    distance == ABSENT || (0..=FARTHEST).contains(&distance)
}

impl Event {
    /// Refusals 14 to 16.
    fn refusal(self, network: &Network) -> Option<i32> {
        let in_range = match self {
            Event::Fire { a } => is_device(a),
            Event::Deliver { a, b } | Event::Lose { a, b } => is_device(a) && is_device(b),
            Event::Link { a, b, distance } => is_device(a) && is_device(b) && is_distance(distance),
            Event::Signal { a, sensor, switch } => is_device(a) && sensor <= 15 && switch <= 1,
        };
        if !in_range {
            return Some(14);
        }
        match self {
            Event::Deliver { a, b } | Event::Lose { a, b } | Event::Link { a, b, .. } if a == b => Some(15),
            Event::Deliver { a, b } | Event::Lose { a, b } if !network.devices[&a].pending.contains_key(&b) => Some(16),
            _ => None,
        }
    }

    /// Does the event; answers its value, or why it was refused.
    pub fn apply(self, program: &Program, network: &mut Network) -> Result<i32, Turned> {
        if let Some(number) = self.refusal(network) {
            return Err(Turned { number, value: 0 });
        }
        match self {
            Event::Fire { a } => {
                let device = network.device(a);
                let outcome = round::evaluate(&program.main, device)
                    .map_err(|Fault(node)| Turned { number: 17, value: node as i32 })?;
                device.variables = outcome.variables;
                device.pending = device.distances.keys().map(|b| (*b, outcome.sent.clone())).collect();
                device.fade();
                return Ok(outcome.value);
            }
            Event::Deliver { a, b } => {
                let message = network.device(a).pending.remove(&b).expect("refusal 16 passed");
                network.device(b).hear(a, message);
            }
            Event::Lose { a, b } => {
                network.device(a).pending.remove(&b);
            }
            Event::Link { a, b, distance: ABSENT } => {
                network.device(a).distances.remove(&b);
            }
            Event::Link { a, b, distance } => {
                network.device(a).distances.insert(b, distance);
            }
            Event::Signal { a, sensor, switch: 1 } => {
                network.device(a).lit.insert(sensor);
            }
            Event::Signal { a, sensor, .. } => {
                network.device(a).lit.remove(&sensor);
            }
        }
        Ok(0)
    }
}
