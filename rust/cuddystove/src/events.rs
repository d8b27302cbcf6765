//! Events and lists of them, as the bytes that [`event`](crate::event) and [`run`](crate::run) take.
//!
//! ```
//! use cuddystove::events::{Event, List};
//!
//! let mut bytes = [0; 100];
//! let mut list = List::new(&mut bytes);
//! list.link(1, 2, 40)?;
//! list.fire(1)?;
//! list.deliver(1, 2)?;
//! assert_eq!(list.as_bytes(), [0x13, 0, 6, 1, 2, 0, 0, 0, 40, 0x10, 0, 1, 1, 0x11, 0, 2, 1, 2]);
//!
//! assert_eq!(Event::fire(1)?.as_bytes(), [0x10, 0, 1, 1]); // one event alone
//! # Ok::<(), cuddystove::events::NotWritten>(())
//! ```
//!
//! An item that has its bytes and is out of range all the same, as device 17, is written: the engine answers it with
//! 14.

use core::{error, fmt};

use crate::{ABSENT, LONGEST_EVENT};

const FIRE: u8 = 0x10;
const DELIVER: u8 = 0x11;
const LOSE: u8 = 0x12;
const LINK: u8 = 0x13;
const SIGNAL: u8 = 0x14;

/// Why an event was not written.
#[derive(Clone, Copy, Debug, PartialEq, Eq)]
#[non_exhaustive]
pub enum NotWritten {
    /// An item has no byte: a device, sensor or switch outside 0 to 255, a distance outside 0 to 2,147,483,647.
    NoByte,
    /// The list has not so much room left.
    NoRoom,
}

impl fmt::Display for NotWritten {
    fn fmt(&self, f: &mut fmt::Formatter) -> fmt::Result {
        f.write_str(match self {
            NotWritten::NoByte => "An item of the event has no byte.",
            NotWritten::NoRoom => "The event does not fit into the list.",
        })
    }
}

impl error::Error for NotWritten {}

/// One event; its bytes are the list of a call of [`event`](crate::event).
#[derive(Clone, Copy, Debug, PartialEq, Eq)]
pub struct Event {
    bytes: [u8; LONGEST_EVENT],
    length: usize,
}

impl Event {
    /// Device `a` does a round: its variables are stored, what it has heard [ages or fades](crate::cells), and each b
    /// that `a` has a link to has a message of `a`'s pending.
    pub fn fire(a: i64) -> Result<Event, NotWritten> {
        Ok(Event::new([FIRE, 0, 1, byte(a)?]))
    }

    /// The message pending from `a` to `b` becomes what `b` last heard from `a`, at age 0, and is no longer pending.
    pub fn deliver(a: i64, b: i64) -> Result<Event, NotWritten> {
        Ok(Event::new([DELIVER, 0, 2, byte(a)?, byte(b)?]))
    }

    /// The message pending from `a` to `b` goes.
    pub fn lose(a: i64, b: i64) -> Result<Event, NotWritten> {
        Ok(Event::new([LOSE, 0, 2, byte(a)?, byte(b)?]))
    }

    /// There is a link from `a` to `b` of that distance. The mark is no distance here: [`unlink`](Event::unlink) ends
    /// a link.
    pub fn link(a: i64, b: i64, distance: i64) -> Result<Event, NotWritten> {
        let distance = i32::try_from(distance).ok().filter(|distance| *distance >= 0);
        Event::of_link(a, b, distance.ok_or(NotWritten::NoByte)?)
    }

    /// There is no link from `a` to `b`: a link event with the mark.
    pub fn unlink(a: i64, b: i64) -> Result<Event, NotWritten> {
        Event::of_link(a, b, ABSENT)
    }

    /// The sensor of `a`, 0 to 15, is lit (1) or not (0).
    pub fn signal(a: i64, sensor: i64, lit: i64) -> Result<Event, NotWritten> {
        Ok(Event::new([SIGNAL, 0, 3, byte(a)?, byte(sensor)?, byte(lit)?]))
    }

    /// The event as bytes.
    pub fn as_bytes(&self) -> &[u8] {
        &self.bytes[..self.length]
    }

    fn of_link(a: i64, b: i64, distance: i32) -> Result<Event, NotWritten> {
        let [first, second, third, last] = distance.to_be_bytes();
        Ok(Event::new([LINK, 0, 6, byte(a)?, byte(b)?, first, second, third, last]))
    }

    fn new<const LENGTH: usize>(event: [u8; LENGTH]) -> Event {
        const { assert!(LENGTH <= LONGEST_EVENT) };
        let mut bytes = [0; LONGEST_EVENT];
        bytes[..LENGTH].copy_from_slice(&event);
        Event { bytes, length: LENGTH }
    }
}

fn byte(item: i64) -> Result<u8, NotWritten> {
    u8::try_from(item).map_err(|_| NotWritten::NoByte)
}

/// A list of events that grows in a lent slice. Each function appends one event; where it gives [`NotWritten`],
/// nothing was written and the list is as before.
#[derive(Debug)]
pub struct List<'a> {
    bytes: &'a mut [u8],
    length: usize,
}

impl<'a> List<'a> {
    /// An empty list; its events will stand at the beginning of the slice.
    pub fn new(bytes: &'a mut [u8]) -> List<'a> {
        List { bytes, length: 0 }
    }

    /// The events so far, as bytes.
    pub fn as_bytes(&self) -> &[u8] {
        &self.bytes[..self.length]
    }

    /// Empties the list.
    pub fn clear(&mut self) {
        self.length = 0;
    }

    /// Appends an event.
    pub fn add(&mut self, event: Event) -> Result<(), NotWritten> {
        let room = self.bytes[self.length..].get_mut(..event.length).ok_or(NotWritten::NoRoom)?;
        room.copy_from_slice(event.as_bytes());
        self.length += event.length;
        Ok(())
    }

    /// Appends [`Event::fire`].
    pub fn fire(&mut self, a: i64) -> Result<(), NotWritten> {
        self.add(Event::fire(a)?)
    }

    /// Appends [`Event::deliver`].
    pub fn deliver(&mut self, a: i64, b: i64) -> Result<(), NotWritten> {
        self.add(Event::deliver(a, b)?)
    }

    /// Appends [`Event::lose`].
    pub fn lose(&mut self, a: i64, b: i64) -> Result<(), NotWritten> {
        self.add(Event::lose(a, b)?)
    }

    /// Appends [`Event::link`].
    pub fn link(&mut self, a: i64, b: i64, distance: i64) -> Result<(), NotWritten> {
        self.add(Event::link(a, b, distance)?)
    }

    /// Appends [`Event::unlink`].
    pub fn unlink(&mut self, a: i64, b: i64) -> Result<(), NotWritten> {
        self.add(Event::unlink(a, b)?)
    }

    /// Appends [`Event::signal`].
    pub fn signal(&mut self, a: i64, sensor: i64, lit: i64) -> Result<(), NotWritten> {
        self.add(Event::signal(a, sensor, lit)?)
    }
}
