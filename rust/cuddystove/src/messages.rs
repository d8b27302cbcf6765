//! Messages between tablets. Each tablet has a network of its own and does its own device's events on it. The way of a
//! message from tablet a to tablet b:
//!
//! - a: does fire a; then, for each b, [`take`] gives the message to b as bytes, takes it out of a's network, and a
//!   sends it;
//! - b: looks whether it is for b (its second byte); [`put`] puts it into b's network, as pending; then b does deliver
//!   a b at once, which sets b's age for a to 0. On its way a message has no age; [`take`] and [`put`] touch none;
//! - lost: nobody does anything, and what b heard from a before goes on ageing. Where a hears of it before its next
//!   fire, and its log shall have it: [`put`] on a's network, then lose a b. After that fire it must not: at the office
//!   lose would throw away the newer message.
//!
//! What the hosts see to: a message arrives as it was sent, once, and before its sender's next fire, or is thrown away
//! (a later one is gone in the office's network); send along how often a has fired, rounds that faulted too, and log
//! it with the receipt, so that the office can set the delivery between the right two fires. A message is logged as
//! received or as lost, not as both.
//!
//! Proved (demand 3): any two orders of all the tablets' events that keep clashing events in order give the office
//! equal networks and answers. Not proved, and tried by `examples/tablets.c`: that tablet a has in its own block, but
//! for the pending rows, and answers, what the office's one network has and answers; it follows from what each event
//! reads and writes (`docs/MANUAL.md`, 11).
//!
//! A message as bytes: sender, hearer, the slots that it has (two bytes, high byte first, bit i for slot i), then each
//! slot's number (four bytes, high byte first), lowest slot first. Each message has just one such form.
//!
//! [`take`] and [`put`] are tested, not proved.
//!
//! ```
//! use cuddystove::events::{Event, List};
//! use cuddystove::{answers, event, fresh, messages, run, CELLS, LONGEST_MESSAGE};
//!
//! // (fold-hood* + 0 (nbr 7)): in each round 7 for each neighbour that was heard.
//! let program = [
//!     1, 0, 5, 0, 0, 0, 0, 0, 1, 0, 5, 0, 0, 0, 0, 7, 1, 0, 3, 8, 1, 1, 1, 0, 4, 10, 0, 0, 2, 3, 0, 1, 3,
//! ];
//! let (mut one, mut two) = (vec![0; CELLS], vec![0; CELLS]);
//! fresh(&mut one)?;
//! fresh(&mut two)?;
//!
//! // On tablet 1:
//! let (mut bytes, mut space) = ([0; 20], [0; 4]);
//! let mut list = List::new(&mut bytes);
//! list.link(1, 2, 40)?;
//! list.fire(1)?;
//! run(&program, &mut one, list.as_bytes(), &mut space)?;
//! let mut message = [0; LONGEST_MESSAGE];
//! let sent = messages::take(&mut one, 1, 2, &mut message).ok_or("nothing to send")?;
//! assert_eq!(sent, [1, 2, 0, 0b10, 0, 0, 0, 7]); // from 1 to 2, slot 1 is 7
//!
//! // On tablet 2:
//! assert_eq!(sent.get(1), Some(&2)); // it is for 2
//! let (a, b) = messages::put(&mut two, sent).ok_or("not a message")?;
//! event(&program, &mut two, Event::deliver(a, b)?.as_bytes(), &mut space)?;
//! event(&program, &mut two, Event::fire(2)?.as_bytes(), &mut space)?;
//! assert_eq!(answers(&space).next().flatten().and_then(|answer| answer.value()), Some(7));
//! # Ok::<(), Box<dyn std::error::Error>>(())
//! ```

use crate::cells::is_pending;
use crate::{ABSENT, CELLS, LONGEST_MESSAGE, ROW};

/// Takes the message pending from `a` to `b` out of the network: gives its bytes, 4 to 64, which then stand at the
/// beginning of `message`, and it is no longer pending. None, with nothing written, where none is pending, where there
/// are no such two devices, and where the network is not [`CELLS`] long.
#[must_use]
pub fn take<'a>(network: &mut [i32], a: i64, b: i64, message: &'a mut [u8; LONGEST_MESSAGE]) -> Option<&'a [u8]> {
    let row = pending_row(network, a, b)?;
    let (sender, hearer) = (u8::try_from(a).ok()?, u8::try_from(b).ok()?);
    if row[0] != 1 {
        return None;
    }
    let (mut slots, mut length) = (0_u16, 4);
    for (i, number) in row.iter_mut().enumerate().skip(1).filter(|(_, number)| **number != ABSENT) {
        slots |= 1 << i;
        message[length..length + 4].copy_from_slice(&number.to_be_bytes());
        length += 4;
        *number = ABSENT;
    }
    row[0] = 0;
    let [high, low] = slots.to_be_bytes();
    message[..4].copy_from_slice(&[sender, hearer, high, low]);
    Some(&message[..length])
}

/// Puts a message that was received, as [`take`] gave it, into the network as pending, in place of what may be pending
/// there. Gives its sender and hearer, as [`Event::deliver`](crate::events::Event::deliver) wants them. None, with
/// nothing written, for bytes that [`take`] never gives, and where the network is not [`CELLS`] long.
#[must_use]
pub fn put(network: &mut [i32], message: &[u8]) -> Option<(i64, i64)> {
    let (&[sender, hearer, high, low], numbers) = message.split_first_chunk()?;
    let (a, b) = (i64::from(sender), i64::from(hearer));
    let row = pending_row(network, a, b)?;
    *row = row_of(u16::from_be_bytes([high, low]), numbers)?;
    Some((a, b))
}

/// The network's row for messages pending from `a` to `b`.
fn pending_row(network: &mut [i32], a: i64, b: i64) -> Option<&mut [i32; ROW]> {
    if a == b || network.len() != CELLS {
        return None;
    }
    network[is_pending(a, b)?..].first_chunk_mut()
}

/// The row of a pending message that has these slots and, in `bytes`, these numbers.
fn row_of(slots: u16, mut bytes: &[u8]) -> Option<[i32; ROW]> {
    let mut row = [ABSENT; ROW];
    row[0] = 1;
    for (_, cell) in row.iter_mut().enumerate().skip(1).filter(|(i, _)| slots >> i & 1 == 1) {
        let (number, rest) = bytes.split_first_chunk()?;
        *cell = Some(i32::from_be_bytes(*number)).filter(|number| *number != ABSENT)?;
        bytes = rest;
    }
    (slots & 1 == 0 && bytes.is_empty()).then_some(row)
}
