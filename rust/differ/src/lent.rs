//! Copies of buffers, lent to a call between guard cells.

use std::hint::black_box;

/// What buffers hold.
pub trait Cell: Copy + PartialEq {
    /// What a guard cell holds.
    fn guard(at: usize) -> Self;
}

impl Cell for u8 {
    fn guard(at: usize) -> u8 {
        (at as u8).wrapping_mul(0x3b) ^ 0xa5
    }
}

impl Cell for i32 {
    fn guard(at: usize) -> i32 {
        (at as i32).wrapping_mul(0x1f12_3bb5) ^ 0x2545_f491
    }
}

/// Guard cells on each side.
const GUARD: usize = 64;

/// A copy of a buffer with guard cells on both sides.
pub struct Lent<'a, T> {
    what: &'static str,
    original: &'a [T],
    cells: Vec<T>,
}

impl<'a, T: Cell> Lent<'a, T> {
    pub fn new(what: &'static str, original: &'a [T]) -> Lent<'a, T> {
        let mut cells: Vec<T> = Vec::with_capacity(original.len() + 2 * GUARD);
        cells.extend((0..GUARD).map(T::guard));
        cells.extend(original);
        cells.extend((GUARD..2 * GUARD).map(T::guard));
        Lent { what, original, cells }
    }

    /// The copy, to be read by a call.
    pub fn lend(&self) -> &[T] {
        &self.cells[GUARD..GUARD + self.original.len()]
    }

    /// The copy, to be written by a call.
    pub fn lend_mut(&mut self) -> &mut [T] {
        &mut self.cells[GUARD..GUARD + self.original.len()]
    }

    /// An error where a guard cell has changed.
    fn guards_kept(&self) -> Result<(), String> {
        // The compiler may hold what was lent only to be read for unchanged: it is to look.
        let cells = black_box(&self.cells[..]);
        let (before, rest) = cells.split_at(GUARD);
        let after = &rest[self.original.len()..];
        match before.iter().chain(after).enumerate().all(|(at, cell)| *cell == T::guard(at)) {
            true => Ok(()),
            false => Err(format!("it wrote outside the {}", self.what)),
        }
    }

    /// An error where anything has changed: for what may only be read.
    pub fn unchanged(&self) -> Result<(), String> {
        self.guards_kept()?;
        match black_box(self.lend()) == self.original {
            true => Ok(()),
            false => Err(format!("it changed the {}", self.what)),
        }
    }

    /// What the copy holds now; an error where a guard cell has changed.
    pub fn back(mut self) -> Result<Vec<T>, String> {
        self.guards_kept()?;
        self.cells.truncate(GUARD + self.original.len());
        self.cells.drain(..GUARD);
        Ok(self.cells)
    }
}

#[cfg(test)]
mod tests {
    use super::*;

    /// Every single cell of a buffer and its guards is watched, for both kinds of cells and for an empty buffer.
    fn every_cell_is_watched<T: Cell + std::fmt::Debug>(original: &[T], other: impl Fn(T) -> T) {
        let after = GUARD + original.len();
        for at in 0..after + GUARD {
            let mut lent = Lent::new("list", original);
            assert_eq!((lent.lend(), lent.unchanged()), (original, Ok(())));
            lent.cells[at] = other(lent.cells[at]);
            let inside = (GUARD..after).contains(&at);
            let error = if inside { "it changed the list" } else { "it wrote outside the list" };
            assert_eq!(lent.unchanged(), Err(error.into()), "cell {at}");
            let back = lent.back();
            assert_eq!(back.is_ok(), inside, "cell {at}");
            assert!(back.is_err() || back != Ok(original.to_vec()));
        }
    }

    #[test]
    fn cells_are_watched() {
        every_cell_is_watched(&[1_u8, 0, 255], |byte| byte ^ 1);
        every_cell_is_watched(&[7, i32::MIN, -1, 0], |number| number.wrapping_add(1));
        every_cell_is_watched(&[], |byte: u8| byte ^ 128);
        every_cell_is_watched(&[], |number: i32| number ^ i32::MIN);
    }

    #[test]
    fn what_is_written_comes_back() {
        let mut lent = Lent::new("network", &[1, 2, 3]);
        lent.lend_mut().copy_from_slice(&[4, 5, 6]);
        assert_eq!(lent.back(), Ok(vec![4, 5, 6]));
    }
}
