//! Sets of rows (bit i - 1 for row i), and rows in an order.

use crate::MAX_ROWS;
use std::ops::Deref;

/// The set of this row alone; empty if it is not from 1 to 64.
pub fn only(row: usize) -> u64 {
    if (1..=64).contains(&row) {
        1 << (row - 1)
    } else {
        0
    }
}

/// The set of the first `count` rows, at most 64.
pub fn first(count: usize) -> u64 {
    if count < 64 {
        (1 << count) - 1
    } else {
        u64::MAX
    }
}

pub fn has(set: u64, row: usize) -> bool {
    set & only(row) != 0
}

/// The rows of a set, lowest first.
pub fn members(mut set: u64) -> impl Iterator<Item = usize> {
    std::iter::from_fn(move || {
        let row = set.trailing_zeros() as usize + 1;
        set &= set.wrapping_sub(1);
        (row <= 64).then_some(row)
    })
}

/// Up to 64 rows in an order.
#[derive(Clone, Copy, Debug, PartialEq, Eq)]
pub struct Order {
    /// With a place to spare: see `take`.
    rows: [u8; MAX_ROWS + 1],
    count: usize,
}

impl Order {
    pub const EMPTY: Order = Order { rows: [0; MAX_ROWS + 1], count: 0 };

    /// Rows 1 to `count`.
    pub fn first(count: usize) -> Order {
        let mut rows = [0; MAX_ROWS + 1];
        rows.iter_mut().zip(1..).take(count).for_each(|(place, row)| *place = row);
        Order { rows, count }
    }

    pub fn push(&mut self, row: usize) {
        self.rows[self.count] = row as u8;
        self.count += 1;
    }

    /// Adds the rows of another order that are in the set, and not among its own.
    pub fn take(&mut self, from: &Order, set: u64) {
        for &row in from.iter() {
            // Overwritten by the next one unless it counts.
            self.rows[self.count] = row;
            self.count += (set >> (row - 1) & 1) as usize;
        }
    }
}

/// At most 64 rows.
impl FromIterator<usize> for Order {
    fn from_iter<I: IntoIterator<Item = usize>>(rows: I) -> Order {
        let mut order = Order::EMPTY;
        rows.into_iter().for_each(|row| order.push(row));
        order
    }
}

impl Deref for Order {
    type Target = [u8];

    fn deref(&self) -> &[u8] {
        &self.rows[..self.count]
    }
}
