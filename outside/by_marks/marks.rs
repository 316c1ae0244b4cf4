//! Sums over rows held as the marks of a 32-bit set.

use crate::places::{Row, Rows};
use crate::surface::rows::MOST_ROWS;

fn sum(rows: &Rows, mut set: u32, of: impl Fn(&Row) -> u64) -> u64 {
    let mut total = 0;
    while set != 0 {
        total += of(&rows.row[set.trailing_zeros() as usize % MOST_ROWS]);
        set &= set - 1;
    }
    total
}

pub fn all(rows: &Rows) -> u32 {
    u32::MAX >> (MOST_ROWS - rows.n)
}

pub fn runs(rows: &Rows, set: u32) -> u64 {
    sum(rows, set, |row| row.c)
}

/// The work that the set releases after tick 0 and up to s.
pub fn released(rows: &Rows, set: u32, s: u64) -> u64 {
    sum(rows, set, |row| s / row.t * row.c)
}
