//! Runs and spacings as 64-bit numbers in an array of 32 places, for the versions that do not pack them.

use crate::surface::rows::{Task, MOST_ROWS};

#[derive(Clone, Copy, Default)]
pub struct Row {
    pub c: u64,
    pub t: u64,
}

pub struct Rows {
    pub row: [Row; MOST_ROWS],
    pub n: usize,
}

impl Rows {
    pub fn of(tasks: &[Task]) -> Rows {
        let mut rows = Rows { row: [Row::default(); MOST_ROWS], n: tasks.len() };
        for (row, [c, _, t, ..]) in rows.row.iter_mut().zip(tasks) {
            *row = Row { c: u64::from(*c), t: u64::from(*t) };
        }
        rows
    }
}
