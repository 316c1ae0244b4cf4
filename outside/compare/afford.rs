//! Which tables the second planner's upward searches can afford; a table that is refused early
//! costs nothing.

use second::{busy_period, checked_table};

const MOST_STEPS: u64 = 4_000_000;

/// What can be asked of the second planner for a table.
pub struct Afford {
    pub responses: bool,
    pub plan: bool,
    /// It looks for a busy period up to the horizon in vain, which takes long.
    pub overloaded: bool,
}

pub fn of(table: &[u32]) -> Afford {
    let Ok(rows) = checked_table(table) else {
        return Afford { responses: true, plan: true, overloaded: false };
    };
    let utilisation: f64 = rows.iter().map(|row| row.c as f64 / row.t as f64).sum();
    if utilisation > 1.0001 {
        return Afford { responses: true, plan: true, overloaded: true };
    }
    let releases = busy_period(&rows).map_or(0, |busy| rows.iter().map(|row| busy / row.t + 1).sum::<u64>());
    let every_row = releases * (rows.len() * rows.len()) as u64;
    let lengths = rows.iter().map(|row| row.cap()).sum::<u64>();
    Afford { responses: every_row <= MOST_STEPS, plan: every_row * lengths <= MOST_STEPS, overloaded: false }
}
