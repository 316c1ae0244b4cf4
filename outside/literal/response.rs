//! Responses with every fixed point iterated from its lowest value.

use crate::places::{Row, Rows};
use crate::surface::rows::{longer, Plan, Task, HORIZON, MOST_ROWS};
use crate::work;

/// Iterates a right side from `from` until it repeats, exceeds the horizon, or the work is over.
fn least_fixed(from: u64, right_side: impl Fn(u64) -> u64) -> Option<u64> {
    let mut value = from;
    loop {
        work::evaluate();
        let next = right_side(value);
        if next == value {
            return Some(value);
        }
        if next > HORIZON || work::is_over() {
            return None;
        }
        value = next;
    }
}

/// Which rows take part, by their place.
pub type Chosen = [bool; MOST_ROWS];

fn sum(rows: &Rows, chosen: &Chosen, of: impl Fn(&Row) -> u64) -> u64 {
    rows.row[..rows.n].iter().zip(chosen).filter(|(_, chosen)| **chosen).map(|(row, _)| of(row)).sum()
}

fn least_idle(rows: &Rows, chosen: &Chosen, extra: u64) -> Option<u64> {
    least_fixed(1, |t| extra + sum(rows, chosen, |r| t.div_ceil(r.t) * r.c))
}

pub fn busy_period(rows: &Rows) -> Option<u64> {
    least_idle(rows, &[true; MOST_ROWS], 0)
}

/// The response of row i below the rows above it, left at the first job that passes `limit`.
pub fn response(rows: &Rows, i: usize, above: &Chosen, blocking: u64, length: u64, limit: u64) -> Option<u64> {
    let Row { c, t } = rows.row[i];
    let mut level = *above;
    level[i] = true;
    let active = least_idle(rows, &level, blocking)?;
    let mut largest = 0;
    for k in 1..=active.div_ceil(t) {
        let base = blocking + k * c - length;
        let start = least_fixed(0, |s| base + sum(rows, above, |r| (s / r.t + 1) * r.c))?;
        let span = start + length - (k - 1) * t;
        if span > limit {
            return None;
        }
        largest = largest.max(span);
    }
    Some(largest)
}

pub fn responses(tasks: &[Task], plan: &mut Plan) -> Option<()> {
    let rows = &Rows::of(tasks);
    work::begin();
    busy_period(rows)?;
    for i in 0..rows.n {
        let mut above = [false; MOST_ROWS];
        let mut blocking = 0;
        for j in 0..rows.n {
            above[j] = plan[j].rank < plan[i].rank;
            if plan[j].rank > plan[i].rank {
                blocking = blocking.max(u64::from(longer(tasks[j], plan[j].length)) - 1);
            }
        }
        plan[i].response = response(rows, i, &above, blocking, plan[i].length.into(), HORIZON)? as u32;
    }
    Some(())
}
