//! What makes a table, a plan or a job list unsound, and where.

use crate::{Row, JOB_WIDTH, MOST, MOST_ROWS, PLAN_WIDTH, ROW_WIDTH};

pub fn shape_fault(numbers: &[u32], width: usize) -> bool {
    !(1..=MOST_ROWS).any(|rows| numbers.len() == width * rows)
}

/// The first number at fault: C, D and T are 1 to 1,000,000, a start is at most that and has a length,
/// and what has a length ends a tick before C or earlier.
pub fn range_fault(table: &[u64]) -> Option<usize> {
    let row = |row: &[u64]| {
        let outside = |number: usize| !(1..=MOST).contains(&row[number]);
        let (c, start, length) = (row[0], row[3], row[4]);
        let bad_start = start > MOST || (length == 0 && start != 0);
        let bad_length = length != 0 && start + length > c.saturating_sub(1);
        [outside(0), outside(1), outside(2), bad_start, bad_length]
    };
    table.chunks(ROW_WIDTH).flat_map(row).position(|at_fault| at_fault)
}

pub fn plan_fault(rows: &[Row], plan: &[u32]) -> Option<usize> {
    if plan.len() != PLAN_WIDTH * rows.len() {
        return Some(MOST_ROWS);
    }
    let rank = |i: usize| plan[PLAN_WIDTH * i];
    (0..rows.len()).find(|&i| {
        let ranks = 1..=rows.len() as u32;
        let lengths = 1..=rows[i].cap();
        !ranks.contains(&rank(i))
            || (0..i).any(|j| rank(j) == rank(i))
            || !lengths.contains(&u64::from(plan[PLAN_WIDTH * i + 1]))
    })
}

/// The first job at fault, alone or beside any job ahead of it; every pair is looked at.
pub fn job_fault(rows: &[Row], jobs: &[u32]) -> Option<usize> {
    let job = |j: &[u32]| (j[0] as usize, u64::from(j[1]), u64::from(j[2]));
    let jobs: Vec<(usize, u64, u64)> = jobs.chunks(JOB_WIDTH).map(job).collect();
    (0..jobs.len()).find(|&later| {
        let (row, release, run) = jobs[later];
        row >= rows.len()
            || release > MOST
            || !(1..=rows[row].c).contains(&run)
            || jobs[..later].iter().any(|&(r, at, _)| at > release || (r == row && release < at + rows[row].t))
    })
}
