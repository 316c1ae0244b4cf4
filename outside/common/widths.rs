//! How many numbers a row or a job has in each slice, and how many of them there may be.

pub const ROW_WIDTH: usize = 5;
pub const PLAN_WIDTH: usize = 2;
pub const PLANNED_WIDTH: usize = 3;
pub const TIMES_WIDTH: usize = 1;
pub const JOB_WIDTH: usize = 3;

pub const MOST_ROWS: usize = 32;
pub const MOST_JOBS: usize = 4_096;
pub const MOST_TABLE_NUMBERS: usize = MOST_ROWS * ROW_WIDTH;
pub const MOST_PLAN_NUMBERS: usize = MOST_ROWS * PLAN_WIDTH;
pub const MOST_PLANNED_NUMBERS: usize = MOST_ROWS * PLANNED_WIDTH;
pub const MOST_JOB_NUMBERS: usize = MOST_JOBS * JOB_WIDTH;

/// A table of these C, D and T, no row with a middle region.
pub fn plain(rows: &[(u32, u32, u32)]) -> Vec<u32> {
    let row = |&(c, d, t): &(u32, u32, u32)| -> [u32; ROW_WIDTH] { [c, d, t, 0, 0] };
    rows.iter().flat_map(row).collect()
}

/// The rows of a table.
pub fn rows_of(table: &[u32]) -> usize {
    table.len() / ROW_WIDTH
}

/// The jobs of a list.
pub fn jobs_of(list: &[u32]) -> usize {
    list.len() / JOB_WIDTH
}
