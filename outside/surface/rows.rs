//! Rows and jobs as they are lent, and their widths.

pub const MOST: u32 = 1_000_000;
pub const HORIZON: u64 = 1_000_000;
pub const MOST_ROWS: usize = 32;
pub const MOST_JOBS: usize = 4_096;

pub const ROW_WIDTH: usize = 5;
pub const PLAN_WIDTH: usize = 2;
pub const PLANNED_WIDTH: usize = 3;
pub const JOB_WIDTH: usize = 3;

/// A task's C, D and T, and the start and the length of its middle region.
pub type Task = [u32; ROW_WIDTH];

/// The longest that the task's final region may be.
pub fn cap([c, _, _, start, region]: Task) -> u32 {
    c - (start + region)
}

/// What the task blocks with where its final region has this length.
pub fn longer([.., region]: Task, length: u32) -> u32 {
    length.max(region)
}

/// A job's row, release and run.
pub type Job = [u32; JOB_WIDTH];

/// A row's rank, length and response.
#[derive(Clone, Copy, Default)]
pub struct Planned {
    pub rank: u32,
    pub length: u32,
    pub response: u32,
}

pub type Plan = [Planned; MOST_ROWS];
