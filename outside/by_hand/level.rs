//! The rows of a level side by side: each one's run and the inverse of its spacing.

use crate::surface::rows::Task;

/// For s and t up to 1,000,000, s / t is s times the inverse of t, shifted.
const SHIFT: u32 = 40;

#[derive(Clone, Copy, Default)]
pub struct Asks {
    inverse: u64,
    run: u64,
}

impl Asks {
    pub fn of([c, _, t, ..]: Task) -> Asks {
        Asks { inverse: (1 << SHIFT) / u64::from(t) + 1, run: c.into() }
    }
}

pub fn runs(level: &[Asks]) -> u64 {
    level.iter().map(|row| row.run).sum()
}

/// The work that the level releases after tick 0 and up to s.
pub fn released(level: &[Asks], s: u64) -> u64 {
    level.iter().map(|row| (s * row.inverse >> SHIFT) * row.run).sum()
}
