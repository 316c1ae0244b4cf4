//! A limit on evaluations, so that a measurement of the literal search ends; beyond it the answer
//! is refusal 99.

use core::sync::atomic::{AtomicU64, Ordering::Relaxed};

/// Evaluations of a right side, each over up to 32 rows.
const MOST: u64 = 3_000_000;

pub const GIVEN_UP: u32 = 99;

static LEFT: AtomicU64 = AtomicU64::new(0);

pub fn begin() {
    LEFT.store(MOST, Relaxed);
}

/// One evaluation.
pub fn evaluate() {
    LEFT.store(LEFT.load(Relaxed).saturating_sub(1), Relaxed);
}

pub fn is_over() -> bool {
    LEFT.load(Relaxed) == 0
}
