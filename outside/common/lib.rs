//! What the comparison and the benchmark share: calls over the bridge, widths, and random numbers.

pub mod bridge;
pub mod random;
pub mod widths;
