//! Fixed points, jobs and lengths as both hand-written versions walk them; a version says how it
//! sums the work that is released after tick 0 and up to a tick.

use crate::surface::rows::{Task, HORIZON};

/// The first t from 1 to the horizon at which `first`, the work at tick 0, and what is released
/// after it and before t make t.
pub fn least_idle(first: u64, released: impl Fn(u64) -> u64) -> Option<u64> {
    let mut t = first;
    loop {
        if t > HORIZON {
            break None;
        }
        let next = first + released(t - 1);
        if next == t {
            break Some(t);
        }
        t = next;
    }
}

/// What a row's response depends on: the row, the work at tick 0 and the active period of its
/// level, and what the rows above release.
pub struct Trial<F> {
    pub own: Task,
    pub first: u64,
    pub active: u64,
    pub released: F,
}

impl<F: Fn(u64) -> u64> Trial<F> {
    /// The largest finish less release over all jobs, left at the first job that passes `limit`.
    /// A job's start is looked for from the start of the job before it on.
    pub fn response(&self, length: u64, limit: u64) -> Option<u64> {
        let [c, _, t, ..] = self.own.map(u64::from);
        let mut base = self.first - length;
        let mut start = base;
        let mut release = 0;
        let mut largest = 0;
        loop {
            loop {
                if start + length > release + limit {
                    return None;
                }
                let next = base + (self.released)(start);
                if next == start {
                    break;
                }
                start = next;
            }
            largest = largest.max(start + length - release);
            release += t;
            if release >= self.active {
                return Some(largest);
            }
            base += c;
            start += c;
        }
    }

    /// The shortest passing length up to `cap`, with its response. Any longer one passes too.
    pub fn shortest(&self, cap: u64) -> Option<(u64, u64)> {
        let passes = |length| self.response(length, self.own[1].into());
        if let Some(response) = passes(1) {
            return Some((1, response));
        }
        if cap == 1 {
            return None;
        }
        let (mut fails, mut found) = (1, (cap, passes(cap)?));
        while found.0 - fails > 1 {
            let middle = fails + (found.0 - fails) / 2;
            match passes(middle) {
                Some(response) => found = (middle, response),
                None => fails = middle,
            }
        }
        Some(found)
    }
}
