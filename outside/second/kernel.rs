//! What the kernel makes of a job list, walked tick by tick.

use std::collections::VecDeque;

use crate::{Placed, Row, JOB_WIDTH};

#[derive(Clone, Copy, Debug)]
pub struct Job {
    pub row: usize,
    pub release: u64,
    pub run: u64,
}

impl Job {
    pub fn of_list(jobs: &[u32]) -> Vec<Job> {
        jobs.chunks(JOB_WIDTH).map(|j| Job { row: j[0] as usize, release: j[1].into(), run: j[2].into() }).collect()
    }
}

/// A pending job: its number in the list and the ticks it has executed.
struct Pending {
    job: usize,
    executed: u64,
}

/// For each job the tick behind the last one that it runs in. The list is in the order of releases.
pub fn finishes(rows: &[Row], placed: &[Placed], jobs: &[Job]) -> Vec<u64> {
    let mut finish = vec![0; jobs.len()];
    let mut queues: Vec<VecDeque<Pending>> = rows.iter().map(|_| VecDeque::new()).collect();
    let mut by_rank: Vec<usize> = (0..rows.len()).collect();
    by_rank.sort_by_key(|&row| placed[row].rank);
    let (mut released, mut finished) = (0, 0);
    for tick in 0.. {
        if finished == jobs.len() {
            break;
        }
        while released < jobs.len() && jobs[released].release == tick {
            queues[jobs[released].row].push_back(Pending { job: released, executed: 0 });
            released += 1;
        }
        let runs_on = |&row: &usize| {
            let Row { c, start, region, .. } = rows[row];
            let in_final = |executed: u64| executed > c - u64::from(placed[row].length);
            let in_middle = |executed: u64| start < executed && executed < start + region;
            queues[row].front().is_some_and(|first| in_final(first.executed) || in_middle(first.executed))
        };
        let highest = |&row: &usize| !queues[row].is_empty();
        let picked = by_rank.iter().copied().find(runs_on).or_else(|| by_rank.iter().copied().find(highest));
        let Some(row) = picked else { continue };
        if let Some(first) = queues[row].front_mut() {
            first.executed += 1;
            if first.executed == jobs[first.job].run {
                finish[first.job] = tick + 1;
                finished += 1;
                queues[row].pop_front();
            }
        }
    }
    finish
}
