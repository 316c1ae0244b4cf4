//! The kernel's run from decision to decision, at most three a job, with a state of 32 places.

use crate::surface::rows::{Job, Plan, Task, MOST_ROWS};

/// A row's earliest unfinished job, by its place in the list, and the ticks it has executed.
#[derive(Clone, Copy, Default)]
struct Head {
    job: usize,
    executed: u64,
}

/// How far a job runs on that has executed so much, where it is in one of its regions.
fn held([c, _, _, start, region]: Task, length: u32, executed: u64, run: u64) -> Option<u64> {
    let end = u64::from(start + region);
    if executed > u64::from(c - length) {
        Some(run)
    } else if executed > start.into() && executed < end {
        Some(end)
    } else {
        None
    }
}

fn next_of_row(jobs: &[Job], row: usize, from: usize) -> usize {
    let mut job = from;
    while job < jobs.len() && jobs[job][0] as usize != row {
        job += 1;
    }
    job
}

pub fn finishes(tasks: &[Task], plan: &Plan, jobs: &[Job], out: &mut [u32]) {
    let release = |job: usize| u64::from(jobs[job][1]);
    let mut row_of = [0; MOST_ROWS];
    for (i, p) in plan[..tasks.len()].iter().enumerate() {
        row_of[(p.rank as usize - 1) % MOST_ROWS] = i % MOST_ROWS;
    }
    let mut heads = [Head::default(); MOST_ROWS];
    for (head, row) in heads.iter_mut().zip(row_of).take(tasks.len()) {
        head.job = next_of_row(jobs, row, 0);
    }
    let (mut now, mut coming, mut left) = (0, 0, jobs.len());
    let mut running: Option<usize> = None;
    while left != 0 {
        while coming < jobs.len() && release(coming) <= now {
            coming += 1;
        }
        let locked = running.and_then(|at| {
            let (Head { job, executed }, row) = (heads[at], row_of[at]);
            Some((at, held(tasks[row], plan[row].length, executed, jobs[job][2].into())?))
        });
        let highest = || heads[..tasks.len()].iter().position(|head| head.job < coming);
        let Some(at) = locked.map(|(at, _)| at).or_else(highest) else {
            now = release(coming);
            continue;
        };
        let at = at % MOST_ROWS;
        let head = &mut heads[at];
        let run = u64::from(jobs[head.job][2]);
        let next = if coming == jobs.len() { run } else { head.executed + release(coming) - now };
        let reached = locked.map_or(next, |(_, to)| to).min(run);
        now += reached - head.executed;
        head.executed = reached;
        running = Some(at);
        if reached == run {
            out[head.job] = now as u32;
            *head = Head { job: next_of_row(jobs, row_of[at], head.job + 1), executed: 0 };
            running = None;
            left -= 1;
        }
    }
}
