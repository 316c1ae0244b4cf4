//! The kernel's run from decision to decision, with the rows in the order of their ranks.

use crate::surface::rows::{Job, Plan, Task, MOST_ROWS};

/// A row by its rank: the row, how far a job of it can be preempted, its earliest unfinished job by
/// its place in the list, and the ticks that this has executed.
#[derive(Clone, Copy, Default)]
struct Rank {
    row: u32,
    preemptible: u32,
    job: u32,
    executed: u32,
}

/// The middle region of a row. Kept in its rank it would make the ranks longer to look through.
#[derive(Clone, Copy, Default)]
struct Region {
    start: u32,
    end: u32,
}

impl Region {
    fn holds(&self, executed: u32) -> bool {
        executed > self.start && executed < self.end
    }
}

/// The place of the row's first job from `from` on.
fn seek(jobs: &[Job], row: u32, from: usize) -> u32 {
    let mut rest = &jobs[from..];
    while let [first, behind @ ..] = rest {
        if first[0] == row {
            break;
        }
        rest = behind;
    }
    (jobs.len() - rest.len()) as u32
}

pub fn finishes(tasks: &[Task], plan: &Plan, jobs: &[Job], out: &mut [u32]) {
    let mut ranks = [Rank::default(); MOST_ROWS];
    let mut regions = [Region::default(); MOST_ROWS];
    for (i, (&[c, _, _, start, region], p)) in tasks.iter().zip(plan).enumerate() {
        let (row, at) = (i as u32, (p.rank - 1) as usize % MOST_ROWS);
        ranks[at] = Rank { row, preemptible: c - p.length, job: seek(jobs, row, 0), executed: 0 };
        regions[at] = Region { start, end: start + region };
    }
    let ranks = &mut ranks[..tasks.len()];
    let (mut now, mut coming, mut left) = (0, 0, jobs.len());
    while left != 0 {
        while coming < jobs.len() && jobs[coming][1] <= now {
            coming += 1;
        }
        let waits = ranks.iter_mut().zip(&regions).find(|(rank, _)| rank.job < coming as u32);
        let Some((rank, region)) = waits else {
            now = jobs[coming][1];
            continue;
        };
        let job = rank.job as usize;
        let remaining = jobs[job][2] - rank.executed;
        let next = if coming == jobs.len() { remaining } else { jobs[coming][1] - now };
        let until = if region.holds(rank.executed + next) { region.end - rank.executed } else { next };
        if remaining <= until || rank.executed + until > rank.preemptible {
            now += remaining;
            out[job] = now;
            *rank = Rank { job: seek(jobs, rank.row, job + 1), executed: 0, ..*rank };
            left -= 1;
        } else {
            now += until;
            rank.executed += until;
        }
    }
}
