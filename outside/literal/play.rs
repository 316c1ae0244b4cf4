//! The kernel's run tick by tick, looking at every job in every tick.

use crate::surface::rows::{Job, Plan, Task, MOST_JOBS};

pub fn finishes(tasks: &[Task], plan: &Plan, jobs: &[Job], out: &mut [u32]) {
    let mut executed = [0u32; MOST_JOBS];
    let (mut first, mut tick) = (0, 0);
    while first < jobs.len() {
        let mut picked: Option<(bool, u32, usize)> = None;
        for job in first..jobs.len() {
            let [row, release, run] = jobs[job];
            if release > tick {
                break;
            }
            if executed[job] == run {
                continue;
            }
            let row = row as usize;
            let [c, _, _, start, region] = tasks[row];
            let in_final = executed[job] > c - plan[row].length;
            let in_middle = executed[job] > start && executed[job] < start + region;
            let key = (!in_final && !in_middle, plan[row].rank, job);
            if picked.is_none_or(|best| key < best) {
                picked = Some(key);
            }
        }
        tick += 1;
        if let Some((_, _, job)) = picked {
            executed[job] += 1;
            if executed[job] == jobs[job][2] {
                out[job] = tick;
            }
        }
        while first < jobs.len() && executed[first] == jobs[first][2] {
            first += 1;
        }
    }
}
