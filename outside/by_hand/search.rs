//! The choice of ranks and lengths, from the lowest rank up.

use crate::again::Again;
use crate::level::{released, runs};
use crate::surface::answer::Refusal;
use crate::surface::rows::{cap, Plan, Planned, Task, MOST_ROWS};
use crate::trial::{least_idle, Trial};

/// The row found best so far at a rank, by its place among the rows without one.
#[derive(Clone, Copy)]
struct Best {
    at: usize,
    length: u64,
    longer: u64,
    response: u64,
}

/// Tries each row that can still win, with all others above it.
fn best_of_rank(tasks: &[Task], unplaced: &[usize], again: &mut Again, first: u64) -> Option<Best> {
    let active = least_idle(first, |s| released(again.level(), s))?;
    let mut best: Option<Best> = None;
    for (at, row) in unplaced.iter().enumerate() {
        let own = tasks[*row];
        let [.., region] = own.map(u64::from);
        let less = best.map_or(u64::MAX, |b| b.longer - 1);
        if less == 0 {
            break;
        }
        if region > less {
            continue;
        }
        let above = again.without(*row);
        let trial = Trial { own, first, active, released: move |s| released(above, s) };
        if let Some((length, response)) = trial.shortest(less.min(cap(own).into())) {
            best = Some(Best { at, length, longer: length.max(region), response });
        }
    }
    best
}

pub fn plan(tasks: &[Task]) -> Result<Plan, Refusal> {
    let mut again = Again::all(tasks);
    let mut runs = runs(again.level());
    let busy = least_idle(runs, |s| released(again.level(), s)).ok_or(Refusal(4, 0))?;
    again.keep(tasks, busy);
    let mut unplaced: [usize; MOST_ROWS] = core::array::from_fn(|row| row);
    let mut plan = [Planned::default(); MOST_ROWS];
    let mut blocking = 0;
    for rank in (1..=tasks.len()).rev() {
        let best = best_of_rank(tasks, &unplaced[..rank], &mut again, blocking + runs);
        let Best { at, length, longer, response } = best.ok_or(Refusal(5, 0))?;
        let row = unplaced[at];
        plan[row] = Planned { rank: rank as u32, length: length as u32, response: response as u32 };
        blocking = blocking.max(longer - 1);
        runs -= u64::from(tasks[row][0]);
        again.remove(row);
        unplaced.copy_within(at + 1..rank, at);
    }
    Ok(plan)
}
