//! The choice of ranks and lengths, with the rows that have no rank as the marks of one number.

use crate::marks::{all, released, runs};
use crate::places::Rows;
use crate::surface::answer::Refusal;
use crate::surface::rows::{cap, Plan, Planned, Task, MOST_ROWS};
use crate::trial::{least_idle, Trial};

/// The row found best so far at a rank.
#[derive(Clone, Copy)]
struct Best {
    row: usize,
    length: u64,
    longer: u64,
    response: u64,
}

fn best_of_rank(tasks: &[Task], rows: &Rows, unplaced: u32, blocking: u64) -> Option<Best> {
    let first = blocking + runs(rows, unplaced);
    let active = least_idle(first, |s| released(rows, unplaced, s))?;
    let mut best: Option<Best> = None;
    let mut to_try = unplaced;
    while to_try != 0 {
        let row = to_try.trailing_zeros() as usize % MOST_ROWS;
        to_try &= to_try - 1;
        let own = tasks[row];
        let [.., region] = own.map(u64::from);
        let less = best.map_or(u64::MAX, |b| b.longer - 1);
        if less == 0 {
            break;
        }
        if region > less {
            continue;
        }
        let above = unplaced & !(1 << row);
        let trial = Trial { own, first, active, released: move |s| released(rows, above, s) };
        if let Some((length, response)) = trial.shortest(less.min(cap(own).into())) {
            best = Some(Best { row, length, longer: length.max(region), response });
        }
    }
    best
}

pub fn plan(tasks: &[Task]) -> Result<Plan, Refusal> {
    let rows = &Rows::of(tasks);
    let mut unplaced = all(rows);
    least_idle(runs(rows, unplaced), |s| released(rows, unplaced, s)).ok_or(Refusal(4, 0))?;
    let mut plan = [Planned::default(); MOST_ROWS];
    let mut blocking = 0;
    while unplaced != 0 {
        let best = best_of_rank(tasks, rows, unplaced, blocking);
        let Best { row, length, longer, response } = best.ok_or(Refusal(5, 0))?;
        let rank = unplaced.count_ones();
        plan[row % MOST_ROWS] = Planned { rank, length: length as u32, response: response as u32 };
        blocking = blocking.max(longer - 1);
        unplaced &= !(1 << row);
    }
    Ok(plan)
}
