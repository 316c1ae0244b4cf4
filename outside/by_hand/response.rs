//! Every row's response under a plan: the rows stand in the order of their ranks, so that a level
//! is a front of them.

use crate::level::{released, runs, Asks};
use crate::surface::rows::{longer, Plan, Task, HORIZON, MOST_ROWS};
use crate::trial::{least_idle, Trial};

/// Nothing if there is no busy period.
pub fn responses(tasks: &[Task], plan: &mut Plan) -> Option<()> {
    let mut by_rank = [Asks::default(); MOST_ROWS];
    let mut row_of = [0; MOST_ROWS];
    for (i, task) in tasks.iter().enumerate() {
        let at = (plan[i].rank - 1) as usize % MOST_ROWS;
        by_rank[at] = Asks::of(*task);
        row_of[at] = i % MOST_ROWS;
    }
    let by_rank = &by_rank[..tasks.len()];
    least_idle(runs(by_rank), |s| released(by_rank, s))?;
    let mut blocking = 0;
    for (at, row) in row_of[..tasks.len()].iter().enumerate().rev() {
        let (level, above) = (&by_rank[..=at], &by_rank[..at]);
        let first = blocking + runs(level);
        let active = least_idle(first, |s| released(level, s))?;
        let trial = Trial { own: tasks[*row], first, active, released: move |s| released(above, s) };
        let length = plan[*row].length;
        plan[*row].response = trial.response(length.into(), HORIZON)? as u32;
        blocking = blocking.max(u64::from(longer(tasks[*row], length)) - 1);
    }
    Some(())
}
