//! Every row's response under a plan.

use crate::marks::{all, released, runs};
use crate::places::Rows;
use crate::surface::rows::{longer, Plan, Task, HORIZON, MOST_ROWS};
use crate::trial::{least_idle, Trial};

/// Nothing if there is no busy period.
pub fn responses(tasks: &[Task], plan: &mut Plan) -> Option<()> {
    let rows = &Rows::of(tasks);
    let mut level = all(rows);
    least_idle(runs(rows, level), |s| released(rows, level, s))?;
    let mut row_of = [0; MOST_ROWS];
    for (i, p) in plan[..rows.n].iter().enumerate() {
        row_of[(p.rank as usize - 1) % MOST_ROWS] = i % MOST_ROWS;
    }
    let mut blocking = 0;
    for row in row_of[..rows.n].iter().rev() {
        let first = blocking + runs(rows, level);
        let active = least_idle(first, |s| released(rows, level, s))?;
        level &= !(1 << row);
        let trial = Trial { own: tasks[*row], first, active, released: move |s| released(rows, level, s) };
        let length = plan[*row].length;
        plan[*row].response = trial.response(length.into(), HORIZON)? as u32;
        blocking = blocking.max(u64::from(longer(tasks[*row], length)) - 1);
    }
    Some(())
}
