//! The choice of ranks with every row tried at every length from 1 up.

use crate::places::Rows;
use crate::response::{busy_period, response, Chosen};
use crate::surface::answer::Refusal;
use crate::surface::rows::{cap, longer, Plan, Planned, Task, MOST_ROWS};
use crate::work;

/// The shortest passing length of row i, with its response.
fn shortest(tasks: &[Task], rows: &Rows, i: usize, unplaced: &Chosen, blocking: u64) -> Option<(u64, u64)> {
    let mut above = *unplaced;
    above[i] = false;
    let d = tasks[i][1].into();
    let tries = (1..=cap(tasks[i]).into()).take_while(|_| !work::is_over());
    tries.filter_map(|q| Some((q, response(rows, i, &above, blocking, q, d)?))).next()
}

pub fn plan(tasks: &[Task]) -> Result<Plan, Refusal> {
    let rows = &Rows::of(tasks);
    work::begin();
    let mut plan = [Planned::default(); MOST_ROWS];
    busy_period(rows).ok_or(Refusal(4, 0))?;
    let mut unplaced = [false; MOST_ROWS];
    unplaced[..rows.n].fill(true);
    let mut blocking = 0;
    for rank in (1..=rows.n).rev() {
        let mut best: Option<(u32, u64, u64, usize)> = None;
        for i in (0..rows.n).filter(|i| unplaced[*i]) {
            let Some((q, r)) = shortest(tasks, rows, i, &unplaced, blocking) else { continue };
            let blocks = longer(tasks[i], q as u32);
            if best.is_none_or(|(least, ..)| blocks < least) {
                best = Some((blocks, q, r, i));
            }
        }
        if work::is_over() {
            return Err(Refusal(work::GIVEN_UP, 0));
        }
        let (blocks, length, response, row) = best.ok_or(Refusal(5, 0))?;
        plan[row] = Planned { rank: rank as u32, length: length as u32, response: response as u32 };
        unplaced[row] = false;
        blocking = blocking.max(u64::from(blocks) - 1);
    }
    Ok(plan)
}
