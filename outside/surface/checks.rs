//! The refusals of tables, plans and job lists, each in one pass.

use super::answer::Refusal;
use super::rows::{cap, Job, Plan, Planned, Task, JOB_WIDTH, MOST, MOST_JOBS, MOST_ROWS, PLAN_WIDTH, ROW_WIDTH};

pub fn shape<const WIDTH: usize>(numbers: &[u32]) -> Result<&[[u32; WIDTH]], Refusal> {
    let (rows, rest) = numbers.as_chunks();
    if !rest.is_empty() || rows.is_empty() || rows.len() > MOST_ROWS {
        return Err(Refusal(1, 0));
    }
    Ok(rows)
}

/// The column of the first number at fault. A region's end may not fit into 32 bits.
fn column_at_fault([c, d, t, start, region]: Task) -> Option<usize> {
    let outside = |v: u32| v == 0 || v > MOST;
    let start_at_fault = start > MOST || (start > 0 && region == 0);
    let region_at_fault = region > 0 && u64::from(start) + u64::from(region) >= u64::from(c);
    [outside(c), outside(d), outside(t), start_at_fault, region_at_fault].into_iter().position(|at_fault| at_fault)
}

pub fn table(numbers: &[u32]) -> Result<&[Task], Refusal> {
    let tasks = shape(numbers)?;
    for (row, task) in tasks.iter().enumerate() {
        if let Some(column) = column_at_fault(*task) {
            return Err(Refusal(3, ROW_WIDTH * row + column));
        }
    }
    Ok(tasks)
}

pub fn plan(tasks: &[Task], numbers: &[u32]) -> Result<Plan, Refusal> {
    let (rows, rest) = numbers.as_chunks::<PLAN_WIDTH>();
    if !rest.is_empty() || rows.len() != tasks.len() {
        return Err(Refusal(6, MOST_ROWS));
    }
    let mut plan = [Planned::default(); MOST_ROWS];
    let mut seen = 0u64;
    for (i, (&[rank, length], task)) in rows.iter().zip(tasks).enumerate() {
        let fits = rank >= 1 && rank as usize <= tasks.len() && seen >> rank & 1 == 0;
        if !fits || length == 0 || length > cap(*task) {
            return Err(Refusal(6, i));
        }
        seen |= 1 << rank;
        plan[i] = Planned { rank, length, response: 0 };
    }
    Ok(plan)
}

/// The last release and each row's last release suffice to see a pair at fault.
pub fn jobs<'a>(tasks: &[Task], numbers: &'a [u32]) -> Result<&'a [Job], Refusal> {
    let (jobs, rest) = numbers.as_chunks::<JOB_WIDTH>();
    if !rest.is_empty() || jobs.len() > MOST_JOBS {
        return Err(Refusal(7, 0));
    }
    let mut earliest = [0; MOST_ROWS];
    let mut last = 0;
    for (i, &[row, release, run]) in jobs.iter().enumerate() {
        let row = row as usize;
        let fits = row < tasks.len() && run >= 1 && run <= tasks[row][0] && release <= MOST;
        if !fits || release < last || release < earliest[row] {
            return Err(Refusal(8, i));
        }
        last = release;
        earliest[row] = release + tasks[row][2];
    }
    Ok(jobs)
}

pub fn room(have: usize, need: usize) -> Result<(), Refusal> {
    if have < need {
        return Err(Refusal(2, 0));
    }
    Ok(())
}
