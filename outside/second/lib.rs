//! The second planner: the operations written from documents 01 and 02 alone, to be believed at
//! sight and not to be fast.
//!
//! It searches where the product iterates: candidates are taken stretch by stretch between
//! releases, lengths upward from 1, the dispatch rule tick by tick, and sheets by trying endings.
//! It shares no line with the product.

mod checks;
mod choice;
mod kernel;
mod page;
mod sheet;
mod stretches;
mod test;

pub use checks::job_fault;
pub use choice::{all_plans, Placed};
pub use kernel::{finishes, Job};
pub use test::{busy_period, responses, Level, Row};

use checks::{plan_fault, range_fault, shape_fault};

pub const MOST: u64 = 1_000_000;
pub const HORIZON: u64 = 1_000_000;
const MOST_ROWS: usize = 32;
const MOST_JOBS: usize = 4_096;

/// Numbers a row of a table, of a plan and of a planned table, and numbers a job.
const ROW_WIDTH: usize = 5;
const PLAN_WIDTH: usize = 2;
const PLANNED_WIDTH: usize = 3;
const JOB_WIDTH: usize = 3;

/// A refusal's number and place.
#[derive(Clone, Copy, Debug, PartialEq, Eq)]
pub struct Refusal {
    pub number: u32,
    pub place: u32,
}

pub type Answer<T> = Result<T, Refusal>;

fn refuse_if(hit: bool, number: u32, place: usize) -> Answer<()> {
    if hit {
        Err(Refusal { number, place: place as u32 })
    } else {
        Ok(())
    }
}

fn refuse_at(fault: Option<usize>, number: u32) -> Answer<()> {
    refuse_if(fault.is_some(), number, fault.unwrap_or(0))
}

/// The rows of a sound table, or its refusal.
pub fn checked_table(table: &[u32]) -> Answer<Vec<Row>> {
    refuse_if(shape_fault(table, ROW_WIDTH), 1, 0)?;
    refuse_at(range_fault(&table.iter().map(|v| u64::from(*v)).collect::<Vec<_>>()), 3)?;
    Ok(Row::of_table(table))
}

fn checked_plan(table: &[u32], plan: &[u32]) -> Answer<(Vec<Row>, Vec<Placed>)> {
    let rows = checked_table(table)?;
    refuse_at(plan_fault(&rows, plan), 6)?;
    Ok((rows, Placed::of_plan(plan)))
}

pub fn plan(table: &[u32], room: usize) -> Answer<Vec<u32>> {
    let rows = checked_table(table)?;
    refuse_if(room < PLANNED_WIDTH * rows.len(), 2, 0)?;
    refuse_if(busy_period(&rows).is_none(), 4, 0)?;
    let chosen = choice::chosen(&rows);
    refuse_if(chosen.is_none(), 5, 0)?;
    let chosen = chosen.unwrap_or_default();
    let times = responses(&rows, &chosen);
    Ok(chosen.iter().zip(times).flat_map(|(p, r)| [p.rank, p.length, r as u32]).collect())
}

pub fn times(table: &[u32], plan: &[u32], room: usize) -> Answer<Vec<u32>> {
    let (rows, placed) = checked_plan(table, plan)?;
    refuse_if(room < rows.len(), 2, 0)?;
    refuse_if(busy_period(&rows).is_none(), 4, 0)?;
    Ok(responses(&rows, &placed).iter().map(|r| *r as u32).collect())
}

pub fn verdict(table: &[u32], plan: &[u32]) -> Answer<bool> {
    let (rows, placed) = checked_plan(table, plan)?;
    refuse_if(busy_period(&rows).is_none(), 4, 0)?;
    Ok(test::passes(&rows, &placed))
}

pub fn play(table: &[u32], plan: &[u32], jobs: &[u32], room: usize) -> Answer<Vec<u32>> {
    let (rows, placed) = checked_plan(table, plan)?;
    refuse_if(jobs.len() % JOB_WIDTH != 0 || jobs.len() / JOB_WIDTH > MOST_JOBS, 7, 0)?;
    refuse_at(job_fault(&rows, jobs), 8)?;
    refuse_if(room < jobs.len() / JOB_WIDTH, 2, 0)?;
    Ok(finishes(&rows, &placed, &Job::of_list(jobs)).iter().map(|f| *f as u32).collect())
}

pub fn sheet(text: &[u8], room: usize) -> Answer<Vec<u32>> {
    let ticks = match sheet::read(text) {
        Some(read) => read.in_ticks(),
        None => return Err(Refusal { number: 9, place: sheet::longest_beginning(text) as u32 }),
    };
    refuse_at(range_fault(&ticks), 3)?;
    refuse_if(room < ticks.len(), 2, 0)?;
    Ok(ticks.iter().map(|v| *v as u32).collect())
}

pub fn print(planned: &[u32], room: usize) -> Answer<Vec<u8>> {
    refuse_if(shape_fault(planned, PLANNED_WIDTH), 1, 0)?;
    let text = page::text(planned);
    refuse_if(room < text.len(), 2, 0)?;
    Ok(text)
}
