//! Ways to damage tables, plans, job lists and sheets, so that every refusal comes up at many
//! places and several at once.

use common::random::Random;
use common::widths::{
    jobs_of, rows_of, JOB_WIDTH, MOST_JOB_NUMBERS, MOST_PLAN_NUMBERS, MOST_TABLE_NUMBERS, PLAN_WIDTH, ROW_WIDTH,
};

const BAD_NUMBERS: [u32; 5] = [0, 1_000_001, 1_000_002, 1 << 31, u32::MAX];

/// Leaves numbers out or adds some.
fn resize(random: &mut Random, numbers: &mut Vec<u32>, beyond: usize) {
    match random.below(5) {
        0 => {
            numbers.pop();
        }
        1 => numbers.push(1),
        2 => numbers.clear(),
        3 => numbers.resize(beyond, 1),
        _ => numbers.truncate(random.below(numbers.len() + 1)),
    }
}

/// Any of the five numbers of a row: outside 1 to 1,000,000 or, where it is of a region, so that
/// the region ends at C or a start has no length.
pub fn table(random: &mut Random, table: &mut Vec<u32>) {
    if random.once_in(3) {
        return resize(random, table, MOST_TABLE_NUMBERS + ROW_WIDTH);
    }
    let rows = rows_of(table);
    let Some(row) = table.chunks_exact_mut(ROW_WIDTH).nth(random.below(rows.max(1))) else { return };
    let (c, start, length) = (row[0], row[3], row[4]);
    match random.below(5) {
        0 => row[3] = c.wrapping_sub(length),
        1 => row[4] = c.wrapping_sub(start),
        2 => (row[3], row[4]) = (start.max(1), 0),
        _ => row[random.below(ROW_WIDTH)] = random.pick(&BAD_NUMBERS),
    }
}

pub fn plan(random: &mut Random, plan: &mut Vec<u32>, table: &[u32]) {
    if random.once_in(4) || plan.is_empty() {
        return resize(random, plan, MOST_PLAN_NUMBERS + PLAN_WIDTH);
    }
    let rows = plan.len() / PLAN_WIDTH;
    let row = random.below(rows.max(1));
    let (c, region_end) = table.chunks_exact(ROW_WIDTH).nth(row).map_or((1, 0), |r| (r[0], r[3].wrapping_add(r[4])));
    let rank = PLAN_WIDTH * row;
    let (at, value) = match random.below(7) {
        0 => (rank, 0),
        1 => (rank, rows as u32 + 1),
        2 => (rank, plan[PLAN_WIDTH * random.below(rows.max(1))]),
        3 => (rank + 1, 0),
        4 => (rank + 1, c.wrapping_add(1)),
        5 => (rank + 1, c.wrapping_sub(region_end).wrapping_add(1)),
        _ => (random.below(plan.len()), random.pick(&BAD_NUMBERS)),
    };
    if at < plan.len() {
        plan[at] = value;
    }
}

pub fn jobs(random: &mut Random, jobs: &mut Vec<u32>, table: &[u32]) {
    if random.once_in(5) || jobs.len() < JOB_WIDTH {
        return resize(random, jobs, MOST_JOB_NUMBERS + JOB_WIDTH);
    }
    let count = jobs_of(jobs);
    let job = JOB_WIDTH * random.below(count);
    let row = (jobs[job] as usize).min(rows_of(table).saturating_sub(1));
    match random.below(8) {
        0 => jobs[job] = rows_of(table) as u32,
        1 => jobs[job + 1] = random.pick(&[1_000_000, 1_000_001, u32::MAX]),
        2 => jobs[job + 2] = 0,
        3 => jobs[job + 2] = table.get(ROW_WIDTH * row).copied().unwrap_or(1).wrapping_add(1),
        4 => jobs[job + 1] = jobs[job + 1].wrapping_sub(1),
        5 => jobs[job + 1] = jobs[job + 1].wrapping_add(1),
        6 => jobs[job] = random.below(rows_of(table) + 1) as u32,
        _ => {
            let other = JOB_WIDTH * random.below(count);
            for i in 0..JOB_WIDTH {
                jobs.swap(job + i, other + i);
            }
        }
    }
}

pub fn sheet(random: &mut Random, text: &mut Vec<u8>) {
    const BYTES: &[u8] = b"tick task0123456789  \n\n\r\t+-.,\0\x7f\x80\xff";
    let at = random.below(text.len() + 1);
    let on_a_byte = at.min(text.len().saturating_sub(1));
    match random.below(9) {
        0 => text.truncate(at),
        1 => text.insert(at, random.pick(BYTES)),
        2 if !text.is_empty() => {
            text.remove(on_a_byte);
        }
        3 if !text.is_empty() => text[on_a_byte] = random.pick(BYTES),
        4 => text.splice(at..at, *b"0").for_each(drop),
        5 => {
            text.pop();
        }
        6 => {
            let line = *b"task 1 1000 1000\n";
            for _ in 0..random.below(33) {
                text.extend(line);
            }
        }
        7 => text.splice(at..at, *b"00000000000000000000").for_each(drop),
        _ => text.extend_from_within(..at),
    }
}
