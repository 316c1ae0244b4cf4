//! Sound random inputs: task tables of several kinds, plans, job lists, sheets and planned tables.

use common::random::Random;
use common::widths::{rows_of, JOB_WIDTH, MOST_ROWS, PLANNED_WIDTH, ROW_WIDTH, TIMES_WIDTH};
use second::Row;

const MOST: u64 = 1_000_000;

/// A deadline below, at or above the spacing.
fn deadline(random: &mut Random, c: u64, t: u64) -> u64 {
    let d = match random.below(6) {
        0 | 1 => t,
        2 => random.from_to(c, c + t),
        3 => random.from_to(1, t),
        4 => random.from_to(t, 3 * t),
        _ => random.from_to(1, 2 * c + t),
    };
    d.clamp(1, MOST)
}

/// Start and length of a middle region, or of none: from the first tick on, up to the tick before C
/// or anywhere, of one tick, as long as it may be or between.
fn region(random: &mut Random, c: u64) -> (u64, u64) {
    if c == 1 || random.once_in(2) {
        return (0, 0);
    }
    let last_end = c - 1;
    let length = match random.below(4) {
        0 => 1,
        1 => last_end,
        _ => random.from_to(1, last_end),
    };
    let start = match random.below(4) {
        0 => 0,
        1 => last_end - length,
        _ => random.from_to(0, last_end - length),
    };
    (start, length)
}

/// A row with some middle region, if C leaves room for one.
pub fn row(random: &mut Random, c: u64, d: u64, t: u64) -> [u32; ROW_WIDTH] {
    let (start, length) = region(random, c);
    [c, d, t, start, length].map(|number| number as u32)
}

fn row_due(random: &mut Random, c: u64, t: u64) -> [u32; ROW_WIDTH] {
    let d = deadline(random, c, t);
    row(random, c, d, t)
}

/// Rows with spacings from `least` to `most` whose runs share about `percent` of the processor.
fn shared(random: &mut Random, rows: usize, least: u64, most: u64, percent: u64) -> Vec<u32> {
    let weights: Vec<u64> = (0..rows).map(|_| random.from_to(1, 10)).collect();
    let total: u64 = weights.iter().sum();
    let one = |weight: &u64| {
        let t = random.from_to(least, most);
        let c = (t * percent * weight / (100 * total)).clamp(1, MOST);
        row_due(random, c, t)
    };
    weights.iter().map(one).collect::<Vec<_>>().concat()
}

/// Rows that take the whole processor exactly, all spacings being divisors of one number.
fn full(random: &mut Random, rows: usize) -> Vec<u32> {
    let whole = random.pick(&[12, 24, 60]);
    let divisors: Vec<u64> = (1..=whole).filter(|t| whole % t == 0).collect();
    let mut left = whole;
    let mut table = vec![];
    for _ in 1..rows {
        let t = random.pick(&divisors);
        let share = whole / t;
        let most = (left - 1) / share;
        if most > 0 {
            let c = random.from_to(1, most.min(t));
            left -= c * share;
            table.push(row_due(random, c, t));
        }
    }
    table.push(row_due(random, left, whole));
    table.concat()
}

pub fn table(random: &mut Random) -> Vec<u32> {
    let rows = if random.once_in(8) { 1 + random.below(MOST_ROWS) } else { 1 + random.below(5) };
    match random.below(8) {
        0 | 1 => {
            let few = rows.min(4);
            (0..few)
                .flat_map(|_| {
                    let c = random.from_to(1, 4);
                    let t = random.from_to(1, 14);
                    row_due(random, c, t)
                })
                .collect()
        }
        2 | 3 => {
            let percent = random.from_to(40, 100);
            shared(random, rows, 3, 20, percent)
        }
        4 | 5 => {
            let percent = random.from_to(50, 98);
            shared(random, rows, 10, 120, percent)
        }
        6 => full(random, rows.min(5)),
        _ => {
            let few = rows.min(4);
            let percent = random.from_to(30, 99);
            shared(random, few, 2_000, 20_000, percent)
        }
    }
}

/// The same rows with deadlines at the responses of some plan, at times one tick short, so that
/// lengths and ties decide; and that plan.
pub fn tight(random: &mut Random, table: &[u32]) -> (Vec<u32>, Vec<u32>) {
    let some_plan = plan(random, table);
    let mut tight = table.to_vec();
    let times = second::times(table, &some_plan, TIMES_WIDTH * rows_of(table)).unwrap_or_default();
    for (row, response) in tight.chunks_mut(ROW_WIDTH).zip(times) {
        row[1] = response - u32::from(random.once_in(12) && response > 1);
    }
    (tight, some_plan)
}

/// Ranks in any order, lengths from 1 to the longest that each row's middle region leaves.
pub fn plan(random: &mut Random, table: &[u32]) -> Vec<u32> {
    let rows = rows_of(table);
    let mut ranks: Vec<u32> = (1..=rows as u32).collect();
    for i in (1..rows).rev() {
        ranks.swap(i, random.below(i + 1));
    }
    let length = |random: &mut Random, cap: u64| match random.below(4) {
        0 => 1,
        1 => cap,
        _ => random.from_to(1, cap),
    };
    Row::of_table(table).iter().zip(ranks).flat_map(|(row, rank)| [rank, length(random, row.cap()) as u32]).collect()
}

/// Up to `most` jobs, each row's releases at their least spacing or a little wider, listed in order
/// of release.
pub fn jobs(random: &mut Random, table: &[u32], most: usize, last_release: u64) -> Vec<u32> {
    let mut jobs: Vec<[u32; JOB_WIDTH]> = vec![];
    let loose = random.below(3) as u64;
    for (row, numbers) in table.chunks(ROW_WIDTH).enumerate() {
        let (c, t) = (u64::from(numbers[0]), u64::from(numbers[2]));
        let mut release = if random.once_in(2) { 0 } else { random.from_to(0, t.min(last_release)) };
        while release <= last_release && jobs.len() < 4 * most {
            let run = if random.once_in(2) { c } else { random.from_to(1, c) };
            jobs.push([row as u32, release as u32, run as u32]);
            release += t + loose * random.from_to(0, t);
        }
    }
    jobs.sort_by_key(|job| job[1]);
    jobs.truncate(most);
    jobs.concat()
}

/// A number from 1 to `most`, at all sizes.
fn number(random: &mut Random, most: u64) -> u64 {
    match random.below(6) {
        0 => most,
        1 => 1,
        2 => {
            let digits = random.from_to(0, 9) as u32;
            (10u64.pow(digits)).min(most)
        }
        _ => {
            let limit = random.pick(&[9, 99, 5_000, 1_000_000, most]).min(most);
            random.from_to(1, limit)
        }
    }
}

/// A time of a task: whole ticks, a microsecond beside them, or anywhere between two of them; at
/// times any number at all, so less than a tick, or more ticks than a table may have.
fn time(random: &mut Random, tick: u64) -> u64 {
    const MOST_TIME: u64 = 1_000_000_000;
    let whole = tick * number(random, MOST);
    let us = match random.below(20) {
        0 => number(random, MOST_TIME),
        1..=5 => whole,
        6..=8 => whole - u64::from(whole > tick),
        9..=11 => whole + 1,
        _ => whole + random.from_to(0, tick - 1),
    };
    us.min(MOST_TIME)
}

/// Start and length of a middle region in microseconds: mostly within the run less a tick, near its
/// end or anywhere; at times any two times at all.
fn region_of_line(random: &mut Random, c: u64, tick: u64) -> (u64, u64) {
    let last_end = c.saturating_sub(random.from_to(0, 2 * tick));
    if last_end == 0 || random.once_in(12) {
        return (time(random, tick) - 1, time(random, tick));
    }
    let end = if random.once_in(3) { last_end } else { random.from_to(1, last_end) };
    let length = if random.once_in(3) { random.from_to(1, end.min(2 * tick)) } else { random.from_to(1, end) };
    (end - length, length)
}

/// A well-formed sheet, its numbers at all sizes.
pub fn sheet(random: &mut Random) -> Vec<u8> {
    let rows = if random.once_in(10) { MOST_ROWS } else { 1 + random.below(4) };
    let tick = number(random, 1_000);
    let mut text = format!("tick {tick}\n");
    for _ in 0..rows {
        let (c, d, t) = (time(random, tick), time(random, tick), time(random, tick));
        text += &format!("task {c} {d} {t}");
        if random.once_in(2) {
            let (start, length) = region_of_line(random, c, tick);
            text += &format!(" {start} {length}");
        }
        text += "\n";
    }
    text.into_bytes()
}

/// Any 32-bit numbers, the edges of each count of digits among them.
pub fn planned(random: &mut Random) -> Vec<u32> {
    let rows = if random.once_in(6) { MOST_ROWS } else { 1 + random.below(12) };
    let number = |_| match random.below(4) {
        0 => 10u32.pow(random.below(10) as u32),
        1 => 10u32.pow(random.below(10) as u32) - 1,
        2 => random.pick(&[0, u32::MAX, u32::MAX - 1]),
        _ => random.next() as u32,
    };
    (0..PLANNED_WIDTH * rows).map(number).collect()
}
