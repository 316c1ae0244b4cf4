//! What is wrong with a table, a plan, a job or a sheet at the place where it is refused: refusals 3, 6,
//! 8 and 9 have several causes each.

use common::widths::{JOB_WIDTH, MOST_ROWS, MOST_TABLE_NUMBERS, PLAN_WIDTH, ROW_WIDTH};
use second::Row;

/// A region's numbers in a row and on a line.
const START: usize = 3;
const LENGTH: usize = 4;

pub const OF_TABLES: [&str; 9] = [
    "a run of 0",
    "a run above 1,000,000",
    "a deadline of 0",
    "a deadline above 1,000,000",
    "a spacing of 0",
    "a spacing above 1,000,000",
    "a start above 1,000,000",
    "a start without a length",
    "a region that ends later than C less 1",
];

pub const OF_PLANS: [&str; 7] = [
    "wrong size",
    "rank 0",
    "rank above n",
    "rank of a row before",
    "length 0",
    "length above C",
    "length up to C, into the middle region",
];

pub const OF_JOBS: [&str; 6] = [
    "row of no task",
    "release above 1,000,000",
    "run 0",
    "run above C",
    "released before a job ahead",
    "too close to a job of its row",
];

pub const OF_SHEETS: [&str; 17] = [
    "nothing",
    "no task line",
    "no line feed at the end",
    "ends within a line",
    "a 33rd task line",
    "a number that begins with 0",
    "a tick above 1,000",
    "a time above 1,000,000,000",
    "no number behind a space",
    "another byte behind a number",
    "another word",
    "a length that begins with 0",
    "a digit behind a start of 0",
    "a start above 1,000,000,000",
    "a length above 1,000,000,000",
    "a start with no length",
    "a number behind the length",
];

pub const OF_TICKS: [&str; 7] = [
    "a run above 1,000,000 ticks",
    "a deadline above 1,000,000 ticks",
    "a spacing above 1,000,000 ticks",
    "a start above 1,000,000 ticks",
    "a region that ends too late",
    "a deadline of no tick",
    "a spacing of no tick",
];

fn those<const N: usize>(names: [&'static str; N], hit: [bool; N]) -> Vec<&'static str> {
    names.into_iter().zip(hit).filter_map(|(name, hit)| hit.then_some(name)).collect()
}

/// Of the number at which the table is refused.
pub fn of_table(table: &[u32], place: usize) -> Vec<&'static str> {
    let Row { c, d, t, start, region } = Row::of_table(table)[place / ROW_WIDTH];
    let column = place % ROW_WIDTH;
    let outside = |at: usize, v: u64| [column == at && v == 0, column == at && v > second::MOST];
    let ([no_c, much_c], [no_d, much_d], [no_t, much_t]) = (outside(0, c), outside(1, d), outside(2, t));
    let late_start = column == START && start > second::MOST;
    let no_length = column == START && start > 0 && region == 0;
    let late_end = column == LENGTH && start + region > c - 1;
    those(OF_TABLES, [no_c, much_c, no_d, much_d, no_t, much_t, late_start, no_length, late_end])
}

/// Of the row at which the plan is refused.
pub fn of_plan(table: &[u32], plan: &[u32], row: usize) -> Vec<&'static str> {
    let rows = Row::of_table(table);
    if plan.len() != PLAN_WIDTH * rows.len() {
        return vec![OF_PLANS[0]];
    }
    let (rank, length) = (plan[PLAN_WIDTH * row], u64::from(plan[PLAN_WIDTH * row + 1]));
    let taken = (0..row).any(|before| plan[PLAN_WIDTH * before] == rank);
    let above_c = length > rows[row].c;
    let into_middle = !above_c && length > rows[row].cap();
    those(OF_PLANS, [false, rank == 0, rank > rows.len() as u32, taken, length == 0, above_c, into_middle])
}

/// Of the job at which the list is refused.
pub fn of_job(table: &[u32], jobs: &[u32], job: usize) -> Vec<&'static str> {
    let rows = Row::of_table(table);
    let [row, release, run] = [0, 1, 2].map(|i| u64::from(jobs[JOB_WIDTH * job + i]));
    let ahead = || jobs[..JOB_WIDTH * job].chunks(JOB_WIDTH);
    let falls = ahead().any(|j| u64::from(j[1]) > release);
    let Some(own) = rows.get(row as usize) else {
        return those(OF_JOBS, [true, release > second::MOST, run == 0, false, falls, false]);
    };
    let close = ahead().any(|j| u64::from(j[0]) == row && release < u64::from(j[1]) + own.t);
    those(OF_JOBS, [false, release > second::MOST, run == 0, run > own.c, falls, close])
}

fn is_whole(text: &[u8]) -> bool {
    second::sheet(text, MOST_TABLE_NUMBERS).map_or_else(|refusal| refusal.number != 9, |_| true)
}

/// Of the text from the place on at which it is refused.
pub fn of_sheet(text: &[u8], place: usize) -> &'static str {
    let (before, rest) = text.split_at(place);
    let lines = before.iter().filter(|byte| **byte == b'\n').count();
    let last = before.last().copied().unwrap_or(b'\n');
    let line = before.rsplit(|byte| *byte == b'\n').next().unwrap_or(before);
    let column = line.iter().filter(|byte| **byte == b' ').count().wrapping_sub(1);
    let cause = match (last, rest.first()) {
        _ if text.is_empty() => 0,
        (b'\n', None) => 1,
        (b'0'..=b'9', None) if is_whole(&[text, b"\n"].concat()) => 2,
        (_, None) => 3,
        (b'\n', Some(_)) if lines == 1 + MOST_ROWS => 4,
        (b' ', Some(b'0')) if column == LENGTH => 11,
        (b' ', Some(b'0')) => 5,
        (b'0', Some(b'0'..=b'9')) if line.ends_with(b" 0") => 12,
        (b'0'..=b'9', Some(b'0'..=b'9')) if lines == 0 => 6,
        (b'0'..=b'9', Some(b'0'..=b'9')) if column == START => 13,
        (b'0'..=b'9', Some(b'0'..=b'9')) if column == LENGTH => 14,
        (b'0'..=b'9', Some(b'\n')) if column == START => 15,
        (b'0'..=b'9', Some(b' ')) if column == LENGTH => 16,
        (b'0'..=b'9', Some(b'0'..=b'9')) => 7,
        (b' ', Some(_)) => 8,
        (b'0'..=b'9', Some(_)) => 9,
        _ => 10,
    };
    OF_SHEETS[cause]
}

/// The tick and the lines' times of a well-formed sheet, 0 and 0 where a line has no region.
pub fn times_of_sheet(text: &[u8]) -> (u64, Vec<[u64; ROW_WIDTH]>) {
    let text = String::from_utf8_lossy(text);
    let numbers = |line: &str| {
        let mut times = [0; ROW_WIDTH];
        for (time, word) in times.iter_mut().zip(line.split(' ').skip(1)) {
            *time = word.parse().unwrap_or(0);
        }
        times
    };
    let mut lines = text.lines().map(numbers);
    (lines.next().map_or(1, |[tick, ..]| tick), lines.collect())
}

/// Of the number in ticks at which a well-formed sheet is refused.
pub fn of_ticks(text: &[u8], place: usize) -> &'static str {
    let (tick, times) = times_of_sheet(text);
    let column = place % ROW_WIDTH;
    let cause = match (column, times[place / ROW_WIDTH][column] < tick) {
        (1, true) => 5,
        (2, true) => 6,
        _ => column,
    };
    OF_TICKS[cause]
}
