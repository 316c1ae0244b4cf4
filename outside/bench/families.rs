//! The inputs that are measured: realistic tables, hard tables, long active periods, long and
//! crowded runs.

use common::bridge::{bytes, Call, Operation};
use common::random::Random;
use common::widths::{
    jobs_of, plain, rows_of, MOST_JOBS, MOST_ROWS, MOST_TABLE_NUMBERS, PLANNED_WIDTH, ROW_WIDTH, TIMES_WIDTH,
};

const M: u32 = 1_000_000;
const ROWS: u32 = MOST_ROWS as u32;

/// The bytes of a text buffer.
const BUFFER: u64 = 4_096;

/// The plan that times and play are measured with: ranks in table order, lengths of 1.
fn in_table_order(table: &[u32]) -> Vec<u32> {
    (1..=rows_of(table) as u32).flat_map(|rank| [rank, 1]).collect()
}

fn output(numbers: usize) -> Vec<u8> {
    bytes(&vec![0; numbers])
}

fn plan_of(table: &[u32]) -> Call {
    let slices = vec![bytes(table), output(PLANNED_WIDTH * rows_of(table))];
    Call { operation: Operation::Plan, slices, number: 0 }
}

fn times_of(table: &[u32]) -> Call {
    let slices = vec![bytes(table), bytes(&in_table_order(table)), output(TIMES_WIDTH * rows_of(table))];
    Call { operation: Operation::Times, slices, number: 0 }
}

fn play_of(table: &[u32], jobs: &[u32]) -> Call {
    let slices = vec![bytes(table), bytes(&in_table_order(table)), bytes(jobs), output(jobs_of(jobs))];
    Call { operation: Operation::Play, slices, number: 0 }
}

/// Utilisations of `rows` rows that add up to `total`, every such list equally likely (UUniFast).
fn uunifast(random: &mut Random, rows: usize, total: f64) -> Vec<f64> {
    let mut left = total;
    let mut shares = vec![];
    for behind in (1..rows).rev() {
        let next = left * random.fraction().powf(1.0 / behind as f64);
        shares.push(left - next);
        left = next;
    }
    shares.push(left);
    shares
}

/// Start and length of a middle region early in a run: it begins within the first tenth and takes up
/// to a quarter of the run.
fn early(random: &mut Random, c: u32) -> (u32, u32) {
    let part = |random: &mut Random, most: u32| (f64::from(most) * random.fraction()) as u32;
    (part(random, c / 10), 1 + part(random, c / 4))
}

/// Twenty tables of so many rows and utilisation: spacings spread evenly over the powers from 1,000
/// to 100,000 ticks, deadlines from four fifths of the spacing to twice the spacing. With `regions`
/// every run of more than two ticks has a middle region.
pub fn realistic(rows: usize, utilisation: f64, regions: bool) -> Vec<Call> {
    let mut random = Random((rows as u64) << 32 | (utilisation * 100.0) as u64);
    let row = |random: &mut Random, share: f64| -> [u32; ROW_WIDTH] {
        let t = 10f64.powf(3.0 + 2.0 * random.fraction()).round();
        let c = (share * t).round().max(1.0) as u32;
        let d = t * (0.8 + 1.2 * random.fraction());
        let (start, length) = if regions && c > 2 { early(random, c) } else { (0, 0) };
        [c, d as u32, t as u32, start, length]
    };
    let table = |_| {
        let shares = uunifast(&mut random, rows, utilisation);
        let table: Vec<u32> = shares.into_iter().flat_map(|share| row(&mut random, share)).collect();
        plan_of(&table)
    };
    (0..20).map(table).collect()
}

/// Tables of which a search for slow ones found the like: at every rank many rows are tried over
/// long active periods.
pub fn hard() -> Vec<(&'static str, Call)> {
    let ones = |d: u32, rows: usize| vec![(1, d, M); rows];
    let many_releases = [(1_639, M, M), (1, M, 2), (1, M, 3), (1, M, 8), (1, M, 25)];
    let tight_deadline = [(6_383, 6_537, M), (1, M, 3), (1, M, 3), (1, M, 4), (1, M, 13)];
    let all_but_one_fail = [(1, 3_000, 3), (1, 5_000, 8), (1, 30_000, 25), (1_639, 30_000, M), (1, M, 2)];
    let again = [(1, 3_000, 3), (1, 5_000, 8), (1, 30_000, 25), (1_612, 30_000, M), (1, M, 2)];
    let ones_last = [(1, M, 2), (1, M, 3), (1, M, 8), (1, M, 25), (1_639, M, M)];
    let refused = [(6_382, 1_633, M), (1, 13, 3), (1, 19_769, 3), (1, 67_162, 4), (1, 17_555, 13)];
    let never_passes = [(900_000, 899_999, M)];
    let tables = [
        ("plan: 27 rows (1,M,M), one of C 1,639, spacings 2, 3, 8, 25", [ones(M, 27), many_releases.to_vec()]),
        ("plan: 27 rows (1,M,M), one (6383,6537,M), spacings 3, 3, 4, 13", [ones(M, 27), tight_deadline.to_vec()]),
        (
            "plan: 27 rows (1,999000,M), spacings 3, 8, 25, one of C 1,639",
            [ones(999_000, 27), all_but_one_fail.to_vec()],
        ),
        (
            "plan: 27 rows (1,999000,900000), released again, spacings 3, 8, 25, one of C 1,612",
            [vec![(1, 999_000, 900_000); 27], again.to_vec()],
        ),
        ("plan: spacings 2, 3, 8, 25, one of C 1,639, 27 rows (1,M,M)", [ones_last.to_vec(), ones(M, 27)]),
        ("plan: 27 rows (1,999000,M), one (6382,1633,M), refused", [ones(999_000, 27), refused.to_vec()]),
        ("plan: 31 rows (1,M,M), one (900000,899999,M)", [ones(M, 31), never_passes.to_vec()]),
    ];
    tables.into_iter().map(|(name, parts)| (name, plan_of(&plain(&parts.concat())))).collect()
}

/// Two of them again with middle regions, each row's a tick shorter than that of the row before, so
/// that every row is tried at every rank.
pub fn hard_with_regions() -> Vec<(&'static str, Call)> {
    let falling: Vec<u32> = (1..=27).rev().flat_map(|length| [length + 1, M, M, 0, length]).collect();
    let many_releases = plain(&[(1, M, 2), (1, M, 3), (1, M, 8), (1, M, 25)]);
    let tight_deadline = plain(&[(1, M, 3), (1, M, 3), (1, M, 4), (1, M, 13)]);
    let tables = [
        (
            "plan: 27 rows with falling regions, one of C 1,261, spacings 2, 3, 8, 25",
            [&falling[..], &[1_261, M, M, 0, 1_000], &many_releases].concat(),
        ),
        (
            "plan: 27 rows with falling regions, one (6005,6537,M), spacings 3, 3, 4, 13",
            [&falling[..], &[6_005, 6_537, M, 0, 1_000], &tight_deadline].concat(),
        ),
    ];
    tables.into_iter().map(|(name, table)| (name, plan_of(&table))).collect()
}

pub fn long_active_periods() -> Vec<(&'static str, Call)> {
    let many_jobs = plain(&[(499_999, M, M), (1, M, 2)]);
    let slow_approach = plain(&[(1, M, 2), (1, M, 3), (1, M, 7), (1, M, 43), (500, M, M)]);
    let last = plain(&[(60_000, M, M)]);
    let crowd = [plain(&[(3, M, 100); MOST_ROWS - 1]), last.clone()].concat();
    let crowd_with_regions = [[3, M, 100, 0, 2].repeat(MOST_ROWS - 1), last].concat();
    vec![
        ("times: one row above, 499,999 jobs in the active period", times_of(&many_jobs)),
        ("times: spacings 2, 3, 7, 43 above, an active period of 903,000 ticks", times_of(&slow_approach)),
        ("times: 31 rows above of spacing 100, an active period of 860,000 ticks", times_of(&crowd)),
        ("times: 31 rows above of spacing 100 with middle regions", times_of(&crowd_with_regions)),
    ]
}

/// 32 rows with lengths of 1, so many jobs, the runs given by the job's number.
fn run(t: u32, c: u32, jobs: u32, run: impl Fn(u32) -> u32) -> Call {
    let list: Vec<u32> = (0..jobs).flat_map(|job| [job % ROWS, job / ROWS * t, run(job)]).collect();
    play_of(&plain(&[(c, M, t); MOST_ROWS]), &list)
}

/// Each row's job is finished before its next.
pub fn spaced(jobs: u32) -> Call {
    run(200, 5, jobs, |job| 1 + job % 5)
}

/// Released much faster than they can run: nearly all are pending at once.
pub fn flood(jobs: u32) -> Call {
    run(1, 40, jobs, |job| 1 + job % 40)
}

/// Each job is preempted after two of its three ticks by the next, of higher rank, until the lowest
/// rank comes round again.
pub fn preempted(jobs: u32) -> Call {
    let list: Vec<u32> = (0..jobs).flat_map(|job| [ROWS - 1 - job % ROWS, job * 2, 3]).collect();
    play_of(&plain(&[(3, M, 64); MOST_ROWS]), &list)
}

/// Jobs of rising ranks, two of three released while the one before is in its middle region, and the
/// third just before that.
pub fn held(jobs: u32) -> Call {
    let list: Vec<u32> = (0..jobs).flat_map(|job| [ROWS - 1 - job % ROWS, job * 3, 5]).collect();
    play_of(&[5, M, 96, 1, 3].repeat(MOST_ROWS), &list)
}

pub fn longest_run() -> Call {
    run(7_000, M, MOST_JOBS as u32, |_| M)
}

pub fn texts() -> Vec<(&'static str, Call)> {
    let sheet = |line: &[u8]| [&b"tick 1000\n"[..], &line.repeat(MOST_ROWS)].concat();
    let plain = sheet(b"task 1000000 2000000 3000000\n");
    let with_regions = sheet(b"task 1000000 2000000 3000000 100500 250000\n");
    let planned = bytes(&(0..ROWS).flat_map(|row| [row + 1, 1_000 * row + 1, M - row]).collect::<Vec<_>>());
    let call = |operation, slices| Call { operation, slices, number: BUFFER };
    vec![
        ("sheet of 32 rows", call(Operation::Sheet, vec![plain, output(MOST_TABLE_NUMBERS)])),
        (
            "sheet of 32 rows with middle regions",
            call(Operation::Sheet, vec![with_regions, output(MOST_TABLE_NUMBERS)]),
        ),
        ("print of 32 rows", call(Operation::Print, vec![planned.clone(), vec![0; BUFFER as usize]])),
        ("fit of 32 rows", call(Operation::Fit, vec![planned])),
    ]
}
