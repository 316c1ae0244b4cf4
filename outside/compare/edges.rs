//! Fixed cases at the limits: the horizon, 32 rows, 4,096 jobs, the last release, 2^32, places at
//! both ends, empty slices.

use crate::judge::Judge;
use common::widths::{
    plain, rows_of, MOST_JOBS, MOST_PLANNED_NUMBERS, MOST_ROWS, MOST_TABLE_NUMBERS, PLANNED_WIDTH, PLAN_WIDTH,
    ROW_WIDTH, TIMES_WIDTH,
};
use second::Refusal;

const M: u32 = 1_000_000;

/// A plan with its ranks in table order and one length for all rows.
fn in_table_order(rows: usize, length: u32) -> Vec<u32> {
    (1..=rows as u32).flat_map(|rank| [rank, length]).collect()
}

fn busy_period_at_the_horizon(judge: &mut Judge) {
    let of_the_horizon = [
        plain(&[(M, M, M)]),
        plain(&[(200_000, M, 399_999), (200_000, M, 599_999)]),
        plain(&[(76_008, M, 90_918), (1_520, M, 201_384), (668, M, 4_275)]),
    ];
    for table in of_the_horizon {
        let plan = in_table_order(rows_of(&table), 1);
        if judge.times(&table, &plan, table.len()).is_none() {
            judge.fault(|| format!("{table:?} has a busy period of the horizon and no times"));
        }
        judge.verdict(&table, &plan);
        judge.counts.add("table: a busy period of exactly the horizon");
    }
    let one_more = plain(&[(200_001, M, 399_999), (199_999, M, 600_000)]);
    let plan = [1, 1, 2, 1];
    judge.plan(&one_more, 2 * PLANNED_WIDTH);
    judge.times(&one_more, &plan, 2 * TIMES_WIDTH);
    judge.verdict(&one_more, &plan);
    judge.counts.add("table: a busy period one tick beyond the horizon");
}

/// The work asked for up to a tick is 2^32 exactly.
fn work_of_32_bits(judge: &mut Judge) {
    let table = plain(&[(65_536, 65_536, 1)]);
    judge.plan(&table, PLANNED_WIDTH);
    judge.times(&table, &[1, 1], TIMES_WIDTH);
    judge.verdict(&table, &[1, 1]);
}

/// The sum of the work passes 2^64 after a few steps.
fn heaviest_tables(judge: &mut Judge) {
    for rows in [1, 2, MOST_ROWS] {
        for (row, length) in [([M, M, 1, 0, 0], M), ([M, M, 1, 0, M - 1], 1), ([M, M, 1, M - 2, 1], 1)] {
            let (table, plan) = (row.repeat(rows), in_table_order(rows, length));
            judge.plan(&table, PLANNED_WIDTH * rows);
            judge.times(&table, &plan, TIMES_WIDTH * rows);
            judge.verdict(&table, &plan);
        }
    }
}

fn counts_of_rows(judge: &mut Judge) {
    for numbers in 0..=MOST_TABLE_NUMBERS + ROW_WIDTH + 1 {
        let table = plain(&[(1, 50, 50); MOST_ROWS + 2])[..numbers].to_vec();
        let rows = rows_of(&table);
        let plan = in_table_order(rows, 1);
        judge.plan(&table, PLANNED_WIDTH * rows);
        judge.times(&table, &plan, TIMES_WIDTH * rows);
        judge.verdict(&table, &plan);
        judge.play(&table, &plan, &[0, 0, 1], 1);
        judge.print(&table, 2_000);
        judge.fit(&table, 2_000);
        if numbers > 0 {
            judge.plan(&table, (PLANNED_WIDTH * rows).saturating_sub(1));
            judge.times(&table, &plan, (TIMES_WIDTH * rows).saturating_sub(1));
        }
    }
}

/// The last of 32 rows alone can take rank 32.
fn last_row_at_the_last_rank(judge: &mut Judge) {
    let table = [plain(&[(1, 31, 100); MOST_ROWS - 1]), plain(&[(1, 32, 100)])].concat();
    if judge.plan(&table, MOST_PLANNED_NUMBERS).is_none() {
        judge.fault(|| format!("{table:?} has a plan"));
    }
}

/// Row 2 takes longest by its job 121,667.
fn late_job_takes_longest(judge: &mut Judge) {
    let table = plain(&[(115_263, M, 243_333), (1, M, 38), (2, M, 4)]);
    let plan = [1, 1, 2, 1, 3, 1];
    if judge.times(&table, &plan, 3 * TIMES_WIDTH).is_none_or(|times| times[2] != 118_382) {
        judge.fault(|| format!("the last response of {table:?} under {plan:?} is not 118382"));
    }
    judge.verdict(&table, &plan);
}

/// Each number of a table, of a plan and of a job list put just outside its range, alone and before
/// a second fault.
fn places(judge: &mut Judge) {
    let table = [3, 9, 9, 1, 1].repeat(MOST_ROWS);
    let plan = in_table_order(MOST_ROWS, 1);
    let jobs: Vec<u32> = (0..40).flat_map(|job| [job % MOST_ROWS as u32, job, 3]).collect();
    for at in 0..table.len() {
        for bad in [0, M + 1, u32::MAX] {
            let mut table = table.clone();
            table[at] = bad;
            judge.plan(&table, MOST_PLANNED_NUMBERS);
            judge.times(&table, &plan, MOST_ROWS);
            judge.verdict(&table, &plan);
            judge.play(&table, &plan, &jobs, 40);
            table[MOST_TABLE_NUMBERS - 1] = 0;
            judge.plan(&table, 0);
        }
    }
    for at in 0..plan.len() {
        for bad in [0, 2, 4, MOST_ROWS as u32 + 1, u32::MAX, plan[(at + PLAN_WIDTH) % plan.len()]] {
            let mut plan = plan.clone();
            plan[at] = bad;
            judge.times(&table, &plan, MOST_ROWS);
            judge.verdict(&table, &plan);
            judge.play(&table, &plan, &jobs, 40);
        }
    }
    for at in 0..jobs.len() {
        for bad in [0, 4, MOST_ROWS as u32, M, M + 1, u32::MAX, jobs[at] + 1, jobs[at].saturating_sub(1)] {
            let mut jobs = jobs.clone();
            jobs[at] = bad;
            judge.play(&table, &plan, &jobs, 40);
        }
    }
}

/// Each row with a region at its limits and one beyond, alone and before a second fault.
fn places_of_regions(judge: &mut Judge) {
    let rows = [
        [3, 9, 9, 0, 2],
        [3, 9, 9, 0, 3],
        [3, 9, 9, 1, 1],
        [3, 9, 9, 1, 2],
        [3, 9, 9, 2, 0],
        [3, 9, 9, 2, 1],
        [1, 9, 9, 0, 1],
        [3, 9, 0, 1, 0],
        [3, 9, 9, M, 0],
        [3, 9, 9, M, 1],
        [3, 9, 9, M + 1, 1],
        [3, 9, 9, 1, M + 1],
        [3, 9, 9, 2, u32::MAX],
        [3, 9, 9, u32::MAX, 2],
        [M, 9, M, M - 2, 1],
        [M, 9, M, M - 1, 1],
        [M, 9, M, 0, M - 1],
        [M, 9, M, 0, M],
    ];
    let plan = in_table_order(MOST_ROWS, 1);
    for (at, row) in (0..MOST_ROWS).flat_map(|at| rows.iter().map(move |row| (at, row))) {
        let mut table = plain(&[(1, 50, 50); MOST_ROWS]);
        table[ROW_WIDTH * at..][..ROW_WIDTH].copy_from_slice(row);
        judge.plan(&table, MOST_PLANNED_NUMBERS);
        judge.times(&table, &plan, MOST_ROWS);
        judge.verdict(&table, &plan);
        judge.play(&table, &plan, &[at as u32, 0, 1], 1);
        table[MOST_TABLE_NUMBERS - ROW_WIDTH] = 0;
        judge.plan(&table, 0);
    }
}

fn job_lists(judge: &mut Judge) {
    let (table, plan) = (plain(&[(1, 1, 1)]), [1, 1]);
    for count in [0, 1, MOST_JOBS - 1, MOST_JOBS, MOST_JOBS + 1, 5_000] {
        let jobs: Vec<u32> = (0..count as u32).flat_map(|job| [0, job, 1]).collect();
        judge.play(&table, &plan, &jobs, count);
        judge.play(&table, &plan, &jobs, count.saturating_sub(1));
        judge.play(&table, &plan, &[&jobs[..], &[0]].concat(), count);
    }
    judge.play(&table, &plan, &[0, M, 1], 1);
    judge.play(&table, &plan, &[0, M - 1, 1, 0, M, 1], 2);
    judge.play(&table, &plan, &[0, M, 1, 0, M, 1], 2);
    let table = plain(&[(1, 1, M), (1, 1, 1)]);
    judge.play(&table, &[1, 1, 2, 1], &[0, 0, 1, 1, 0, 1, 0, M - 1, 1], 3);
    judge.play(&table, &[1, 1, 2, 1], &[0, 0, 1, 1, 0, 1, 0, M, 1], 3);
}

/// Each number of a sheet at its limit and one beyond.
fn largest_numbers_of_a_sheet(judge: &mut Judge) {
    for tick in ["1000", "1001", "9999", "10000"] {
        judge.sheet(format!("tick {tick}\ntask 1 1000 1000\n").as_bytes(), ROW_WIDTH);
    }
    let most = "1000000000";
    for beyond in ["1000000000", "1000000001", "9999999999", "10000000000"] {
        for times in [
            format!("{beyond} {most} {most}"),
            format!("{most} {beyond} {most}"),
            format!("{most} {most} {beyond}"),
            format!("{most} {most} {beyond} 0 1"),
            format!("{most} {most} {most} {beyond} 1"),
            format!("{most} {most} {most} 0 {beyond}"),
            format!("{most} {most} {most} {beyond} {beyond}"),
        ] {
            judge.sheet(format!("tick 1000\ntask {times}\n").as_bytes(), ROW_WIDTH);
        }
    }
}

/// Each number of a sheet at whole ticks, the fewest and the most that a table may have, and a
/// microsecond to either side.
fn times_beside_whole_ticks(judge: &mut Judge) {
    for tick in [1, 2, 3, 7, 10, 999, 1_000] {
        let whole = [1, 2, u64::from(M)].map(|ticks| tick * ticks);
        for us in whole.iter().flat_map(|us| [us - 1, *us, us + 1]) {
            for [c, d, t] in [[us, tick, tick], [tick, us, tick], [tick, tick, us]] {
                judge.sheet(format!("tick {tick}\ntask {c} {d} {t}\n").as_bytes(), ROW_WIDTH);
            }
        }
    }
}

/// Start and end of a region on a sheet at whole ticks and a microsecond to either side, up to the end
/// of the run.
fn regions_beside_whole_ticks(judge: &mut Judge) {
    for tick in [1, 2, 7, 10, 1_000] {
        let near = |ticks: &[u64]| {
            let beside = |ticks: &u64| [(tick * ticks).saturating_sub(1), tick * ticks, tick * ticks + 1];
            ticks.iter().flat_map(beside).collect::<Vec<u64>>()
        };
        for (start, end) in near(&[0, 1, 3]).into_iter().flat_map(|start| {
            let ends = near(&[1, 2, 4, 5, 6]);
            ends.into_iter().map(move |end| (start, end))
        }) {
            let (c, length) = (6 * tick, end.saturating_sub(start));
            judge.sheet(format!("tick {tick}\ntask {c} {c} {c} {start} {length}\n").as_bytes(), ROW_WIDTH);
        }
    }
}

/// What may stand behind a line's T, and what may not.
fn ends_of_a_line(judge: &mut Judge) {
    let ends = ["", " ", "  ", " 0", " 0 ", " 0 0", " 00 1", " 01 1", " 0 01", " 0 1", " 0 1 ", " 0 1 1", " 1", " 1 1"];
    let more =
        [" 0 -1", " +0 1", " 0\t1", " 1000000000 1", " 1000000001 1", " 10000000000 1", " 0 1000000001", " 0x 1"];
    for end in ends.into_iter().chain(more) {
        for rest in ["", "\n", "\n\n", "\ntask 60 200 200\n", "\ntask 60 200 200 0 20\n", "task 60 200 200\n"] {
            judge.sheet(format!("tick 10\ntask 60 200 200{end}{rest}").as_bytes(), 2 * ROW_WIDTH);
        }
    }
}

fn long_texts(judge: &mut Judge) {
    let line = b"task 1000000000 1000000000 1000000000 100000000 800000000\n";
    for lines in [MOST_ROWS - 1, MOST_ROWS, MOST_ROWS + 1, 2_000] {
        judge.sheet(&[&b"tick 1000\n"[..], &line.repeat(lines)].concat(), MOST_TABLE_NUMBERS);
        judge.sheet(&[&b"tick 999\n"[..], &line.repeat(lines)].concat(), MOST_TABLE_NUMBERS);
        judge.sheet(&[&b"tick 1000\n"[..], &line.repeat(lines)].concat(), MOST_TABLE_NUMBERS - 1);
    }
    judge.sheet(&b"tick 1\ntask 1 1 1\n".repeat(3_000), MOST_TABLE_NUMBERS);
    judge.sheet(&[b'9'; 100_000], MOST_TABLE_NUMBERS);
    judge.sheet(&[&b"tick 1"[..], &[b'0'; 100_000]].concat(), MOST_TABLE_NUMBERS);
    judge.sheet(b"tick 1\ntask 1 2 18446744073709551617\n", ROW_WIDTH);
    judge.sheet(b"tick 7\ntask 1 7 8\n", ROW_WIDTH);
}

/// The header names the longest sheet, whose regions end later than they may, and the longest printed
/// plan.
fn longest_texts(judge: &mut Judge) {
    let line = b"task 1000000000 1000000000 1000000000 1000000000 1000000000\n";
    let sheet = [&b"tick 1000\n"[..], &line.repeat(MOST_ROWS)].concat();
    let page = [u32::MAX; MOST_PLANNED_NUMBERS];
    judge.sheet(&sheet, MOST_TABLE_NUMBERS);
    let late_region = Err(Refusal { number: 3, place: 4 });
    if sheet.len() != 1_930
        || second::sheet(&sheet, MOST_TABLE_NUMBERS) != late_region
        || judge.fit(&page, 1_950) != Some(1_950)
    {
        judge.fault(|| "the longest sheet or the longest printed plan is not what the header says".into());
    }
    judge.print(&page, 1_950);
    judge.print(&page, 1_949);
}

/// Buffers of more than 2^32 bytes, of which fit is only told.
fn vast_buffers(judge: &mut Judge) {
    for room in [u64::from(u32::MAX), 1 << 32, (1 << 32) + 1, 1 << 63] {
        judge.fit(&[1, 1, 1], room);
    }
}

pub fn all(judge: &mut Judge) {
    busy_period_at_the_horizon(judge);
    work_of_32_bits(judge);
    heaviest_tables(judge);
    counts_of_rows(judge);
    last_row_at_the_last_rank(judge);
    late_job_takes_longest(judge);
    places(judge);
    places_of_regions(judge);
    job_lists(judge);
    largest_numbers_of_a_sheet(judge);
    times_beside_whole_ticks(judge);
    regions_beside_whole_ticks(judge);
    ends_of_a_line(judge);
    long_texts(judge);
    vast_buffers(judge);
    longest_texts(judge);
}
