//! Large numbers: plans of up to 32 rows held at their edges, long runs held to scaled small ones.

use crate::judge::Judge;
use crate::make;
use common::random::Random;
use common::widths::{jobs_of, JOB_WIDTH, MOST_JOBS, MOST_ROWS, PLANNED_WIDTH, PLAN_WIDTH, ROW_WIDTH};
use second::{busy_period, Level, Placed, Refusal, Row};

const M: u64 = 1_000_000;
const ROWS: u32 = MOST_ROWS as u32;
const JOBS: u32 = MOST_JOBS as u32;

/// Rows with spacings from `least` to M that share about `percent` of the processor, and deadlines
/// that are mostly tight.
pub fn wide_table(random: &mut Random, rows: usize, least: u64, percent: u64) -> Vec<u32> {
    let row = |_| {
        let t = random.from_to(least, M);
        let about = (t * percent / 100 / rows as u64).max(1);
        let c = random.from_to(about.div_ceil(2), about + about / 2);
        let d = if random.once_in(3) { random.from_to(c, 2 * t) } else { random.from_to(t / 2, t) };
        make::row(random, c, d.clamp(1, M), t)
    };
    (0..rows).flat_map(row).collect()
}

/// Whether each rank went to the right row, with its response: the length taken passes and no shorter
/// one does, and no other row that could have had the rank passes so that the longer of its regions is
/// shorter than this row's, nor one before this row so that it is as long. What passes with a length
/// passes with more.
fn held_at_edges(rows: &[Row], planned: &[u32]) -> bool {
    let placed: Vec<Placed> = planned.chunks(PLANNED_WIDTH).map(|p| Placed { rank: p[0], length: p[1] }).collect();
    (0..rows.len()).all(|y| {
        let Placed { rank, length } = placed[y];
        let below = (0..rows.len()).filter(|&j| placed[j].rank > rank).map(|j| rows[j].longer(placed[j].length) - 1);
        let blocking = below.max().unwrap_or(0);
        let response = |z: usize, length: u64| {
            let above = (0..rows.len()).filter(|&j| j != z && placed[j].rank <= rank).map(|j| rows[j]).collect();
            Level::new(rows[z], above, blocking).response(length)
        };
        let taken = response(y, length.into());
        let beaten = (0..rows.len()).filter(|&z| placed[z].rank <= rank).all(|z| {
            let wins = rows[y].longer(length) - u64::from(z > y);
            let must_fail = if z == y {
                u64::from(length) - 1
            } else if rows[z].region > wins {
                0
            } else {
                wins.min(rows[z].cap())
            };
            must_fail == 0 || response(z, must_fail) > rows[z].d
        });
        taken == u64::from(planned[PLANNED_WIDTH * y + 2]) && taken <= rows[y].d && beaten
    })
}

/// A plan that is given is held at its edges; where 5 is refused, no plan is known to pass.
fn plan(judge: &mut Judge, table: &[u32], known: &[u32]) {
    let rows = Row::of_table(table);
    let some_plan_passes = judge.verdict(table, known) == Some(true);
    let right = match (judge.plan_alone(table), busy_period(&rows)) {
        (Ok(planned), Some(_)) => {
            judge.counts.add("large: plans held at their edges");
            if planned.chunks(PLANNED_WIDTH).any(|p| p[1] > 1) {
                judge.counts.add("large: planned with a length above 1");
            }
            if planned.chunks(PLANNED_WIDTH).zip(&rows).any(|(p, row)| p[0] > 1 && row.region > p[1].into()) {
                judge.counts.add("large: planned with a middle region blocking");
            }
            held_at_edges(&rows, &planned)
        }
        (Err(refusal), Some(_)) => refusal == Refusal { number: 5, place: 0 } && !some_plan_passes,
        (answer, None) => answer == Err(Refusal { number: 4, place: 0 }),
    };
    if some_plan_passes {
        judge.counts.add("large: some plan is known to pass");
    }
    if !right {
        judge.fault(|| {
            format!("the plan of {table:?} is not the one chosen, {known:?} passing or not: {some_plan_passes}")
        });
    }
}

pub fn plans(judge: &mut Judge, random: &mut Random, cases: usize) {
    for _ in 0..cases {
        let rows = random.pick(&[2, 3, 5, 8, 16, MOST_ROWS]);
        let least = random.pick(&[20_000, 100_000, 500_000]);
        let percent = random.from_to(40, 95);
        let table = wide_table(random, rows, least, percent);
        let (tight, known) = make::tight(random, &table);
        let table = if random.once_in(2) { table } else { tight };
        plan(judge, &table, &known);
        judge.times(&table, &known, rows);
    }
}

/// Tables so overloaded that a sum of their work leaves 32 bits at once, and 64 bits if it went on.
pub fn overloads(judge: &mut Judge, random: &mut Random, cases: usize) {
    for _ in 0..cases {
        let rows = 1 + random.below(MOST_ROWS);
        let least = random.pick(&[10_000, 100_000]);
        let row = |_| {
            let (c, d, t) = (random.from_to(1, M), random.from_to(1, M), random.from_to(least, M));
            make::row(random, c, d, t)
        };
        let table: Vec<u32> = (0..rows).flat_map(row).collect();
        let known = make::plan(random, &table);
        plan(judge, &table, &known);
        if judge.times(&table, &known, rows).is_none() {
            judge.counts.add("large: overloaded tables");
        }
    }
}

/// A row times `factor`, its middle region ending there too and beginning less than `factor` later.
fn scaled_row(random: &mut Random, row: &[u32], factor: u32) -> [u32; ROW_WIDTH] {
    let [c, d, t, start, end] = [row[0], row[1], row[2], row[3], row[3] + row[4]].map(|v| v * factor);
    let later = if end > 0 { random.below(factor as usize) as u32 } else { 0 };
    [c, d, t, start + later, end - (start + later)]
}

/// Every number of a run times `factor`. Decisions fall on multiples of it, and there a job is in
/// its final region of length q exactly if the larger job is in one of any length from
/// factor·(q−1) + 1 to factor·q, and in its middle region exactly if the larger job is in that. So
/// every decision is the same, and every finish is `factor` times as late.
pub fn scaled_run(judge: &mut Judge, random: &mut Random, table: &[u32], jobs: &[u32], factor: u32) {
    let plan = make::plan(random, table);
    let small = second::play(table, &plan, jobs, jobs_of(jobs));
    let large_table: Vec<u32> = table.chunks(ROW_WIDTH).flat_map(|row| scaled_row(random, row, factor)).collect();
    let regions = |p: &[u32]| [p[0], p[1] * factor - random.below(factor as usize) as u32];
    let large_plan: Vec<u32> = plan.chunks(PLAN_WIDTH).flat_map(regions).collect();
    let large_jobs: Vec<u32> = jobs.chunks(JOB_WIDTH).flat_map(|j| [j[0], j[1] * factor, j[2] * factor]).collect();
    let expected = small.map(|finishes| finishes.iter().map(|v| v * factor).collect());
    judge.counts.add("large: runs scaled up");
    if jobs_of(jobs) == MOST_JOBS {
        judge.counts.add("large: runs of 4,096 jobs");
    }
    judge.play_expecting(&large_table, &large_plan, &large_jobs, jobs_of(jobs), expected);
}

pub fn runs(judge: &mut Judge, random: &mut Random, cases: usize) {
    for _ in 0..cases {
        let table = make::table(random);
        let most = M / u64::from(*table.iter().max().unwrap_or(&1));
        let factor = random.pick(&[1, 2, 7, 100, most]).min(most);
        let jobs = make::jobs(random, &table, MOST_JOBS, (M / factor).min(3_000));
        scaled_run(judge, random, &table, &jobs, factor as u32);
    }
}

/// 4,096 jobs that all run 1,000,000 ticks, the longest run there is; and a flood of them all at
/// tick 0 or soon after.
pub fn longest_run(judge: &mut Judge, random: &mut Random) {
    let table = [1_000, 7, 7, 300, 400].repeat(MOST_ROWS);
    let jobs: Vec<u32> = (0..JOBS).flat_map(|job| [job % ROWS, job / ROWS * 7, 1_000]).collect();
    scaled_run(judge, random, &table, &jobs, 1_000);
    let flood = [3, 9, 1, 0, 2].repeat(MOST_ROWS);
    let jobs: Vec<u32> = (0..JOBS).flat_map(|job| [job % ROWS, job / ROWS, 1 + job % 3]).collect();
    scaled_run(judge, random, &flood, &jobs, 1);
}
