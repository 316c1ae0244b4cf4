//! Demand 3 on small tables: over all runs in a window no job takes longer than its response, and
//! some job takes exactly that.

use crate::judge::Judge;
use crate::make;
use common::random::Random;
use common::widths::TIMES_WIDTH;
use second::{busy_period, finishes, Job, Placed, Row};

const MOST_RUNS: u64 = 20_000;

/// Long enough for a lower row to reach its final region, the later of its two, and for a whole busy
/// period after it.
fn window(rows: &[Row], placed: &[Placed]) -> Option<u64> {
    let region = rows.iter().zip(placed).map(|(row, p)| row.c - u64::from(p.length) + 1).max()?;
    Some(region + busy_period(rows)?)
}

/// How many lists of jobs of one row there are with releases before `end`.
fn lists(row: &Row, end: u64) -> u64 {
    let mut counts: Vec<u64> = vec![1];
    for tick in 1..=end {
        let with_a_job = row.c * tick.checked_sub(row.t).map_or(1, |at| counts[at as usize]);
        counts.push(counts[tick as usize - 1] + with_a_job);
    }
    counts[end as usize]
}

/// All runs with releases before `end`, built tick by tick and row by row.
struct Runs<'a> {
    rows: &'a [Row],
    end: u64,
    jobs: Vec<Job>,
}

impl Runs<'_> {
    fn each(&mut self, tick: u64, row: usize, visit: &mut impl FnMut(&[Job])) {
        if tick == self.end {
            return visit(&self.jobs);
        }
        let (next_tick, next_row) = if row + 1 == self.rows.len() { (tick + 1, 0) } else { (tick, row + 1) };
        self.each(next_tick, next_row, visit);
        let last = self.jobs.iter().rev().find(|job| job.row == row);
        if last.is_none_or(|job| job.release + self.rows[row].t <= tick) {
            for run in 1..=self.rows[row].c {
                self.jobs.push(Job { row, release: tick, run });
                self.each(next_tick, next_row, visit);
                self.jobs.pop();
            }
        }
    }
}

fn small_table(random: &mut Random) -> Vec<u32> {
    let rows = random.pick(&[1, 2, 2, 2, 3]);
    let row = |_| {
        let c = random.from_to(1, if rows == 3 { 2 } else { 4 });
        let (d, t) = (random.from_to(1, 9), random.from_to(c, 12));
        make::row(random, c, d, t)
    };
    (0..rows).flat_map(row).collect()
}

pub fn of_small_tables(judge: &mut Judge, random: &mut Random, cases: usize) {
    for _ in 0..cases {
        let table = small_table(random);
        let plan = make::plan(random, &table);
        let (rows, placed) = (Row::of_table(&table), Placed::of_plan(&plan));
        let Some(end) = window(&rows, &placed) else { continue };
        let runs = rows.iter().try_fold(1u64, |all, row| all.checked_mul(lists(row, end)));
        if runs.is_none_or(|runs| runs > MOST_RUNS) {
            continue;
        }
        let Some(responses) = judge.times(&table, &plan, TIMES_WIDTH * rows.len()) else { continue };
        let mut longest = vec![0; rows.len()];
        let mut seen = 0u64;
        let mut sample: Vec<Vec<Job>> = vec![];
        Runs { rows: &rows, end, jobs: vec![] }.each(0, 0, &mut |jobs| {
            seen += 1;
            for (job, finish) in jobs.iter().zip(finishes(&rows, &placed, jobs)) {
                longest[job.row] = longest[job.row].max((finish - job.release) as u32);
            }
            if seen % 101 == 0 {
                sample.push(jobs.to_vec());
            }
        });
        if Some(seen) != runs || longest != responses {
            judge.fault(|| format!("{table:?} {plan:?}: longest of {seen} runs {longest:?}, responses {responses:?}"));
        }
        judge.counts.add("tables with every run in a window");
        if rows.iter().zip(&placed).any(|(row, p)| p.rank > 1 && row.region > p.length.into()) {
            judge.counts.add("tables with every run in a window, a middle region blocking");
        }
        for jobs in sample {
            let list: Vec<u32> = jobs.iter().flat_map(|j| [j.row as u32, j.release as u32, j.run as u32]).collect();
            judge.play(&table, &plan, &list, jobs.len());
        }
    }
}
