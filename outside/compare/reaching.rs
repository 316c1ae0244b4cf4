//! Demand 3's second half: for each row a job list in which one job takes exactly its response.

use crate::judge::Judge;
use crate::{afford, large, make};
use common::random::Random;
use common::widths::{jobs_of, plain, rows_of, JOB_WIDTH, MOST_JOBS, MOST_ROWS, TIMES_WIDTH};
use second::{job_fault, Level, Placed, Row, MOST};

/// A job list in which a job takes its row's response.
struct Reaching {
    list: Vec<u32>,
    /// That job's place in the list, and how many jobs of its row come before it.
    job: usize,
    earlier: u64,
    blocked: Option<Blocked>,
}

/// By which of its regions the lower row blocks.
enum Blocked {
    Middle,
    Final,
}

/// A job of the lower row with the longest region is alone until it has executed one tick of that
/// region. From then on row i and the rows above it are released as often as their spacings allow:
/// row i up to the job that gives its response, the others up to that job's start. Every job runs
/// for its C. `None` if the list has more jobs or later releases than play takes.
fn reaching(rows: &[Row], placed: &[Placed], i: usize) -> Option<Reaching> {
    let length = u64::from(placed[i].length);
    let spans = Level::of(rows, placed, i).spans(length);
    let response = spans.iter().max()?;
    let earlier = spans.iter().position(|span| span == response)? as u64;
    let start = response + earlier * rows[i].t - length;
    let blocks = |j: usize| rows[j].longer(placed[j].length);
    let below = (0..rows.len()).filter(|&j| placed[j].rank > placed[i].rank && blocks(j) > 1);
    let blocker = below.max_by_key(|&j| blocks(j));
    let (level_from, blocked) = match blocker {
        None => (0, None),
        Some(j) if rows[j].region > placed[j].length.into() => (rows[j].start + 1, Some(Blocked::Middle)),
        Some(j) => (rows[j].c - u64::from(placed[j].length) + 1, Some(Blocked::Final)),
    };
    let mut releases: Vec<(u64, usize)> = blocker.map(|j| (0, j)).into_iter().collect();
    for j in (0..rows.len()).filter(|&j| placed[j].rank <= placed[i].rank) {
        let again = if j == i { earlier } else { start / rows[j].t };
        releases.extend((0..=again).take(MOST_JOBS + 1).map(|k| (level_from + k * rows[j].t, j)));
    }
    releases.sort();
    if releases.len() > MOST_JOBS || releases.last()?.0 > MOST {
        return None;
    }
    let job = releases.iter().rposition(|(_, j)| *j == i)?;
    let list = releases.iter().flat_map(|(release, j)| [*j as u32, *release as u32, rows[*j].c as u32]).collect();
    Some(Reaching { list, job, earlier, blocked })
}

/// Has the library play the list for row i, and holds it to the responses that it gave.
fn row(judge: &mut Judge, table: &[u32], plan: &[u32], responses: &[u32], i: usize) {
    let (rows, placed) = (Row::of_table(table), Placed::of_plan(plan));
    let Some(Reaching { list, job, earlier, blocked }) = reaching(&rows, &placed, i) else {
        return judge.counts.add("reaching: lists that play does not take");
    };
    judge.counts.add(match blocked {
        None => "reaching: blocking 0",
        Some(Blocked::Final) => "reaching: blocking above 0, by a final region",
        Some(Blocked::Middle) => "reaching: blocking above 0, by a middle region",
    });
    if earlier > 0 {
        judge.counts.add("reaching: by a job after the first");
    }
    if jobs_of(&list) > 1_000 {
        judge.counts.add("reaching: lists of more than 1,000 jobs");
    }
    if job_fault(&rows, &list).is_some() {
        judge.fault(|| format!("{table:?} {plan:?}: the list for row {i} is not lawful, {list:?}"));
    }
    let finishes = judge.play_alone(table, plan, &list).unwrap_or_default();
    let took: Vec<u32> =
        list.chunks(JOB_WIDTH).zip(finishes).map(|(job, finish)| finish.wrapping_sub(job[1])).collect();
    let within = list.chunks(JOB_WIDTH).zip(&took).all(|(job, took)| *took <= responses[job[0] as usize]);
    if took.get(job) != Some(&responses[i]) || !within {
        judge.fault(|| format!("{table:?} {plan:?}: responses {responses:?}, in the list for row {i} {took:?}"));
    }
}

fn every_row(judge: &mut Judge, table: &[u32], plan: &[u32]) {
    if let Some(responses) = judge.times(table, plan, TIMES_WIDTH * rows_of(table)) {
        for i in 0..responses.len() {
            row(judge, table, plan, &responses, i);
        }
    }
}

/// Document 01's tables under its plans, and some of request (ii).
pub fn figures(judge: &mut Judge) {
    let three = plain(&[(1, 4, 4), (1, 6, 6), (4, 12, 12)]);
    every_row(judge, &plain(&[(1, 1, 1)]), &[1, 1]);
    every_row(judge, &plain(&[(2, 5, 5), (4, 7, 7)]), &[1, 1, 2, 2]);
    every_row(judge, &plain(&[(2, 5, 5), (4, 6, 7)]), &[1, 1, 2, 3]);
    every_row(judge, &three, &[2, 1, 1, 1, 3, 1]);
    every_row(judge, &three, &[1, 1, 2, 1, 3, 3]);
    every_row(judge, &three, &[1, 1, 2, 1, 3, 4]);
    every_row(judge, &plain(&[(500_000, 1_000_000, 1_000_000); 2]), &[2, 1, 1, 1]);
    every_row(judge, &[2, 5, 8, 0, 0, 3, 5, 4, 0, 2], &[2, 2, 1, 1]);
    every_row(judge, &[3, 4, 4, 0, 2, 1, 2, 4, 0, 0], &[2, 1, 1, 1]);
    every_row(judge, &[3, 4, 5, 0, 1, 1, 2, 3, 0, 0], &[2, 2, 1, 1]);
    every_row(judge, &[2, 5, 5, 0, 0, 4, 7, 7, 0, 2], &[1, 1, 2, 2]);
    every_row(judge, &[5, 20, 20, 1, 3, 1, 9, 9, 0, 0], &[2, 1, 1, 1]);
    every_row(judge, &[5, 20, 20, 1, 2, 1, 9, 9, 0, 0], &[2, 2, 1, 1]);
}

pub fn tables(judge: &mut Judge, random: &mut Random, cases: usize) {
    for _ in 0..cases {
        let table = make::table(random);
        let affordable = afford::of(&table);
        if affordable.responses && !affordable.overloaded {
            every_row(judge, &table, &make::plan(random, &table));
        }
    }
}

/// Rows of equal shares that leave next to nothing of the processor, with spacings of several
/// sizes, so that some responses come late in long active periods.
fn crowded(random: &mut Random) -> Vec<u32> {
    let rows = random.from_to(3, MOST_ROWS as u64);
    let row = |_| {
        let size = random.pick(&[1, 8, 64, 512]);
        let t = random.from_to(20 * rows, 60 * rows) * size;
        make::row(random, t / rows, t, t)
    };
    (0..rows).flat_map(row).collect()
}

pub fn large_tables(judge: &mut Judge, random: &mut Random, cases: usize) {
    for _ in 0..cases {
        let table = if random.once_in(2) {
            let (rows, least) = (1 + random.below(MOST_ROWS), random.pick(&[1_000, 20_000, 100_000]));
            large::wide_table(random, rows, least, 85)
        } else {
            crowded(random)
        };
        if afford::of(&table).responses {
            every_row(judge, &table, &make::plan(random, &table));
        }
    }
}
