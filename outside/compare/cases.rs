//! Random cases of every operation, sound and damaged, on outputs short, exact and long.

use crate::judge::Judge;
use crate::{afford, damage, make, traits};
use common::random::Random;
use common::widths::{jobs_of, rows_of, MOST_PLANNED_NUMBERS, PLANNED_WIDTH, ROW_WIDTH, TIMES_WIDTH};

/// One short, exact, longer, or none.
fn room(random: &mut Random, need: usize) -> usize {
    match random.below(6) {
        0 => need.saturating_sub(1),
        1 => random.below(need + 1),
        2 => need + random.below(8),
        _ => need,
    }
}

/// How often to damage one input: mostly not at all, at times more than once.
fn times_damaged(random: &mut Random) -> usize {
    random.pick(&[0, 0, 0, 0, 1, 1, 2])
}

pub fn tables_and_plans(judge: &mut Judge, random: &mut Random, cases: usize) {
    for _ in 0..cases {
        let mut table = make::table(random);
        let affordable = afford::of(&table);
        if !affordable.responses || (affordable.overloaded && !random.once_in(4)) {
            continue;
        }
        if random.once_in(2) {
            table = make::tight(random, &table).0;
        }
        let mut plan = make::plan(random, &table);
        let whole = table.clone();
        for _ in 0..times_damaged(random) {
            damage::table(random, &mut table);
        }
        let rows = rows_of(&table);
        if affordable.plan {
            let space = room(random, PLANNED_WIDTH * rows);
            let planned = judge.plan(&table, space);
            traits::of_table(&mut judge.counts, &table);
            if let Some(planned) = planned {
                traits::of_planned(&mut judge.counts, &table, &planned);
                plan = planned.chunks(PLANNED_WIDTH).flat_map(|p| [p[0], p[1]]).collect();
                traits::of_plan(&mut judge.counts, &table, &plan);
                if judge.times(&table, &plan, rows) != Some(planned.chunks(PLANNED_WIDTH).map(|p| p[2]).collect()) {
                    judge.fault(|| format!("times of the plan of {table:?} are not the plan's responses"));
                }
                if judge.verdict(&table, &plan) != Some(true) {
                    judge.fault(|| format!("the plan of {table:?} does not pass"));
                }
            }
        }
        if random.once_in(3) {
            plan = make::plan(random, &whole);
        }
        for _ in 0..times_damaged(random) {
            damage::plan(random, &mut plan, &table);
        }
        let space = room(random, TIMES_WIDTH * rows);
        if judge.times(&table, &plan, space).is_some() {
            traits::of_plan(&mut judge.counts, &table, &plan);
        }
        judge.verdict(&table, &plan);
    }
}

pub fn runs(judge: &mut Judge, random: &mut Random, cases: usize) {
    for _ in 0..cases {
        let mut table = make::table(random);
        let mut plan = make::plan(random, &table);
        let longest = u64::from(table.chunks(ROW_WIDTH).map(|row| row[2]).max().unwrap_or(1));
        let (most, last_release) = (random.pick(&[1, 3, 8, 30, 90]), random.pick(&[0, longest, 4 * longest]));
        let mut jobs = make::jobs(random, &table, most, last_release.min(1_000_000));
        for _ in 0..times_damaged(random) {
            damage::jobs(random, &mut jobs, &table);
        }
        if random.once_in(5) {
            damage::plan(random, &mut plan, &table);
        }
        if random.once_in(8) {
            damage::table(random, &mut table);
        }
        let space = room(random, jobs_of(&jobs));
        if let Some(finishes) = judge.play(&table, &plan, &jobs, space) {
            traits::of_run(&mut judge.counts, &table, &plan, &jobs, &finishes);
        }
    }
}

pub fn sheets(judge: &mut Judge, random: &mut Random, cases: usize) {
    for _ in 0..cases {
        let mut text = make::sheet(random);
        for _ in 0..times_damaged(random) {
            damage::sheet(random, &mut text);
        }
        let rows = text.iter().filter(|byte| **byte == b'\n').count().saturating_sub(1);
        let space = room(random, ROW_WIDTH * rows);
        judge.sheet(&text, space);
    }
}

/// Each byte of a sheet replaced by each of the 256, each place cut, each byte left out.
pub fn every_byte_of_a_sheet(judge: &mut Judge) {
    let sheet = *b"tick 10\ntask 20 50 50\ntask 40 70 70 0 15\n";
    let room = 2 * ROW_WIDTH;
    for at in 0..=sheet.len() {
        judge.sheet(&sheet[..at], room);
        for byte in 0..=255 {
            let (front, back) = sheet.split_at(at);
            judge.sheet(&[front, &[byte], back].concat(), room);
            if !back.is_empty() {
                judge.sheet(&[front, &[byte], &back[1..]].concat(), room);
            }
        }
        if at < sheet.len() {
            judge.sheet(&[&sheet[..at], &sheet[at + 1..]].concat(), room);
        }
    }
}

pub fn pages(judge: &mut Judge, random: &mut Random, cases: usize) {
    for _ in 0..cases {
        let mut planned = make::planned(random);
        if random.once_in(4) {
            match random.below(4) {
                0 => planned.clear(),
                1 => planned.push(7),
                2 => planned.resize(MOST_PLANNED_NUMBERS + PLANNED_WIDTH, 7),
                _ => {
                    planned.pop();
                }
            }
        }
        let need = second::print(&planned, usize::MAX).map_or(40, |text| text.len());
        let space = room(random, need);
        judge.print(&planned, space);
        judge.fit(&planned, space as u64);
        judge.fit(&planned, random.pick(&[0, u64::MAX, need as u64, need as u64 - 1]));
    }
}
