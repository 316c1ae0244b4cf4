//! Small tables with all their ranks and lengths: plan is refused 5 exactly if none passes, and
//! verdict judges each.

use crate::judge::Judge;
use crate::make;
use common::random::Random;
use common::widths::{rows_of, PLANNED_WIDTH};
use second::{all_plans, busy_period, Row};

fn small_table(random: &mut Random) -> Vec<u32> {
    let (rows, longest) = random.pick(&[(1, 6), (2, 5), (3, 3), (4, 2)]);
    let row = |_| {
        let t = random.from_to(2, 16);
        let c = random.from_to(1, longest.min(t));
        let d = random.from_to(c, c + 6);
        make::row(random, c, d, t)
    };
    (0..rows).flat_map(row).collect()
}

pub fn against_all_plans(judge: &mut Judge, random: &mut Random, cases: usize) {
    for _ in 0..cases {
        let table = small_table(random);
        let rows = Row::of_table(&table);
        if busy_period(&rows).is_none() {
            continue;
        }
        let mut some_plan_passes = false;
        for placed in all_plans(&rows) {
            let plan: Vec<u32> = placed.iter().flat_map(|p| [p.rank, p.length]).collect();
            some_plan_passes |= judge.verdict(&table, &plan) == Some(true);
        }
        let given = judge.plan(&table, PLANNED_WIDTH * rows_of(&table)).is_some();
        judge.counts.add(if given { "complete: some plan passes" } else { "complete: no plan passes" });
        if !given && rows.iter().any(|row| row.region > 0) {
            judge.counts.add("complete: no plan passes with middle regions");
        }
        if given != some_plan_passes {
            judge.fault(|| format!("{table:?}: plan given {given}, some plan passes {some_plan_passes}"));
        }
    }
}
