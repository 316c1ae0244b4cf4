//! Compares the library with the second planner through the C surface, on fixed seeds, and counts
//! what came up.

mod afford;
mod cases;
mod causes;
mod complete;
mod counts;
mod damage;
mod edges;
mod every_run;
mod figures;
mod judge;
mod large;
mod make;
mod reaching;
mod regions;
mod traits;

use common::bridge::{Bridge, Operation};
use common::random::Random;
use counts::Counts;
use judge::{cause_of, Judge};

/// The refusals that each operation can give.
const REFUSALS: [(Operation, &[u32]); 7] = [
    (Operation::Plan, &[1, 3, 2, 4, 5]),
    (Operation::Times, &[1, 3, 6, 2, 4]),
    (Operation::Verdict, &[1, 3, 6, 4]),
    (Operation::Play, &[1, 3, 6, 7, 8, 2]),
    (Operation::Sheet, &[9, 3, 2]),
    (Operation::Print, &[1, 2]),
    (Operation::Fit, &[1, 2]),
];

/// The refusals that have several causes.
const CAUSES: [(Operation, u32, &[&str]); 10] = [
    (Operation::Plan, 3, &causes::OF_TABLES),
    (Operation::Times, 3, &causes::OF_TABLES),
    (Operation::Verdict, 3, &causes::OF_TABLES),
    (Operation::Play, 3, &causes::OF_TABLES),
    (Operation::Times, 6, &causes::OF_PLANS),
    (Operation::Verdict, 6, &causes::OF_PLANS),
    (Operation::Play, 6, &causes::OF_PLANS),
    (Operation::Play, 8, &causes::OF_JOBS),
    (Operation::Sheet, 9, &causes::OF_SHEETS),
    (Operation::Sheet, 3, &causes::OF_TICKS),
];

const NOTABLE: [&str; 46] = [
    "Verdict yes",
    "Verdict no",
    "sheet: a run between two ticks",
    "sheet: a deadline between two ticks",
    "sheet: a spacing between two ticks",
    "sheet: a region's start between two ticks",
    "sheet: a region's end between two ticks",
    "sheet: a region that touches a tick more than its length fills",
    "sheet: a start of 0",
    "sheet: a line without a region",
    "table: D above T",
    "table: C equal to T",
    "table: a row without a middle region",
    "table: a middle region from the first tick on",
    "table: a middle region that ends a tick before C",
    "table: a middle region of one tick",
    "table: a middle region longer than what it leaves",
    "table: a middle region with ticks on both sides",
    "table: utilisation exactly 1, with a busy period",
    "table: a busy period of exactly the horizon",
    "table: a busy period one tick beyond the horizon",
    "row: more than one job in the active period",
    "row: a response that is not the first job's",
    "row: a final region longer than its middle one",
    "row: two regions of one length",
    "row: a middle region longer than its final one",
    "planned: a length above 1",
    "planned: a length above 1 beside a longer middle region",
    "planned: ranks not in table order",
    "complete: some plan passes",
    "complete: no plan passes",
    "complete: no plan passes with middle regions",
    "run: finishes that a middle region changes",
    "run: a job that ends within its middle region",
    "tables with every run in a window",
    "tables with every run in a window, a middle region blocking",
    "large: planned with a length above 1",
    "large: planned with a middle region blocking",
    "large: overloaded tables",
    "large: some plan is known to pass",
    "large: runs of 4,096 jobs",
    "reaching: blocking 0",
    "reaching: blocking above 0, by a final region",
    "reaching: blocking above 0, by a middle region",
    "reaching: by a job after the first",
    "reaching: lists of more than 1,000 jobs",
];

fn asked_for() -> impl Iterator<Item = String> {
    let refusals = REFUSALS.into_iter().flat_map(|(operation, numbers)| {
        let refused = numbers.iter().map(move |number| format!("{operation:?} refused {number}"));
        refused.chain([format!("{operation:?} given")])
    });
    let causes = CAUSES
        .into_iter()
        .flat_map(|(operation, number, causes)| causes.iter().map(move |cause| cause_of(operation, number, cause)));
    refusals.chain(causes).chain(NOTABLE.into_iter().map(String::from))
}

fn main() -> std::io::Result<()> {
    let words: Vec<String> = std::env::args().skip(1).collect();
    let mut judge = Judge::new(Bridge::start(&words)?, Counts::asking_for(asked_for()));
    let mut random = Random(1);
    let mut timed = |name: &str, part: &mut dyn FnMut(&mut Judge)| {
        let began = std::time::Instant::now();
        let before = judge.calls;
        part(&mut judge);
        println!("{:>9} calls in {:>6.1} s  {name}", judge.calls - before, began.elapsed().as_secs_f64());
    };
    timed("figures of document 01 and of request (i)", &mut figures::all);
    timed("figures of request (ii)", &mut regions::figures);
    timed("edges", &mut edges::all);
    timed("every byte of a sheet", &mut cases::every_byte_of_a_sheet);
    timed("tables and plans", &mut |judge| cases::tables_and_plans(judge, &mut random, 16_000));
    timed("runs", &mut |judge| cases::runs(judge, &mut random, 8_000));
    timed("sheets", &mut |judge| cases::sheets(judge, &mut random, 12_000));
    timed("printed plans", &mut |judge| cases::pages(judge, &mut random, 3_000));
    timed("all ranks and lengths of small tables", &mut |judge| complete::against_all_plans(judge, &mut random, 800));
    timed("every run of small tables", &mut |judge| every_run::of_small_tables(judge, &mut random, 2_000));
    timed("large plans", &mut |judge| large::plans(judge, &mut random, 3_000));
    timed("large overloads", &mut |judge| large::overloads(judge, &mut random, 500));
    timed("large runs", &mut |judge| large::runs(judge, &mut random, 1_000));
    timed("the longest run", &mut |judge| large::longest_run(judge, &mut random));
    timed("reaching lists of the figures' tables", &mut reaching::figures);
    timed("reaching lists", &mut |judge| reaching::tables(judge, &mut random, 3_000));
    timed("reaching lists of large tables", &mut |judge| reaching::large_tables(judge, &mut random, 1_500));
    judge.counts.print();
    let missing = judge.counts.missing();
    for kind in &missing {
        println!("NEVER CAME UP: {kind}");
    }
    println!("compare: {} calls, {} faults, {} kinds of case missing", judge.calls, judge.faults, missing.len());
    std::process::exit(i32::from(judge.faults > 0 || !missing.is_empty()));
}
