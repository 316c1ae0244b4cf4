//! The measurements as markdown: ratios by family, and how the cost grows with rows, utilisation
//! and jobs.

use std::io;

use crate::families;
use crate::measure::{measure, Times, Versions};
use common::widths::{MOST_JOBS, MOST_ROWS};

const ROWS: [usize; 4] = [4, 8, 16, MOST_ROWS];
const UTILISATIONS: [f64; 4] = [0.5, 0.7, 0.9, 0.98];
const MOST: u32 = MOST_JOBS as u32;
const JOBS: [u32; 5] = [MOST / 16, MOST / 8, MOST / 4, MOST / 2, MOST];

pub fn heading() {
    println!("Processor time on x86-64.\n");
}

fn microseconds(nanoseconds: f64) -> String {
    if nanoseconds < 100_000.0 {
        format!("{:.2}", nanoseconds / 1_000.0)
    } else {
        format!("{:.0}", nanoseconds / 1_000.0)
    }
}

fn line(name: &str, times: &Times) {
    let literal = times.literal.map_or("-".into(), |literal| format!("{:.1}", literal / times.library));
    let (library, peer) = (microseconds(times.library), microseconds(times.peer));
    let [ratio, marks] = [times.library, times.by_marks].map(|time| time / times.peer);
    println!("| {name} | {library} | {peer} | {ratio:.2} | {marks:.2} | {literal} |");
}

fn table_head() {
    println!("| Family | library, µs | peer, µs | library / peer | by marks / peer | literal / library |");
    println!("|---|---|---|---|---|---|");
}

/// Plans of realistic tables, without middle regions or with them, and then how their cost grows.
pub fn realistic_plans(versions: &mut Versions, regions: bool) -> io::Result<()> {
    let kind = if regions { "UUniFast tables with middle regions" } else { "UUniFast tables" };
    table_head();
    let mut grown = String::new();
    for utilisation in UTILISATIONS {
        grown += &format!("| {utilisation} |");
        for rows in ROWS {
            let calls = families::realistic(rows, utilisation, regions);
            let times = measure(versions, &calls, true)?;
            let name = format!("plan: 20 {kind} ({} planned), {rows} rows, utilisation {utilisation}", times.given);
            line(&name, &times);
            grown += &format!(" {} |", microseconds(times.library / calls.len() as f64));
        }
        grown += "\n";
    }
    let columns = ROWS.map(|rows| format!(" {rows} rows |")).concat();
    println!(
        "\nPlan of {kind}, µs a table, the library:\n\n| utilisation |{columns}\n|---|{}\n{grown}",
        "---|".repeat(ROWS.len())
    );
    Ok(())
}

pub fn hard_cases(versions: &mut Versions) -> io::Result<()> {
    table_head();
    let runs = [
        ("play: 4,096 jobs, spaced", families::spaced(MOST)),
        ("play: 4,096 jobs, preempting each other", families::preempted(MOST)),
        ("play: 4,096 jobs, held in middle regions", families::held(MOST)),
        ("play: 4,096 jobs, a flood pending at once", families::flood(MOST)),
    ];
    let plans = families::hard().into_iter().chain(families::hard_with_regions());
    for (name, call) in plans.chain(families::long_active_periods()).chain(runs) {
        line(name, &measure(versions, &[call], true)?);
    }
    line("play: 4,096 jobs of 1,000,000 ticks", &measure(versions, &[families::longest_run()], false)?);
    for (name, call) in families::texts() {
        line(name, &measure(versions, &[call], false)?);
    }
    println!("\n`-`: the literal search was given up after 3,000,000 evaluations, or was not tried.\n");
    Ok(())
}

pub fn growth_of_play(versions: &mut Versions) -> io::Result<()> {
    println!("Play, µs a run, the library:\n\n| jobs | spaced | preempting | held | flood |\n|---|---|---|---|---|");
    for jobs in JOBS {
        print!("| {jobs} |");
        let runs = [families::spaced(jobs), families::preempted(jobs), families::held(jobs), families::flood(jobs)];
        for call in runs {
            print!(" {} |", microseconds(measure(versions, &[call], false)?.library));
        }
        println!();
    }
    Ok(())
}
