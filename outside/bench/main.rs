//! Measures the library beside the two hand-written versions and the literal search, in one run, as
//! tables in markdown.
//!
//! bench 'RUN WORDS' FOLDER: FOLDER has each version's bridges.

mod families;
mod measure;
mod report;

use measure::Versions;

fn main() -> std::io::Result<()> {
    let words: Vec<String> = std::env::args().skip(1).collect();
    let [run, folder] = &words[..] else { return Err(std::io::Error::other("bench 'RUN WORDS' FOLDER")) };
    let mut versions = Versions::start(run, folder)?;
    report::heading();
    report::realistic_plans(&mut versions, false)?;
    report::realistic_plans(&mut versions, true)?;
    report::hard_cases(&mut versions)?;
    report::growth_of_play(&mut versions)
}
