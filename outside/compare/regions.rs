//! The figures of request (ii) of document 02: rows with a middle region, put to the second planner and
//! to the library.

use crate::figures::{planned, played, read, read_and_planned, refused, same, timed};
use crate::judge::Judge;

const M: u32 = 1_000_000;

/// The row with the least longer region takes a rank, with its shortest passing length; equals go to
/// the earliest row.
fn choices(judge: &mut Judge) {
    planned(judge, &[3, 4, 4, 0, 2, 1, 4, 4, 0, 0], Ok(&[1, 1, 3, 2, 1, 4]));
    planned(judge, &[2, 5, 8, 0, 0, 3, 5, 4, 0, 2], Ok(&[2, 2, 5, 1, 1, 4]));
    planned(judge, &[1, 2, 5, 0, 0, 4, 5, 5, 0, 2], Ok(&[1, 1, 2, 2, 1, 5]));
    planned(judge, &[2, 5, 4, 0, 1, 3, 5, 6, 0, 0], Ok(&[1, 1, 4, 2, 3, 5]));
    planned(judge, &[1, 1, 4, 0, 0, 3, 4, 4, 0, 2], refused(5, 0));
    planned(judge, &[2, 5, 5, 0, 0, 4, 7, 7, 0, 2], Ok(&[1, 1, 3, 2, 2, 7]));
    planned(judge, &[2, 5, 5, 0, 0, 4, 7, 7, 0, 3], refused(5, 0));
}

/// Blocking counts the longer of a lower row's two regions, less one, and none of the row's own.
fn blocking(judge: &mut Judge) {
    planned(judge, &[3, 4, 4, 0, 2, 1, 2, 4, 0, 0], Ok(&[2, 1, 4, 1, 1, 2]));
    planned(judge, &[3, 4, 5, 0, 1, 1, 2, 3, 0, 0], Ok(&[2, 2, 4, 1, 1, 2]));
    planned(judge, &[2, 3, 3, 0, 1, 1, 2, 3, 0, 0], Ok(&[2, 1, 3, 1, 1, 1]));
    planned(judge, &[1, 2, 3, 0, 0, 3, 6, 5, 0, 2], Ok(&[1, 1, 2, 2, 1, 5]));

    timed(judge, &[5, 20, 20, 1, 3, 1, 9, 9, 0, 0], &[2, 1, 1, 1], Ok(&[6, 3]));
    let shorter = [5, 20, 20, 1, 2, 1, 9, 9, 0, 0];
    timed(judge, &shorter, &[2, 1, 1, 1], Ok(&[6, 2]));
    timed(judge, &shorter, &[2, 2, 1, 1], Ok(&[6, 2]));
    timed(judge, &shorter, &[2, 3, 1, 1], refused(6, 0));
}

/// A job of row 0 with a release of row 1 before, in, at the end of and behind its middle region.
fn runs(judge: &mut Judge) {
    let (table, plan) = ([5, 20, 20, 1, 3, 1, 9, 9, 0, 0], [2, 1, 1, 1]);
    for (release, finishes) in [(1, [6, 2]), (2, [6, 5]), (3, [6, 5]), (4, [6, 5])] {
        played(judge, &table, &plan, &[0, 0, 5, 1, release, 1], &finishes);
    }
    played(judge, &table, &plan, &[0, 0, 3, 1, 2, 1], &[3, 4]);
    let (table, plan) = ([5, 20, 20, 0, 3, 1, 9, 9, 0, 0], [2, 2, 1, 1]);
    for (release, finishes) in [(3, [6, 4]), (4, [5, 6])] {
        played(judge, &table, &plan, &[0, 0, 5, 1, release, 1], &finishes);
    }
}

fn sheets(judge: &mut Judge) {
    let line = |end: &str| format!("tick 10\ntask 60 200 200{end}\n").into_bytes();
    read(judge, &line(""), Ok(&[6, 20, 20, 0, 0]));
    read(judge, &line(" 5 12"), Ok(&[6, 20, 20, 0, 2]));
    read(judge, &line(" 19 2"), Ok(&[6, 20, 20, 1, 2]));
    read(judge, &line(" 9 2"), Ok(&[6, 20, 20, 0, 2]));
    read(judge, &line(" 10 10"), Ok(&[6, 20, 20, 1, 1]));
    read(judge, &line(" 30 20"), Ok(&[6, 20, 20, 3, 2]));
    read(judge, &line(" 30 21"), refused(3, 4));
    read(judge, &line(" 0 1"), Ok(&[6, 20, 20, 0, 1]));
    read(judge, b"tick 10\ntask 50 200 200 30 20\n", refused(3, 4));

    read(judge, &line(" 0 0"), refused(9, 26));
    read(judge, &line(" 00 1"), refused(9, 25));
    read(judge, &line(" 0"), refused(9, 25));
    read(judge, &line(" "), refused(9, 24));
    read(judge, &line(" 0 1 1"), refused(9, 27));
    read(judge, &line(" 1000000001 1"), refused(9, 33));
}

/// The two sheets of two tasks, with a region and without, down to the printed plan.
fn printed(judge: &mut Judge) {
    let sheet = |region: &str| format!("tick 10\ntask 30 40 40{region}\ntask 10 40 40\n").into_bytes();
    let with = [1, 1, 3, 2, 1, 4];
    let without = [2, 1, 4, 1, 1, 1];
    read_and_planned(judge, &sheet(" 0 20"), &[3, 4, 4, 0, 2, 1, 4, 4, 0, 0], Ok(&with));
    read_and_planned(judge, &sheet(""), &[3, 4, 4, 0, 0, 1, 4, 4, 0, 0], Ok(&without));
    let pages = [
        (with, "plan 2\nrow 0 rank 1 length 1 response 3\nrow 1 rank 2 length 1 response 4\n"),
        (without, "plan 2\nrow 0 rank 2 length 1 response 4\nrow 1 rank 1 length 1 response 1\n"),
    ];
    for (planned, page) in pages {
        judge.print(&planned, page.len());
        same(judge, "the printed plan", second::print(&planned, page.len()), Ok(page.into()));
    }
}

fn refusals(judge: &mut Judge) {
    planned(judge, &[3, 9, 9, 0, 3], refused(3, 4));
    planned(judge, &[3, 9, 9, 1, 0], refused(3, 3));
    planned(judge, &[3, 9, 0, 1, 0], refused(3, 2));
    planned(judge, &[3, 9, 9, 0, 3, 0, 9, 9, 0, 0], refused(3, 4));
    planned(judge, &[3, 9, 9, 0, 2, 0, 9, 9, 0, 0], refused(3, 5));
    planned(judge, &[3, 9, 9, u32::MAX, u32::MAX], refused(3, 3));
    planned(judge, &[1, 9, 9, 0, 1], refused(3, 4));
    planned(judge, &[M, M, M, M - 2, 1], Ok(&[1, 1, M]));
    planned(judge, &[M, M, M, M - 1, 1], refused(3, 4));
    planned(judge, &[1, 4, 4, 1, 6, 6], refused(1, 0));
    planned(judge, &[1, 4, 4, 1, 6, 6, 4, 12, 12], refused(1, 0));
}

pub fn figures(judge: &mut Judge) {
    choices(judge);
    blocking(judge);
    runs(judge);
    sheets(judge);
    printed(judge);
    refusals(judge);
}
