//! The figures of document 01, starred and not, and of request (i) of document 02, put to the second
//! planner and to the library. Their rows have no middle region.

use crate::judge::Judge;
use common::widths::{plain, rows_of, MOST_TABLE_NUMBERS, PLANNED_WIDTH, TIMES_WIDTH};
use second::{Answer, Level, Placed, Refusal, Row};

const M: u32 = 1_000_000;

pub fn refused<T>(number: u32, place: u32) -> Answer<T> {
    Err(Refusal { number, place })
}

/// The judge holds the library to the second planner; this holds the second planner to the figures.
pub fn same<T: PartialEq + std::fmt::Debug>(judge: &mut Judge, what: &str, second: T, printed: T) {
    judge.counts.add("figures of documents 01 and 02");
    if second != printed {
        judge.fault(|| format!("{what}: the second planner gives {second:?}, the figure is {printed:?}"));
    }
}

pub fn planned(judge: &mut Judge, table: &[u32], printed: Answer<&[u32]>) {
    let room = PLANNED_WIDTH * rows_of(table);
    judge.plan(table, room);
    same(judge, &format!("plan {table:?}"), second::plan(table, room), printed.map(<[u32]>::to_vec));
}

pub fn timed(judge: &mut Judge, table: &[u32], plan: &[u32], printed: Answer<&[u32]>) {
    let room = TIMES_WIDTH * rows_of(table);
    judge.times(table, plan, room);
    let what = format!("times {table:?} {plan:?}");
    same(judge, &what, second::times(table, plan, room), printed.map(<[u32]>::to_vec));
}

pub fn played(judge: &mut Judge, table: &[u32], plan: &[u32], jobs: &[u32], printed: &[u32]) {
    judge.play(table, plan, jobs, printed.len());
    same(judge, &format!("play {jobs:?}"), second::play(table, plan, jobs, printed.len()), Ok(printed.to_vec()));
}

fn read_into(judge: &mut Judge, room: usize, text: &[u8], printed: Answer<&[u32]>) {
    judge.sheet(text, room);
    let sheet = String::from_utf8_lossy(text);
    same(judge, &format!("sheet {sheet:?}"), second::sheet(text, room), printed.map(<[u32]>::to_vec));
}

pub fn read(judge: &mut Judge, text: &[u8], printed: Answer<&[u32]>) {
    read_into(judge, MOST_TABLE_NUMBERS, text, printed);
}

pub fn read_and_planned(judge: &mut Judge, text: &[u8], table: &[u32], printed: Answer<&[u32]>) {
    read(judge, text, Ok(table));
    planned(judge, table, printed);
}

/// Times that lie between two ticks.
fn rounded(judge: &mut Judge) {
    read(judge, b"tick 7\ntask 7 20 20\n", Ok(&plain(&[(1, 2, 2)])));
    read(judge, b"tick 7\ntask 8 20 27\n", Ok(&plain(&[(2, 2, 3)])));
    read_and_planned(judge, b"tick 7\ntask 20 20 20\n", &plain(&[(3, 2, 2)]), refused(4, 0));
    read(judge, b"tick 7\ntask 7 6 20\n", refused(3, 1));
    read(judge, b"tick 7\ntask 7 20 6\n", refused(3, 2));
    read_into(judge, 2, b"tick 7\ntask 7 6 20\n", refused(3, 1));
    read(judge, b"tick 7\ntask 7 7 7\ntask 7 6 7\ntask 7 7 6\n", refused(3, 6));
    read(judge, b"tick 1000\ntask 1 999 1000\n", refused(3, 1));
    read(judge, b"tick 2\ntask 3 2000001 2000001\n", Ok(&plain(&[(2, M, M)])));
    read(judge, b"tick 7\ntask 7000001 7000000 7000000\n", refused(3, 0));

    let between = |last: &str| format!("tick 10\ntask 20 59 59\ntask {last}\n").into_bytes();
    read_and_planned(judge, &between("40 79 79"), &plain(&[(2, 5, 5), (4, 7, 7)]), Ok(&[1, 1, 3, 2, 2, 7]));
    read_and_planned(judge, &between("40 69 79"), &plain(&[(2, 5, 5), (4, 6, 7)]), Ok(&[1, 1, 4, 2, 3, 6]));
    read_and_planned(judge, &between("40 70 69"), &plain(&[(2, 5, 5), (4, 7, 6)]), refused(4, 0));
}

pub fn all(judge: &mut Judge) {
    let three = plain(&[(1, 4, 4), (1, 6, 6), (4, 12, 12)]);
    planned(judge, &plain(&[(1, 1, 1)]), Ok(&[1, 1, 1]));
    planned(judge, &plain(&[(2, 5, 5), (4, 7, 7)]), Ok(&[1, 1, 3, 2, 2, 7]));
    planned(judge, &plain(&[(2, 5, 5), (4, 6, 7)]), Ok(&[1, 1, 4, 2, 3, 6]));
    planned(judge, &plain(&[(2, 5, 5), (4, 5, 7)]), refused(5, 0));
    planned(judge, &three, Ok(&[2, 1, 2, 1, 1, 1, 3, 1, 8]));
    planned(judge, &plain(&[(2, 3, 3), (2, 3, 3)]), refused(4, 0));
    planned(judge, &plain(&[(5, 4, 9)]), refused(5, 0));
    planned(judge, &plain(&[(500_000, M, M), (500_000, M, M)]), Ok(&[2, 1, M, 1, 1, 500_000]));
    planned(judge, &plain(&[(500_000, M, M), (500_001, M, M)]), refused(4, 0));
    planned(judge, &plain(&[(0, 1, 1)]), refused(3, 0));
    planned(judge, &plain(&[(1, M + 1, 1)]), refused(3, 1));

    let second_table = plain(&[(2, 5, 5), (4, 7, 7)]);
    let its_plan = [1, 1, 2, 2];
    let level = Level::of(&Row::of_table(&second_table), &Placed::of_plan(&its_plan), 1);
    same(judge, "the second row's jobs", level.spans(2), vec![6, 7]);

    timed(judge, &three, &[1, 1, 2, 1, 3, 3], Ok(&[3, 4, 6]));
    timed(judge, &three, &[1, 1, 2, 1, 3, 4], Ok(&[4, 6, 6]));
    timed(judge, &three, &[1, 1, 2, 1, 3, 1], Ok(&[1, 2, 8]));

    played(judge, &second_table, &its_plan, &[1, 0, 4, 0, 3, 2], &[4, 6]);
    played(judge, &second_table, &its_plan, &[1, 0, 4, 0, 2, 2], &[6, 4]);
    played(judge, &second_table, &its_plan, &[1, 0, 3, 0, 3, 2], &[3, 5]);
    played(judge, &second_table, &its_plan, &[], &[]);

    read(judge, b"", refused(9, 0));
    read(judge, b"tick 5\n", refused(9, 7));
    read(judge, b"tick 10\ntask 20 50 50\ntask 40 70 70\n", Ok(&second_table));
    rounded(judge);

    let page = b"plan 2\nrow 0 rank 1 length 1 response 3\nrow 1 rank 2 length 2 response 7\n";
    let of_plan = [1, 1, 3, 2, 2, 7];
    judge.print(&of_plan, page.len());
    same(judge, "the printed plan", second::print(&of_plan, page.len()), Ok(page.to_vec()));
}
