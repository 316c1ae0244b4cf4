//! Counts what is notable about a sheet, a table, a plan or a run: the cases that a shortcut would get wrong.

use std::cmp::Ordering;

use crate::causes::times_of_sheet;
use crate::counts::Counts;
use common::widths::{jobs_of, plain, PLANNED_WIDTH, ROW_WIDTH};
use second::{busy_period, checked_table, Job, Level, Placed, Row};

/// Whether the sum of C/T is 1, over the product of the spacings; larger products are left out.
fn exactly_full(rows: &[Row]) -> bool {
    let product = rows.iter().try_fold(1u128, |product, row| product.checked_mul(row.t.into()));
    product.is_some_and(|all| rows.iter().map(|row| all / u128::from(row.t) * u128::from(row.c)).sum::<u128>() == all)
}

/// Of a well-formed sheet.
pub fn of_sheet(counts: &mut Counts, text: &[u8]) {
    let (tick, times) = times_of_sheet(text);
    let mut has = |name: &str, of_line: &dyn Fn(&[u64; ROW_WIDTH]) -> bool| {
        if times.iter().any(of_line) {
            counts.add(format!("sheet: {name}"));
        }
    };
    has("a run between two ticks", &|[c, ..]| c % tick > 0);
    has("a deadline between two ticks", &|[_, d, ..]| d % tick > 0);
    has("a spacing between two ticks", &|[_, _, t, ..]| t % tick > 0);
    has("a region's start between two ticks", &|[.., start, _]| start % tick > 0);
    has("a region's end between two ticks", &|[.., start, length]| (start + length) % tick > 0);
    has("a region that touches a tick more than its length fills", &|[.., start, length]| {
        (start + length).div_ceil(tick) - start / tick > length.div_ceil(tick)
    });
    has("a start of 0", &|[.., start, length]| *start == 0 && *length > 0);
    has("a line without a region", &|[.., length]| *length == 0);
}

pub fn of_table(counts: &mut Counts, table: &[u32]) {
    let Ok(rows) = checked_table(table) else { return };
    let mut has = |name: &str, of_row: &dyn Fn(&Row) -> bool| {
        if rows.iter().any(of_row) {
            counts.add(format!("table: {name}"));
        }
    };
    has("D above T", &|row| row.d > row.t);
    has("C equal to T", &|row| row.c == row.t);
    has("a row without a middle region", &|row| row.region == 0);
    has("a middle region from the first tick on", &|row| row.region > 0 && row.start == 0);
    has("a middle region that ends a tick before C", &|row| row.region > 0 && row.cap() == 1);
    has("a middle region of one tick", &|row| row.region == 1);
    has("a middle region longer than what it leaves", &|row| row.region > row.cap());
    has("a middle region with ticks on both sides", &|row| row.region > 0 && row.start > 0 && row.cap() > 1);
    if exactly_full(&rows) && busy_period(&rows).is_some() {
        counts.add("table: utilisation exactly 1, with a busy period");
    }
}

pub fn of_plan(counts: &mut Counts, table: &[u32], plan: &[u32]) {
    let (rows, placed) = (Row::of_table(table), Placed::of_plan(plan));
    for (row, p) in rows.iter().zip(&placed).filter(|(row, _)| row.region > 0) {
        counts.add(match row.region.cmp(&p.length.into()) {
            Ordering::Less => "row: a final region longer than its middle one",
            Ordering::Equal => "row: two regions of one length",
            Ordering::Greater => "row: a middle region longer than its final one",
        });
    }
    let levels = (0..rows.len()).map(|i| Level::of(&rows, &placed, i).spans(placed[i].length.into()));
    for spans in levels {
        if spans.len() > 1 {
            counts.add("row: more than one job in the active period");
        }
        if spans.iter().max() > spans.first() {
            counts.add("row: a response that is not the first job's");
        }
    }
}

pub fn of_planned(counts: &mut Counts, table: &[u32], planned: &[u32]) {
    if planned.chunks(PLANNED_WIDTH).any(|p| p[1] > 1) {
        counts.add("planned: a length above 1");
    }
    let below_its_middle = |(p, row): (&[u32], Row)| p[1] > 1 && u64::from(p[1]) < row.region;
    if planned.chunks(PLANNED_WIDTH).zip(Row::of_table(table)).any(below_its_middle) {
        counts.add("planned: a length above 1 beside a longer middle region");
    }
    let by_rank = |p: &[u32]| p[0];
    if !planned.chunks(PLANNED_WIDTH).map(by_rank).is_sorted() {
        counts.add("planned: ranks not in table order");
    }
}

/// Of a run that was played: what the middle regions change in it, and where its jobs end.
pub fn of_run(counts: &mut Counts, table: &[u32], plan: &[u32], jobs: &[u32], finished: &[u32]) {
    let without = plain(&table.chunks(ROW_WIDTH).map(|row| (row[0], row[1], row[2])).collect::<Vec<_>>());
    if second::play(&without, plan, jobs, jobs_of(jobs)).is_ok_and(|finishes| finishes != finished) {
        counts.add("run: finishes that a middle region changes");
    }
    let rows = Row::of_table(table);
    for job in Job::of_list(jobs) {
        let Row { start, region, .. } = rows[job.row];
        if start < job.run && job.run < start + region {
            counts.add("run: a job that ends within its middle region");
        }
    }
}
