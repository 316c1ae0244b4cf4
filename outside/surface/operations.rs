//! The seven operations under their C names: checks in document 01's order, then the answer.

use core::slice::{from_raw_parts, from_raw_parts_mut};

use super::answer::{Answer, Refusal};
use super::rows::PLANNED_WIDTH;
use super::{checks, page, sheet};
use crate::{play, response, search};

/// What C lends; an empty slice may have no address.
unsafe fn lent<'a, T>(start: *const T, length: usize) -> &'a [T] {
    if length == 0 {
        &[]
    } else {
        from_raw_parts(start, length)
    }
}

unsafe fn lent_to_write<'a, T>(start: *mut T, length: usize) -> &'a mut [T] {
    if length == 0 {
        &mut []
    } else {
        from_raw_parts_mut(start, length)
    }
}

fn plan(table: &[u32], out: &mut [u32]) -> Result<u64, Refusal> {
    let tasks = checks::table(table)?;
    let length = PLANNED_WIDTH * tasks.len();
    checks::room(out.len(), length)?;
    let plan = search::plan(tasks)?;
    for (part, p) in out.chunks_exact_mut(PLANNED_WIDTH).zip(&plan[..tasks.len()]) {
        part.copy_from_slice(&[p.rank, p.length, p.response]);
    }
    Ok(length as u64)
}

fn times(table: &[u32], plan: &[u32], out: &mut [u32]) -> Result<u64, Refusal> {
    let tasks = checks::table(table)?;
    let mut plan = checks::plan(tasks, plan)?;
    checks::room(out.len(), tasks.len())?;
    response::responses(tasks, &mut plan).ok_or(Refusal(4, 0))?;
    for (place, p) in out.iter_mut().zip(&plan[..tasks.len()]) {
        *place = p.response;
    }
    Ok(tasks.len() as u64)
}

fn verdict(table: &[u32], plan: &[u32]) -> Result<u64, Refusal> {
    let tasks = checks::table(table)?;
    let mut plan = checks::plan(tasks, plan)?;
    response::responses(tasks, &mut plan).ok_or(Refusal(4, 0))?;
    Ok(tasks.iter().zip(&plan).all(|([_, d, ..], p)| p.response <= *d).into())
}

fn play(table: &[u32], plan: &[u32], jobs: &[u32], out: &mut [u32]) -> Result<u64, Refusal> {
    let tasks = checks::table(table)?;
    let plan = checks::plan(tasks, plan)?;
    let jobs = checks::jobs(tasks, jobs)?;
    checks::room(out.len(), jobs.len())?;
    play::finishes(tasks, &plan, jobs, out);
    Ok(jobs.len() as u64)
}

fn sheet(text: &[u8], out: &mut [u32]) -> Result<u64, Refusal> {
    let (table, length) = sheet::table(text)?;
    checks::room(out.len(), length)?;
    out[..length].copy_from_slice(&table[..length]);
    Ok(length as u64)
}

fn fit(planned: &[u32], room: usize) -> Result<u64, Refusal> {
    let length = page::length(checks::shape(planned)?);
    checks::room(room, length)?;
    Ok(length as u64)
}

fn print(planned: &[u32], buffer: &mut [u8]) -> Result<u64, Refusal> {
    let length = fit(planned, buffer.len())?;
    page::write(checks::shape(planned)?, buffer);
    Ok(length)
}

#[no_mangle]
unsafe extern "C" fn tb_plan(table: *const u32, table_len: usize, out: *mut u32, out_len: usize) -> Answer {
    plan(lent(table, table_len), lent_to_write(out, out_len)).into()
}

#[no_mangle]
unsafe extern "C" fn tb_times(
    table: *const u32,
    table_len: usize,
    plan: *const u32,
    plan_len: usize,
    out: *mut u32,
    out_len: usize,
) -> Answer {
    times(lent(table, table_len), lent(plan, plan_len), lent_to_write(out, out_len)).into()
}

#[no_mangle]
unsafe extern "C" fn tb_verdict(table: *const u32, table_len: usize, plan: *const u32, plan_len: usize) -> Answer {
    verdict(lent(table, table_len), lent(plan, plan_len)).into()
}

#[no_mangle]
unsafe extern "C" fn tb_play(
    table: *const u32,
    table_len: usize,
    plan: *const u32,
    plan_len: usize,
    jobs: *const u32,
    jobs_len: usize,
    out: *mut u32,
    out_len: usize,
) -> Answer {
    let (table, plan) = (lent(table, table_len), lent(plan, plan_len));
    play(table, plan, lent(jobs, jobs_len), lent_to_write(out, out_len)).into()
}

#[no_mangle]
unsafe extern "C" fn tb_sheet(text: *const u8, text_len: usize, out: *mut u32, out_len: usize) -> Answer {
    sheet(lent(text, text_len), lent_to_write(out, out_len)).into()
}

#[no_mangle]
unsafe extern "C" fn tb_print(planned: *const u32, planned_len: usize, buf: *mut u8, buf_len: usize) -> Answer {
    print(lent(planned, planned_len), lent_to_write(buf, buf_len)).into()
}

#[no_mangle]
unsafe extern "C" fn tb_fit(planned: *const u32, planned_len: usize, buf_len: usize) -> Answer {
    fit(lent(planned, planned_len), buf_len).into()
}
