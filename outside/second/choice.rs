//! The choice of a plan, rank by rank from the lowest, with lengths tried upward from 1; and all
//! plans there are.

use crate::{Level, Row, PLAN_WIDTH};

/// A row's place in a plan.
#[derive(Clone, Copy, Debug, Default, PartialEq, Eq)]
pub struct Placed {
    pub rank: u32,
    pub length: u32,
}

impl Placed {
    pub fn of_plan(plan: &[u32]) -> Vec<Placed> {
        plan.chunks(PLAN_WIDTH).map(|p| Placed { rank: p[0], length: p[1] }).collect()
    }
}

/// The shortest length with which row i passes below all other rows that have no place yet.
fn shortest(rows: &[Row], places: &[Option<Placed>], i: usize) -> Option<u32> {
    let above = (0..rows.len()).filter(|&j| j != i && places[j].is_none()).map(|j| rows[j]).collect();
    let below = places.iter().zip(rows).filter_map(|(place, row)| Some(row.longer((*place)?.length) - 1));
    let level = Level::new(rows[i], above, below.max().unwrap_or(0));
    (1..=rows[i].cap()).find(|q| level.response(*q) <= rows[i].d).map(|q| q as u32)
}

pub fn chosen(rows: &[Row]) -> Option<Vec<Placed>> {
    let mut places = vec![None; rows.len()];
    for rank in (1..=rows.len() as u32).rev() {
        let passing = (0..rows.len()).filter(|&i| places[i].is_none()).filter_map(|i| {
            let length = shortest(rows, &places, i)?;
            Some((rows[i].longer(length), i, length))
        });
        let (_, row, length) = passing.min()?;
        places[row] = Some(Placed { rank, length });
    }
    places.into_iter().collect()
}

fn orders(ranks: Vec<u32>) -> Vec<Vec<u32>> {
    if ranks.is_empty() {
        return vec![vec![]];
    }
    let headed = |i: usize| {
        let mut rest = ranks.clone();
        let head = rest.remove(i);
        orders(rest).into_iter().map(move |tail| [vec![head], tail].concat())
    };
    (0..ranks.len()).flat_map(headed).collect()
}

/// All well-formed plans: every order of the ranks with every length of every row.
pub fn all_plans(rows: &[Row]) -> Vec<Vec<Placed>> {
    let mut plans: Vec<Vec<Placed>> = vec![];
    for ranks in orders((1..=rows.len() as u32).collect()) {
        let mut begun: Vec<Vec<Placed>> = vec![vec![]];
        for (row, rank) in rows.iter().zip(ranks) {
            let longer = |plan: &Vec<Placed>| {
                let plan = plan.clone();
                (1..=row.cap() as u32).map(move |length| [plan.clone(), vec![Placed { rank, length }]].concat())
            };
            begun = begun.iter().flat_map(longer).collect();
        }
        plans.extend(begun);
    }
    plans
}
