//! The test: busy period, active period, starts, finishes and responses, each least value found by
//! looking upward.

use crate::stretches::Stretches;
use crate::{Placed, HORIZON, ROW_WIDTH};

#[derive(Clone, Copy, Debug, PartialEq, Eq)]
pub struct Row {
    pub c: u64,
    pub d: u64,
    pub t: u64,
    /// The ticks that a job executes before its middle region, and the length of that region.
    pub start: u64,
    pub region: u64,
}

impl Row {
    pub fn of_table(table: &[u32]) -> Vec<Row> {
        let row = |r: &[u32]| {
            let number = |i: usize| u64::from(r[i]);
            Row { c: number(0), d: number(1), t: number(2), start: number(3), region: number(4) }
        };
        table.chunks(ROW_WIDTH).map(row).collect()
    }

    /// The longest that the final region may be: from the middle one's end to C.
    pub fn cap(&self) -> u64 {
        self.c - (self.start + self.region)
    }

    /// The longer of the row's two regions, the final one being of this length.
    pub fn longer(&self, length: u32) -> u64 {
        self.region.max(length.into())
    }
}

/// The first t from 1 to `limit` at which `extra` and the work that `rows` release before t make t.
///
/// In a stretch every t after its first tick, its end included, has the same releases before it,
/// which ceil(t/T) counts for a row.
fn least_idle(rows: &[Row], extra: u64, limit: u64) -> Option<u64> {
    for stretch in Stretches::of(rows) {
        let t = extra + stretch.work;
        if stretch.from < t && t <= stretch.to {
            return (t <= limit).then_some(t);
        }
        if stretch.to >= limit {
            break;
        }
    }
    None
}

pub fn busy_period(rows: &[Row]) -> Option<u64> {
    least_idle(rows, 0, HORIZON)
}

/// What the test sees of a row of a plan: the row, the rows above it, its blocking, and its jobs K.
pub struct Level {
    own: Row,
    above: Vec<Row>,
    blocking: u64,
    pub jobs: u64,
}

impl Level {
    pub fn new(own: Row, above: Vec<Row>, blocking: u64) -> Level {
        let with_own = [above.clone(), vec![own]].concat();
        let active = least_idle(&with_own, blocking, HORIZON).expect("an active period lies within the busy period");
        let jobs = (1..).find(|k| k * own.t >= active).unwrap_or(0);
        Level { own, above, blocking, jobs }
    }

    pub fn of(rows: &[Row], placed: &[Placed], i: usize) -> Level {
        let others =
            |higher: bool| (0..rows.len()).filter(move |&j| j != i && (placed[j].rank < placed[i].rank) == higher);
        let above = others(true).map(|j| rows[j]).collect();
        let blocking = others(false).map(|j| rows[j].longer(placed[j].length) - 1).max().unwrap_or(0);
        Level::new(rows[i], above, blocking)
    }

    /// The start of each job from 1 to K.
    ///
    /// floor(s/T)+1 counts the releases up to and with s. So in a stretch job k has one candidate,
    /// and the first stretch that holds its candidate holds its start; a later job's candidate is
    /// later.
    fn starts(&self, length: u64) -> Vec<u64> {
        let mut starts = vec![];
        for stretch in Stretches::of(&self.above) {
            for k in starts.len() as u64 + 1..=self.jobs {
                let s = self.blocking + k * self.own.c - length + stretch.work;
                if !(stretch.from..stretch.to).contains(&s) {
                    break;
                }
                starts.push(s);
            }
            if starts.len() as u64 == self.jobs {
                break;
            }
        }
        starts
    }

    /// Each job's finish less its release, (k−1)T.
    pub fn spans(&self, length: u64) -> Vec<u64> {
        (0..).zip(self.starts(length)).map(|(earlier, s)| s + length - earlier * self.own.t).collect()
    }

    pub fn response(&self, length: u64) -> u64 {
        self.spans(length).into_iter().max().unwrap_or(0)
    }
}

pub fn responses(rows: &[Row], placed: &[Placed]) -> Vec<u64> {
    (0..rows.len()).map(|i| Level::of(rows, placed, i).response(placed[i].length.into())).collect()
}

pub fn passes(rows: &[Row], placed: &[Placed]) -> bool {
    responses(rows, placed).iter().zip(rows).all(|(r, row)| *r <= row.d)
}
