//! Time from tick 0 on, cut where a row is released when every row is released at 0 and then as
//! often as its spacing allows.

use crate::Row;

/// Ticks `from` to the one before `to`: the releases up to each are the same, and worth `work`.
#[derive(Clone, Copy)]
pub struct Stretch {
    pub from: u64,
    pub to: u64,
    pub work: u64,
}

pub struct Stretches<'a> {
    rows: &'a [Row],
    next_release: Vec<u64>,
    from: u64,
    work: u64,
}

impl<'a> Stretches<'a> {
    pub fn of(rows: &'a [Row]) -> Self {
        Stretches { rows, next_release: vec![0; rows.len()], from: 0, work: 0 }
    }
}

impl Iterator for Stretches<'_> {
    type Item = Stretch;

    fn next(&mut self) -> Option<Stretch> {
        let from = self.from;
        let mut to = u64::MAX;
        for (row, next) in self.rows.iter().zip(self.next_release.iter_mut()) {
            if *next == from {
                self.work += row.c;
                *next += row.t;
            }
            to = to.min(*next);
        }
        self.from = to;
        (from < to).then_some(Stretch { from, to, work: self.work })
    }
}
