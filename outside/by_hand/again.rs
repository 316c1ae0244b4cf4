//! The rows without a rank that are released again in the busy period, side by side, and where each
//! of them stands.

use crate::level::Asks;
use crate::surface::rows::{Task, MOST_ROWS};

/// A row that is not in the level has a place behind it.
pub struct Again {
    level: [Asks; MOST_ROWS],
    many: usize,
    row_at: [usize; MOST_ROWS],
    place_of: [usize; MOST_ROWS],
}

impl Again {
    /// All rows, to find the busy period by; `keep` gives those that stay their places.
    pub fn all(tasks: &[Task]) -> Again {
        let mut again = Again {
            level: [Asks::default(); MOST_ROWS],
            many: tasks.len(),
            row_at: [0; MOST_ROWS],
            place_of: [MOST_ROWS; MOST_ROWS],
        };
        for (row, task) in tasks.iter().enumerate() {
            again.level[row] = Asks::of(*task);
        }
        again
    }

    /// What blocks is less than the run of a row that has a rank, so that no active period is
    /// longer than the busy period, and a row of that spacing or more is released in it once.
    pub fn keep(&mut self, tasks: &[Task], busy: u64) {
        self.many = 0;
        for (row, [_, _, t, ..]) in tasks.iter().enumerate() {
            if u64::from(*t) < busy {
                self.level[self.many] = self.level[row];
                self.stands(row, self.many);
                self.many += 1;
            }
        }
    }

    fn stands(&mut self, row: usize, place: usize) {
        self.row_at[place] = row;
        self.place_of[row] = place;
    }

    pub fn level(&self) -> &[Asks] {
        &self.level[..self.many]
    }

    /// The level without the row, which changes places with the last. Left as a call, it makes plans
    /// of four rows take up to 1.09 times as long.
    #[inline(always)]
    pub fn without(&mut self, row: usize) -> &[Asks] {
        let place = self.place_of[row];
        if place >= self.many {
            return self.level();
        }
        let last = self.many - 1;
        self.level.swap(place, last);
        self.stands(self.row_at[last], place);
        self.stands(row, last);
        &self.level[..last]
    }

    pub fn remove(&mut self, row: usize) {
        self.many = self.without(row).len();
    }
}
