//! How often each kind of case came up; a kind that is asked for and never came up is a failure.

use std::collections::BTreeMap;

pub struct Counts(BTreeMap<String, u64>);

impl Counts {
    /// Counts that ask for these kinds.
    pub fn asking_for(kinds: impl IntoIterator<Item = String>) -> Counts {
        Counts(kinds.into_iter().map(|kind| (kind, 0)).collect())
    }

    pub fn add(&mut self, kind: impl Into<String>) {
        *self.0.entry(kind.into()).or_default() += 1;
    }

    pub fn print(&self) {
        for (kind, count) in &self.0 {
            println!("{count:>9}  {kind}");
        }
    }

    pub fn missing(&self) -> Vec<&str> {
        self.0.iter().filter(|(_, count)| **count == 0).map(|(kind, _)| kind.as_str()).collect()
    }
}
