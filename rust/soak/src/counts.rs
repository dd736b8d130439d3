//! What was tried, counted by kind.

use std::collections::BTreeMap;
use std::fmt::{self, Display, Formatter};

/// How often each kind of thing was tried.
#[derive(Clone, Default, Debug)]
pub struct Counts {
    tried: BTreeMap<&'static str, u64>,
}

impl Counts {
    /// So many more of a kind.
    pub fn add(&mut self, kind: &'static str, count: usize) {
        *self.tried.entry(kind).or_default() += count as u64;
    }

    /// How many of a kind.
    pub fn of(&self, kind: &str) -> u64 {
        self.tried.get(kind).copied().unwrap_or(0)
    }
}

impl Display for Counts {
    fn fmt(&self, formatter: &mut Formatter) -> fmt::Result {
        for (kind, count) in &self.tried {
            writeln!(formatter, "{count:>12}  {kind}")?;
        }
        Ok(())
    }
}
