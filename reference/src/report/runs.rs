//! The writes that aren't claimed, put together where they are alike, so that a long list stays readable.

use super::{Fate, Write};
use std::collections::HashMap;
use std::ops::RangeInclusive;

/// Writes of one nexus with the same fate, with no other of its unclaimed writes between them.
#[derive(Clone, PartialEq, Eq, Debug)]
pub struct Run {
    pub nexus: u8,
    pub fate: Fate,
    /// The events' positions, rising.
    pub positions: Vec<usize>,
}

/// The runs, in the order of their first events. Each write that isn't claimed is in one of them.
pub fn runs(writes: &[Write]) -> Vec<Run> {
    let mut runs: Vec<Run> = Vec::new();
    let mut last_of: HashMap<u8, usize> = HashMap::new();
    for &Write { position, nexus, fate } in writes.iter().filter(|write| !write.fate.is_claimed()) {
        match last_of.get(&nexus) {
            Some(&run) if runs[run].fate == fate => runs[run].positions.push(position),
            _ => {
                last_of.insert(nexus, runs.len());
                runs.push(Run { nexus, fate, positions: vec![position] });
            }
        }
    }
    runs
}

impl Run {
    /// The positions as ranges without gaps.
    pub fn ranges(&self) -> Vec<RangeInclusive<usize>> {
        let mut ranges: Vec<RangeInclusive<usize>> = Vec::new();
        for &position in &self.positions {
            match ranges.last_mut() {
                Some(range) if range.end() + 1 == position => *range = *range.start()..=position,
                _ => ranges.push(position..=position),
            }
        }
        ranges
    }
}
