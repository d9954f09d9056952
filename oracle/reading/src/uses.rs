//! Use counts (document 02, R-6): how often the held queries of a relation name each slot's wire,
//! and how many of their cells are stray, which name a wire that the slot store has no word for.

use std::collections::BTreeMap;

use crate::{
    questions::{ask, Asked},
    MAX_COUNT,
};

/// What a query does to the counts: its cells join them, or leave them.
#[derive(Clone, Copy, Debug, PartialEq, Eq)]
pub enum Cells {
    Join,
    Leave,
}

/// The counts that a query changes, as they are to be: signed, so that what is wrong shows.
#[derive(Clone, Debug, PartialEq, Eq)]
pub struct Counts {
    /// By wire, those that the use store has a word for.
    uses: BTreeMap<u32, i64>,
    /// Where a cell of the query is stray.
    stray: Option<i64>,
}

impl Counts {
    /// The final counts of those that a cell of the query touches. A cell on a wire below the slot
    /// store's length counts there, allocated or not, and any other is stray. Where the use store
    /// is shorter than the slots, which 10 asks later, a cell that it has no word for changes
    /// nothing.
    pub fn after(cells: Cells, query: &[u32], slots: usize, uses: &[u32], stray: u32) -> Self {
        let step = match cells {
            Cells::Join => 1,
            Cells::Leave => -1,
        };
        let mut counts = Self {
            uses: BTreeMap::new(),
            stray: None,
        };
        for &var in query {
            if var as usize >= slots {
                *counts.stray.get_or_insert(i64::from(stray)) += step;
            } else if let Some(&count) = uses.get(var as usize) {
                *counts.uses.entry(var).or_insert(i64::from(count)) += step;
            }
        }
        counts
    }

    /// 11: each of them is from 0 to 2^30. Counts that no cell touches aren't judged.
    pub fn ask(&self) -> Asked {
        let limits = 0..=i64::from(MAX_COUNT);
        let mut touched = self.uses.values().chain(&self.stray);
        ask(11, touched.all(|count| limits.contains(count)))
    }

    /// Writes them, where 11 said yes: the stray count, of which this was the one before.
    pub fn write(&self, uses: &mut [u32], stray: u32) -> u32 {
        for (&var, &count) in &self.uses {
            uses[var as usize] = count as u32;
        }
        self.stray.map_or(stray, |count| count as u32)
    }
}

/// The counts of these cells beside a slot store of so many words, worked out afresh.
pub fn counted(slots: usize, cells: &[u32]) -> (Vec<u32>, u32) {
    let (mut uses, mut stray) = (vec![0; slots], 0);
    for &cell in cells {
        match uses.get_mut(cell as usize) {
            Some(count) => *count += 1,
            None => stray += 1,
        }
    }
    (uses, stray)
}

/// 10: the use store has as many words as the slot store.
pub fn ask_length(slots: &[u32], uses: &[u32]) -> Asked {
    ask(10, uses.len() == slots.len())
}
