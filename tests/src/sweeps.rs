//! Aimed models, with every small number of extra cells: then a list finds no room in the middle, at each of its names.

use crate::aimed::SEED;
use crate::checker::{check, unbounded};
use crate::compare::{failure, Outcome, Tally};
use crate::lending::Lending;
use crate::models::Case;
use crate::rng::Rng;
use crate::rows::Row;

/// None, around the fewest with which the row has its answer, and as many as it says.
fn cell_counts(row: &Row) -> Vec<usize> {
    let (_, need) = unbounded(&row.model, &row.list);
    let mut counts = vec![0, need.saturating_sub(1), need, need + 1, row.cells];
    counts.sort_unstable();
    counts.dedup();
    counts
}

impl Tally {
    /// A row as it stands and on the runner; then with one extra cell too few, and with up to `spare` too many.
    pub fn sweep(&mut self, row: &Row, spare: impl Iterator<Item = usize> + Clone) -> Outcome {
        self.row(row)?;
        let mut rng = Rng::of_case(row.model.len() as u64, row.cells as u64);
        let case = Case { label: row.name.clone(), model: row.model.clone(), list: row.list.clone(), expected: None };
        self.case(&case, &mut rng)?;
        for cells in cell_counts(row) {
            let plain = check(&row.model, &row.list, cells);
            let sizes = (4 * cells).checked_sub(1).into_iter().chain(spare.clone().map(|more| 4 * cells + more));
            for extra in sizes {
                for seed in [0, u64::MAX, SEED, rng.word()] {
                    self.indexed(&row.model, &row.list, cells, Lending { extra, seed }, plain)
                        .map_err(|told| failure(&row.name, &row.model, &row.list, cells, told))?;
                }
            }
        }
        Ok(())
    }
}
