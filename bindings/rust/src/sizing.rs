//! The check with cells of its own: how many, and under a seed that nobody knows.
use crate::skim::{skim, Need};
use crate::{check_indexed, check_with, operators, Accepted, Refusal, CELLS_PER_NAME, LARGEST_MODEL};
use std::alloc::{alloc_zeroed, Layout};
use std::fmt;
use std::hash::{BuildHasher, Hasher, RandomState};

/// The most bytes that cells and extra cells take together, where nobody says otherwise. It is a bound and not a
/// request: more cells are asked for as the answer 40 calls for them, and are real memory only where a name is kept. No
/// model of `LARGEST_MODEL` bytes or less needs more than 28.7 GB, so that none is refused for it.
pub const MEMORY: usize = 27 << 30;

const CELL: usize = size_of::<u32>();

/// A field that holds a visible name, or one of a list, has at least a tag, a length and a byte.
const LEAST_NAME: usize = 3;

/// The bytes of an entry of an operator list, at least.
const LEAST_LISTED: usize = 10;

/// A sound operator list that allows nothing.
const NOTHING: [u8; 5] = [0, 0, 0, 1, 1];

/// The first refusal of an import: those with a smaller number, 1 to 12, come before any name is kept.
const IMPORTED_TWICE: u64 = 13;

/// Up to this size a model gets what any model of its size can need; a larger one is skimmed.
const SMALL: usize = 9_600 * LEAST_NAME;

/// Lists with more names than this get room only where the library comes so far as to read them.
const SHORT: usize = 65_536;

/// The most cells of a first try: a file that is refused early costs no more of them, however many names it holds.
const FIRST: usize = 65_536 * CELLS_PER_NAME;

/// What cells are multiplied with after a 40. All tries before the last then have little more cells than it has.
const GROWTH: usize = 8;

/// The cells of both kinds that a model can need.
const MOST: usize = {
    let names = LARGEST_MODEL / LEAST_NAME;
    of_names(names) + linear(of_names(names), names)
};
const _: () = assert!(CELL * MOST < MEMORY);

/// What bounds a check, and its seed.
#[derive(Clone, Copy, Debug, PartialEq, Eq)]
pub struct Options {
    /// The most cells, `CELLS_PER_NAME` for each name that is visible. A model with more names at once than half of
    /// them is refused with 40.
    pub cells: usize,
    /// The most bytes of cells and extra cells together, 40 for each name. A model with more names is refused with 40;
    /// one with longer lists of named things than it has names, 16 for each, takes longer where they do not fit. Room
    /// that stays unused counts here, though it is not real.
    pub memory: usize,
    /// How names are spread over the index: no answer depends on it. Without one it is drawn from the system.
    pub seed: Option<u64>,
}

impl Default for Options {
    fn default() -> Self {
        Options { cells: usize::MAX, memory: MEMORY, seed: None }
    }
}

/// An answer, and how many cells it was given under. Only a 40 would be another one with more.
#[derive(Clone, Copy, Debug, PartialEq, Eq)]
pub struct Checked {
    pub answer: Result<Accepted, Refusal>,
    pub cells: usize,
}

/// The system has no memory for so many cells. Nothing is known of the model then.
#[derive(Clone, Copy, Debug, PartialEq, Eq)]
pub struct NoMemory {
    pub cells: usize,
}

impl fmt::Display for NoMemory {
    fn fmt(&self, f: &mut fmt::Formatter<'_>) -> fmt::Result {
        write!(f, "there is no memory for {} cells", self.cells)
    }
}

impl std::error::Error for NoMemory {}

impl Options {
    /// Accepts or refuses `model` for a runtime that has `operators`.
    pub fn check(&self, model: &[u8], operators: &[u8]) -> Result<Checked, NoMemory> {
        let seed = self.seed.unwrap_or_else(random);
        let need = need(model, operators);
        let (counted, most) = (of_names(need.names), self.most(model.len()));
        let mut cells = counted.min(FIRST).min(most);
        loop {
            let lists = need.lists(cells / CELLS_PER_NAME);
            let (mut own, mut extra) = (zeroed(cells)?, zeroed(self.extra(cells, lists))?);
            let answer = check_indexed(model, operators, &mut own, &mut extra, seed);
            // `enough_cells` in crates/rules/specs/Demands.antt: with more cells an answer stays, unless it is a 40
            match next(cells, counted, most) {
                Some(more) if matches!(answer, Err(refusal) if refusal.number == 40) => cells = more,
                _ => return Ok(Checked { answer, cells }),
            }
        }
    }

    /// More cells than this are of no use to a model of this length, or are not allowed.
    fn most(&self, length: usize) -> usize {
        self.cells.min(of_names(length / LEAST_NAME)).min(self.memory / CELL / 5)
    }

    /// As many as are of use, or as the memory has room for: four for each cell at least, as `most` sees to.
    fn extra(&self, cells: usize, lists: usize) -> usize {
        linear(cells, lists).min(self.memory / CELL - cells)
    }
}

/// The cells that so many names take.
const fn of_names(names: usize) -> usize {
    CELLS_PER_NAME * names
}

/// The extra cells beside which nothing takes more than linear time: four for each cell, in which the names of lists
/// find room that the index of the visible names leaves.
const fn linear(cells: usize, lists: usize) -> usize {
    let (least, used) = (4 * cells, 4 * (cells / CELLS_PER_NAME) + 2 + 4 * lists);
    if used > least {
        used
    } else {
        least
    }
}

/// Accepts or refuses `model` for a runtime that has `operators`. Cells are allocated as the model needs them, at most
/// `MEMORY` bytes; names are found by an index under a random seed, so that no model can be made to stall it.
///
/// # Panics
///
/// Where the system has no memory for the cells. `Options::check` tells it instead.
pub fn check(model: &[u8], operators: &[u8]) -> Result<Accepted, Refusal> {
    Options::default().check(model, operators).unwrap_or_else(|why| panic!("{why}")).answer
}

fn need(model: &[u8], operators: &[u8]) -> Need {
    let names = model.len() / LEAST_NAME;
    if model.len() <= SMALL {
        return Need { names, free: names, ..Need::default() };
    }
    if model.len() > LARGEST_MODEL {
        return Need::default();
    }
    let found = skim(model);
    if found.functions + found.free > SHORT && ends_before_lists(model, operators) {
        return Need::default();
    }
    // no import is kept that the operator list does not have
    let listed = operators.len() / LEAST_LISTED;
    let (imports, own_imports) = (found.imports.min(listed), found.own_imports.min(listed));
    Need { names: found.names.min(names), imports, own_imports, ..found }
}

/// Whether the model is refused before a name is kept, as the library says: under a list that allows nothing, and with
/// no cells, it answers in linear time, at the latest at the first import. What it refuses before that, it refuses under
/// every sound list.
fn ends_before_lists(model: &[u8], operators: &[u8]) -> bool {
    let early = |refusal: Refusal| refusal.number < IMPORTED_TWICE;
    !operators::is_sound(operators) || check_with(model, &NOTHING, &mut []).is_err_and(early)
}

/// How many cells to try after `cells` were too few: as many as were counted, and should these not do, up to `most`.
fn next(cells: usize, counted: usize, most: usize) -> Option<usize> {
    let goal = if cells < counted { counted.min(most) } else { most };
    Some(goal.min(cells.max(FIRST).saturating_mul(GROWTH))).filter(|n| *n > cells)
}

/// Zeroed by the system: what is not written is not real, and the library writes only where it keeps a name.
fn zeroed(count: usize) -> Result<Vec<u32>, NoMemory> {
    let layout = Layout::array::<u32>(count).map_err(|_| NoMemory { cells: count })?;
    if count == 0 {
        return Ok(Vec::new());
    }
    // SAFETY: the layout is of one byte or more.
    let cells = unsafe { alloc_zeroed(layout) }.cast::<u32>();
    if cells.is_null() {
        return Err(NoMemory { cells: count });
    }
    // SAFETY: the pointer is of the global allocator, with the very layout that a `Vec<u32>` of this capacity is freed
    // with, and nobody else has it; all its `count` numbers are initialized, to zero.
    Ok(unsafe { Vec::from_raw_parts(cells, count, count) })
}

/// A number that whoever made the model cannot know. `RandomState` has its keys from the system; unlike a read of
/// /dev/urandom, it needs no file and no way to fail.
fn random() -> u64 {
    RandomState::new().build_hasher().finish()
}

#[cfg(test)]
mod tests;
