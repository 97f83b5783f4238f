//! What is lent to the indexed check beside the cells: how many extra cells, and which seed. Its answer must be right for all.

use crate::rng::Rng;

/// One call of the indexed check.
#[derive(Clone, Copy, Debug, PartialEq, Eq)]
pub struct Lending {
    pub extra: usize,
    pub seed: u64,
}

impl Lending {
    /// "refused with 65 at 0, before 7, exactly when its extra cells are fewer than four times the others"
    pub fn is_short(self, cells: usize) -> bool {
        (self.extra as u128) < 4 * cells as u128
    }
}

/// A kind of size, for so many cells and a model of so many bytes. None: there is no such size for these.
type Size = fn(cells: usize, bytes: usize, rng: &mut Rng) -> Option<usize>;
type Seed = fn(rng: &mut Rng) -> u64;

/// The visible names take 4 for each two of the cells, and 1; of what is left, each four make room for one name of a list.
#[rustfmt::skip]
pub const SIZES: [(&str, Size); 10] = [
    ("4n - 1", |n, _, _| (4 * n).checked_sub(1)),
    ("fewer", |n, _, rng| (n > 0).then(|| rng.below(4 * n))),
    ("4n", |n, _, _| Some(4 * n)),
    ("4n + 1", |n, _, _| Some(4 * n + 1)),
    ("4n + 2", |n, _, _| Some(4 * n + 2)),
    ("4n + 3", |n, _, _| Some(4 * n + 3)),
    ("4n + 2 + 4R, R < 9", |n, _, rng| Some(4 * n + 6 + 4 * rng.below(8))),
    ("4n + up to 99", |n, _, rng| Some(4 * n + rng.below(100))),
    ("plenty", |n, bytes, _| Some(4 * n + 2 + 4 * room(bytes))),
    ("more", |n, bytes, rng| Some(4 * n + 4 * room(bytes) + 500 + rng.below(1_000))),
];

/// For every name that a model of so many bytes can have in its lists, where a function's attribute takes three bytes at least; no model here
/// has more than the bound.
fn room(bytes: usize) -> usize {
    (bytes / 3).min(20_000)
}

pub const SEEDS: [(&str, Seed); 5] = [
    ("0", |_| 0),
    ("2^64 - 1", |_| u64::MAX),
    ("2^32 - 1", |_| u64::from(u32::MAX)),
    ("small", |rng| rng.below(8) as u64),
    ("random", Rng::word),
];

/// A size and a seed, by their rows.
pub type Combination = (usize, usize);

pub fn all() -> impl Iterator<Item = Combination> {
    (0..SIZES.len()).flat_map(|size| (0..SEEDS.len()).map(move |seed| (size, seed)))
}

pub fn lending((size, seed): Combination, cells: usize, bytes: usize, rng: &mut Rng) -> Option<Lending> {
    let extra = SIZES[size].1(cells, bytes, rng)?;
    Some(Lending { extra, seed: SEEDS[seed].1(rng) })
}

/// Which combinations a case tries.
pub enum Tries<'r> {
    All,
    /// So many of them.
    Some(usize, &'r mut Rng),
}

impl Tries<'_> {
    pub fn lendings(self, cells: usize, bytes: usize) -> Vec<(Combination, Lending)> {
        let made = |combination: Combination, rng: &mut Rng| {
            lending(combination, cells, bytes, rng).map(|lending| (combination, lending))
        };
        match self {
            Tries::All => {
                let mut rng = Rng::of_case(cells as u64, bytes as u64);
                all().filter_map(|combination| made(combination, &mut rng)).collect()
            }
            Tries::Some(count, rng) => {
                let drawn = (0..count).map(|_| (rng.below(SIZES.len()), rng.below(SEEDS.len())));
                drawn.collect::<Vec<_>>().into_iter().filter_map(|combination| made(combination, rng)).collect()
            }
        }
    }
}

#[cfg(test)]
mod tests {
    use super::*;

    /// The first two kinds are too short for every number of cells, the others for none.
    #[test]
    fn kinds_are_short_or_not() {
        for cells in [0, 1, 2, 60, 4096] {
            for (combination, lending) in Tries::All.lendings(cells, 700) {
                assert_eq!(lending.is_short(cells), combination.0 < 2, "{cells} cells, {lending:?}");
            }
        }
        let kinds = |cells| Tries::All.lendings(cells, 9).len();
        assert_eq!((kinds(1), kinds(0)), (50, 40), "with no cells nothing is too short");
    }
}
