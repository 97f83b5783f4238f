//! The answer, as the checker gives it and the library is held to.

use std::fmt;

/// What an acceptance counts: nodes in all graphs and functions, the most names visible together, and the nonempty fields that are tested
/// for 21 and are no identifiers.
#[derive(Clone, Copy, Debug, PartialEq, Eq)]
pub struct Counts {
    pub nodes: u64,
    pub names: u64,
    pub odd: u64,
}

/// The answer of document 01: counts, or a number and a place. `first` is 0 but for 23: there it is the place of the definition that is
/// visible already.
#[derive(Clone, Copy, Debug, PartialEq, Eq)]
pub enum Verdict {
    Accepted(Counts),
    Refused { number: u64, place: u64, first: u64 },
}

#[derive(Clone, Copy, Debug, PartialEq, Eq)]
pub struct Refusal {
    pub number: u64,
    pub place: u64,
    pub first: u64,
}

/// The refusal numbers of the plain check, for those who count what was reached.
#[rustfmt::skip]
pub const REFUSALS: [u64; 37] = [
    1, 2, 3, 4, 5, 6, 7, 8, 9, 10, 11, 12, 13, 14, 16, 20, 21, 22, 23, 24, 25, 26, 27, 28, 29, 30, 31, 32, 33, 34, 35, 37, 38,
    40, 41, 42, 43,
];

/// As the program prints it.
impl fmt::Display for Verdict {
    fn fmt(&self, f: &mut fmt::Formatter<'_>) -> fmt::Result {
        match self {
            Verdict::Accepted(Counts { nodes, names, odd }) => {
                write!(f, "accepted nodes {nodes} names {names} odd {odd}")
            }
            Verdict::Refused { number: 23, place, first } => write!(f, "refused 23 at {place} first {first}"),
            Verdict::Refused { number, place, .. } => write!(f, "refused {number} at {place}"),
        }
    }
}

impl Verdict {
    /// Any refusal but 23.
    pub fn refused(number: u64, place: u64) -> Verdict {
        Verdict::Refused { number, place, first: 0 }
    }

    /// 23: the name at `place` is defined at `first` and visible.
    pub fn twice(place: u64, first: u64) -> Verdict {
        Verdict::Refused { number: 23, place, first }
    }

    /// Has `first` where there is one, and only there? A 23 has two places in a model of so many bytes, all else has 0.
    pub fn tells_first(self, bytes: usize) -> bool {
        match self {
            Verdict::Refused { number: 23, place, first } => first != place && first < bytes as u64,
            Verdict::Refused { first, .. } => first == 0,
            Verdict::Accepted(_) => true,
        }
    }

    pub fn number(self) -> u64 {
        match self {
            Verdict::Accepted(_) => 0,
            Verdict::Refused { number, .. } => number,
        }
    }
}
