//! A refusal: its number, its places, and what they mean.
use crate::rules::rule;
use std::fmt;

/// The one refusal that has a second place.
pub(crate) const ALREADY_VISIBLE: u64 = 23;

/// Why a model is refused, and where. The numbers are those of document 01, and 9, 41 to 43 and 65 of document 02.
#[derive(Clone, Copy, Debug, PartialEq, Eq)]
pub struct Refusal {
    pub number: u64,
    /// An offset in the model: the first tag byte of the field at fault.
    pub place: usize,
    /// With 23, and only with it: where the name is defined that is already visible, as `place` is an offset. Of an
    /// input with a default it is the input's. It may lie behind `place`: fields are judged in another order than they
    /// stand in.
    pub first: Option<usize>,
}

impl Refusal {
    /// A short name, such as `input-not-visible`.
    pub fn name(&self) -> &'static str {
        rule(self.number).map_or("unknown", |r| r.name)
    }

    /// The rule that is broken, in one line.
    pub fn explanation(&self) -> &'static str {
        rule(self.number).map_or("this version has no explanation for the number", |r| r.explanation)
    }
}

impl fmt::Display for Refusal {
    fn fmt(&self, f: &mut fmt::Formatter<'_>) -> fmt::Result {
        write!(f, "refused {} at {}", self.number, self.place)?;
        self.first.map_or(Ok(()), |first| write!(f, " first {first}"))
    }
}

impl std::error::Error for Refusal {}
