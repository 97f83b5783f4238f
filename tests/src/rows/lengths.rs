//! Lengths that point past the end, and would not if they were cut to 32 bits, read as signed, or added to their place first: 1 at the
//! field's tag. The field that lies is the last of the model.

use super::large::{filled, model, Plan, MOST};
use super::{hex, refused, row, Row};
use crate::models::lists::L;
use crate::models::sparse::Sparse;

/// How many bytes a length takes, and which one it is for a field that has so many bytes.
type Length = (&'static str, usize, fn(u64) -> u64);

const LENGTHS: [Length; 7] = [
    ("2^31 - 1", 5, |_| (1 << 31) - 1),
    ("2^31", 5, |_| 1 << 31),
    ("2^32 - 1", 5, |_| (1 << 32) - 1),
    ("2^32", 5, |_| 1 << 32),
    ("2^32 and what it has", 5, |has| (1 << 32) + has),
    ("2^63", 10, |_| 1 << 63),
    ("2^64 - 1", 10, |_| u64::MAX),
];

/// A field that ends a graph: its number and contents, and the number and first contents of the field around it, if any.
type Kind = (&'static str, u32, &'static str, Option<(u32, &'static str)>);

const KINDS: [Kind; 3] = [
    ("a node", 1, "12 01 61 22 01 58", None),
    ("a name", 2, "61", Some((1, "22 01 58"))),
    ("an initializer's contents", 9, "00 00 00 00", Some((5, "42 01 61 10 01"))),
];

/// The end of a graph for each kind and length, and how many bytes before its end the field that lies begins.
fn lying() -> impl Iterator<Item = (String, Sparse, usize)> {
    KINDS.iter().flat_map(|kind| LENGTHS.iter().map(move |length| lie(kind, length)))
}

fn lie((kind, number, contents, around): &Kind, (said, bytes, length): &Length) -> (String, Sparse, usize) {
    let contents = hex(contents);
    let (has, back) = (contents.len() as u64, 1 + bytes + contents.len());
    let lies = |before: Sparse| before.field_of(*number, length(has), Sparse::new(contents));
    let last = match around {
        Some((outer, first)) => Sparse::default().field(*outer, lies(Sparse::new(hex(first)))),
        None => lies(Sparse::default()),
    };
    (format!("{kind} of {said} bytes"), last, back)
}

/// In models of some fifty bytes.
pub(super) fn near() -> impl Iterator<Item = Row> {
    lying().map(|(name, last, back)| {
        let model = model(Sparse::new(hex("12 01 67")).and(last)).build();
        let place = (model.len() - back) as u64;
        row(&name, model, &L, 4, refused(1, place))
    })
}

/// At the end of models of the largest size.
pub(super) fn far() -> impl Iterator<Item = Plan> {
    lying().map(|(name, last, back)| {
        let place = (MOST - back) as u64;
        (format!("{name}, at its end"), filled(MOST, last), &L[..], 4, refused(1, place))
    })
}
