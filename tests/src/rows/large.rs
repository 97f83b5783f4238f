//! Rows at the largest size: document 01's two, where Req 05 has put them, and faults at places just below 2^31. What fills the models is
//! the contents of initializers, zeros that nobody reads.

use super::by_hand::GraphRow;
use super::{accepted, hex, lengths, refused, row, Row, M0, M1};
use crate::checker::Verdict;
use crate::models::lists::L;
use crate::models::sparse::Sparse;

/// "Raise the size in refusal 7 from 67,108,864 to 2,147,483,647 bytes."
pub(super) const MOST: usize = 2_147_483_647;

/// A row before its model is made: name, model, list, cells and answer.
pub(super) type Plan = (String, Sparse, &'static [u8], usize, Verdict);

/// Each model is made when its turn comes, so that there is one at a time.
pub fn large() -> impl Iterator<Item = Row> {
    let functions = behind_graph().chain(in_function());
    let plans = sizes().into_iter().chain(ends()).chain(apart()).chain(functions).chain(lengths::far());
    plans.map(|(name, model, list, cells, answer)| row(&name, model.build(), list, cells, answer))
}

fn sizes() -> Vec<Plan> {
    let zeros = |count| Sparse::default().zeros(count);
    // The name's first byte is refused, so that no call has to read the others.
    let all_name = Sparse::default().field(2, Sparse::new([0x80]).zeros(MOST - 19));
    // A length in 32 bits would be that of M1.
    let beyond = Sparse::new(hex(M1)).zeros(1 << 32);
    vec![
        ("the most bytes, zeros".into(), zeros(MOST), &L, 0, refused(3, 0)),
        ("the most bytes, zeros, no list".into(), zeros(MOST), &[], 2, refused(8, 0)),
        ("a byte more, zeros".into(), zeros(MOST + 1), &L, 0, refused(7, 0)),
        ("the most bytes, a padded tag".into(), Sparse::new(hex("88 00")).zeros(MOST - 2), &L, 0, refused(9, 0)),
        ("a byte more, a padded tag".into(), Sparse::new(hex("88 00")).zeros(MOST - 1), &L, 0, refused(7, 0)),
        ("a byte more, zeros, no list".into(), zeros(MOST + 1), &[], 3, refused(7, 0)),
        ("M1 and 2^32 bytes".into(), beyond, &L, 2, refused(7, 0)),
        ("the most bytes, sound".into(), filled(MOST, Sparse::default()), &L, 2, accepted(0, 1)),
        ("a byte more, sound but for it".into(), filled(MOST + 1, Sparse::default()), &L, 2, refused(7, 0)),
        ("the most bytes, nearly all a name".into(), model(all_name), &L, 0, refused(21, 12)),
    ]
}

/// A header of six bytes, and the graph's tag at 6. From 2^28 bytes on its length takes five, so that its fields begin at 12.
pub(super) fn model(graph: Sparse) -> Sparse {
    Sparse::new(hex("08 08 42 02 10 0D")).field(7, graph)
}

/// An initializer of 17 bytes and its contents, from 2^28 of these on.
fn initializer(name: u8, contents: usize) -> Sparse {
    let tensor = Sparse::new([0x42, 1, name, 0x10, 1]).field(9, Sparse::default().zeros(contents));
    Sparse::default().field(5, tensor)
}

/// A model of `length` bytes whose main graph has the initializer `w` first, and last what is given.
pub(super) fn filled(length: usize, last: Sparse) -> Sparse {
    let contents = length - 12 - 3 - 17 - last.length();
    model(Sparse::new(hex("12 01 67")).and(initializer(b'w', contents)).and(last))
}

/// What stands last in the graph, and so in the model: name, bytes, cells, and (0, nodes, names) or the number, how many bytes before the
/// end its place is, and the first definition's place. `w` takes two cells, its name is at 21.
#[rustfmt::skip]
const ENDS: &[GraphRow] = &[
    ("1, no length", "0A", 2, (1, 1, 0)),
    ("1, a length past the end", "0A 07 12 01 61 22 01 58", 4, (1, 8, 0)),
    ("2", "A0 06 80 80 80 80 80 80 80 80 80 02", 2, (2, 12, 0)),
    ("3, a zero", "00", 2, (3, 1, 0)),
    ("3, wire type 7", "0F 00", 2, (3, 2, 0)),
    ("4", "08 00", 2, (4, 2, 0)),
    ("5", "12 01 67", 2, (5, 3, 0)),
    ("9, a tag", "92 00", 2, (9, 2, 0)),
    ("9, a number", "A0 06 80 00", 2, (9, 4, 0)),
    ("9, a length", "0A 80 00", 2, (9, 3, 0)),
    ("9, a length of ten bytes past the end", "0A 87 80 80 80 80 80 80 80 80 00", 2, (9, 11, 0)),
    ("16", "7A 00", 2, (16, 2, 0)),
    ("21", "0A 06 12 01 80 22 01 58", 4, (21, 6, 0)),
    ("23 of the initializer", "0A 06 12 01 77 22 01 58", 4, (23, 6, 21)),
    ("23 of a node's output", "0A 06 12 01 61 22 01 58 0A 06 12 01 61 22 01 58", 6, (23, 6, MOST as u64 - 14)),
    ("23 of the initializer, by another", "2A 05 42 01 77 10 01", 4, (23, 5, 21)),
    ("26", "2A 05 42 01 61 10 00", 4, (26, 2, 0)),
    ("27", "0A 03 12 01 61", 4, (27, 5, 0)),
    ("28", "0A 09 12 01 61 22 01 58 3A 01 78", 4, (28, 3, 0)),
    ("29", "0A 08 1A 01 6E 12 00 22 01 58 0A 08 1A 01 6E 12 00 22 01 58", 2, (29, 8, 0)),
    ("two names of nodes", "0A 08 1A 01 6E 12 00 22 01 58 0A 08 1A 01 6D 12 00 22 01 58", 2, (0, 2, 1)),
    ("30", "0A 09 0A 01 71 12 01 61 22 01 58", 4, (30, 9, 0)),
    ("30 of its own output", "0A 09 0A 01 61 12 01 61 22 01 58", 4, (30, 9, 0)),
    ("30 in a body", "0A 1B 12 01 61 22 01 58 2A 13 0A 01 6B A0 01 05 32 0B 12 01 67 0A 06 0A 01 61 22 01 58", 6, (30, 6, 0)),
    ("31", "0A 16 12 01 61 22 01 58 2A 06 0A 01 6B A0 01 02 2A 06 0A 01 6B A0 01 02", 4, (31, 6, 0)),
    ("34", "0A 03 22 01 58", 2, (34, 5, 0)),
    ("35", "62 03 0A 01 62", 2, (35, 3, 0)),
    ("40", "0A 06 12 01 61 22 01 58", 3, (40, 6, 0)),
    ("cells for it", "0A 06 12 01 61 22 01 58", 4, (0, 1, 2)),
    ("reads of both", "0A 06 12 01 61 22 01 58 0A 0C 0A 01 61 0A 01 77 12 01 62 22 01 58", 6, (0, 2, 3)),
    ("a body reads both", "0A 06 12 01 61 22 01 58 0A 20 12 01 62 22 01 58 2A 18 0A 01 6B A0 01 05 32 10 12 01 67 0A 0B 0A 01 61 0A 01 77 12 00 22 01 58", 6, (0, 3, 3)),
];

fn ends() -> impl Iterator<Item = Plan> {
    ENDS.iter().map(|(name, last, cells, answer)| {
        let told = format!("last in the most bytes: {name}");
        (told, filled(MOST, Sparse::new(hex(last))), &L[..], *cells, from_the_end(*answer))
    })
}

fn from_the_end(answer: (u64, u64, u64)) -> Verdict {
    match answer {
        (0, nodes, names) => accepted(nodes, names),
        (number, back, first) => Verdict::Refused { number, place: MOST as u64 - back, first },
    }
}

/// A node with the output `a` just above 2^30, and one that stands last, an initializer before each: `v` and `w`.
#[rustfmt::skip]
const APART: &[GraphRow] = &[
    ("a read of it", "0A 09 0A 01 61 12 01 62 22 01 58", 8, (0, 2, 4)),
    ("40", "0A 09 0A 01 61 12 01 62 22 01 58", 7, (40, 6, 0)),
    ("23", "0A 06 12 01 61 22 01 58", 8, (23, 6, (1 << 30) + 34)),
    ("30", "0A 09 0A 01 41 12 01 62 22 01 58", 8, (30, 9, 0)),
];

fn apart() -> impl Iterator<Item = Plan> {
    APART.iter().map(|(name, last, cells, answer)| {
        let (first, last) = (hex("0A 06 12 01 61 22 01 58"), hex(last));
        let left = MOST - 12 - 3 - 17 - (1 << 30) - first.len() - 17 - last.len();
        let graph = Sparse::new(hex("12 01 67")).and(initializer(b'v', 1 << 30)).then(first);
        let graph = graph.and(initializer(b'w', left)).then(last);
        (format!("behind a name above 2^30: {name}"), model(graph), &L[..], *cells, from_the_end(*answer))
    })
}

/// Functions that stand last in the model, behind the main graph.
#[rustfmt::skip]
const BEHIND_GRAPH: &[GraphRow] = &[
    ("22", "CA 01 00", 2, (22, 3, 0)),
    ("12", "CA 01 03 0A 01 66", 2, (12, 6, 0)),
    ("41", "CA 01 07 0A 01 66 4A 02 10 0D CA 01 07 0A 01 66 4A 02 10 0D", 2, (41, 10, 0)),
    ("two of them", "CA 01 07 0A 01 66 4A 02 10 0D CA 01 07 0A 01 67 4A 02 10 0D", 2, (0, 0, 1)),
    ("30 of the initializer", "CA 01 11 0A 01 66 4A 02 10 0D 3A 08 0A 01 77 12 00 22 01 58", 2, (30, 8, 0)),
    ("an input of its name", "CA 01 0A 0A 01 66 4A 02 10 0D 22 01 77", 2, (0, 0, 1)),
];

fn behind_graph() -> impl Iterator<Item = Plan> {
    BEHIND_GRAPH.iter().map(|(name, last, cells, answer)| {
        let last = hex(last);
        let model = filled(MOST - last.len(), Sparse::default()).then(last);
        (format!("functions last in the most bytes: {name}"), model, &L[..], *cells, from_the_end(*answer))
    })
}

/// What stands last in the function `f`, which a doc_string fills.
#[rustfmt::skip]
const IN_FUNCTION: &[GraphRow] = &[
    ("nothing", "", 0, (0, 0, 0)),
    ("1", "22", 2, (1, 1, 0)),
    ("5", "0A 01 67", 2, (5, 3, 0)),
    ("9", "22 81 00", 2, (9, 3, 0)),
    ("42", "32 01 61 32 01 61", 2, (42, 3, 0)),
    ("32", "5A 03 0A 01 61", 2, (32, 5, 0)),
    ("13", "4A 02 10 0D", 2, (13, 4, 0)),
    ("23", "22 01 61 22 01 61", 4, (23, 3, MOST as u64 - 6)),
    ("40", "22 01 61", 1, (40, 3, 0)),
    ("30", "3A 08 0A 01 7A 12 00 22 01 58", 2, (30, 8, 0)),
    ("33", "3A 11 12 00 22 01 58 2A 0A 0A 01 6B A0 01 02 AA 01 01 72", 2, (33, 12, 0)),
    ("a reference", "32 01 72 3A 11 12 00 22 01 58 2A 0A 0A 01 6B A0 01 02 AA 01 01 72", 2, (0, 1, 0)),
    ("35", "2A 01 61", 2, (35, 3, 0)),
];

fn in_function() -> impl Iterator<Item = Plan> {
    IN_FUNCTION.iter().map(|(name, last, cells, answer)| {
        let last = hex(last);
        // M0; tag and length of the function, of the doc_string; name and import
        let left = MOST - 11 - 7 - 6 - 7 - last.len();
        let function = Sparse::new(hex("0A 01 66 4A 02 10 0D")).field(8, Sparse::default().zeros(left)).then(last);
        let model = Sparse::new(hex(M0)).field(25, function);
        (format!("last in a function of the most bytes: {name}"), model, &L[..], *cells, from_the_end(*answer))
    })
}
