//! Rows with long names and with many, worked out by hand: a name's length takes one byte on the wire up to 127, two up to 16,383, three
//! up to 2,097,151, and a message's likewise.

use super::large::model;
use super::{accepted, hex, refused, row, twice, with_odd, Row, M0};
use crate::checker::Verdict;
use crate::models::lists::L;
use crate::models::sparse::Sparse;

pub fn wide() -> Vec<Row> {
    let mut rows: Vec<Row> = NODES.iter().map(|(lengths, place, first)| of_nodes(lengths, *place, *first)).collect();
    rows.extend(DEFAULTS.iter().map(of_defaults));
    rows.extend(LENGTHS.iter().flat_map(|(length, place)| of_texts(*length, *place)));
    rows.extend((0..MANY).map(one_of_many));
    rows.extend(FUNCTIONS.iter().flat_map(of_functions));
    rows.extend(the_programs());
    rows
}

/// Nodes that each bind a name of so many equal letters, and the answer 23: the last one's place and the first definition's.
#[rustfmt::skip]
const NODES: &[(&[usize], u64, u64)] = &[
    (&[1, 1], 21, 13),
    (&[127, 127], 150, 15),
    (&[128, 128], 152, 15),
    (&[127, 128, 127], 287, 15),
    (&[127, 128, 128], 287, 150),
    (&[16_383, 16_383], 16_410, 17),
    (&[16_384, 16_384], 16_412, 17),
    (&[16_383, 16_384, 16_383], 32_805, 17),
    (&[16_383, 16_384, 16_384], 32_805, 16_410),
    (&[2_097_151, 2_097_151], 2_097_182, 19),
    (&[2_097_152, 2_097_152], 2_097_184, 19),
];

fn of_nodes(lengths: &[usize], place: u64, first: u64) -> Row {
    let graph = lengths.iter().fold(named(), |graph, length| graph.field(1, binding("n".repeat(*length))));
    let name = format!("outputs of {lengths:?} bytes");
    row(&name, model(graph).build(), &L, 2 * (lengths.len() - 1), twice(place, first))
}

/// Lengths of a name, with its place as the output of the first node.
const LENGTHS: [(usize, u64); 6] = [(4, 13), (127, 15), (128, 15), (129, 15), (16_383, 17), (16_384, 17)];

/// Names of so many bytes, all of one kind of character, and others with a last byte that makes them odd or no UTF-8. A node binds
/// the name and the next one reads it.
fn of_texts(length: usize, place: u64) -> Vec<Row> {
    let mut rows = Vec::new();
    for (unit, odd) in [("n", 0), ("/", 2), ("é", 2), ("€", 2), ("\u{10ffff}", 2)] {
        let filled = |bytes: usize| ["n".repeat(bytes % unit.len()), unit.repeat(bytes / unit.len())].concat();
        let with_last = |byte: u8| [filled(length - 1).as_bytes(), &[byte]].concat();
        let of = |name: &[u8], answer: Verdict| {
            let reading = Sparse::default().field(1, Sparse::new(name)).then(hex("12 00 22 01 58"));
            let graph = named().field(1, binding(name)).field(1, reading);
            row(&format!("{length} bytes of {unit}"), model(graph).build(), &L, 2, answer)
        };
        rows.push(of(filled(length).as_bytes(), with_odd(2, 1, odd)));
        rows.push(of(&with_last(b'-'), with_odd(2, 1, 2)));
        rows.push(of(&with_last(0xC3), refused(21, place)));
    }
    rows
}

fn named() -> Sparse {
    Sparse::new(hex("12 01 67"))
}

fn binding(name: impl Into<Vec<u8>>) -> Sparse {
    Sparse::default().field(2, Sparse::new(name)).then(hex("22 01 58"))
}

fn tensor(name: &str) -> Sparse {
    Sparse::default().field(8, Sparse::new(name)).then(hex("10 01"))
}

/// An input of so many bytes and two defaults, which stand behind it or before it on the wire; both places of 23.
#[rustfmt::skip]
const DEFAULTS: &[(usize, bool, u64, u64)] = &[
    (128, true, 293, 15),
    (128, false, 151, 287),
    (16_384, true, 32_811, 17),
    (16_384, false, 16_411, 32_805),
];

fn of_defaults((length, behind, place, first): &(usize, bool, u64, u64)) -> Row {
    let name = "n".repeat(*length);
    let input = || Sparse::default().field(1, Sparse::new(&name[..])).then(hex("12 06 0A 04 08 01 12 00"));
    let defaults = |graph: Sparse| graph.field(5, tensor(&name)).field(5, tensor(&name));
    let graph = if *behind { defaults(named().field(11, input())) } else { defaults(named()).field(11, input()) };
    row(&format!("two defaults of {length} bytes"), model(graph).build(), &L, 2, twice(*place, *first))
}

/// A length, and behind M0 the places of two fields with such names, in a function behind its name and import, and of the second of two
/// functions with such a name.
const FUNCTIONS: &[(usize, u64, u64, u64)] =
    &[(127, 22, 151, 148), (128, 22, 153, 150), (16_383, 23, 16_409, 16_406), (16_384, 23, 16_411, 16_408)];

fn of_functions((length, first, second, next): &(usize, u64, u64, u64)) -> Vec<Row> {
    let name = || Sparse::new("n".repeat(*length));
    let import = || hex("4A 02 10 0D");
    let with_twice = |number: u32| {
        let f = Sparse::new(hex("0A 01 66")).then(import()).field(number, name()).field(number, name());
        Sparse::new(hex(M0)).field(25, f).build()
    };
    let named = |model: Sparse| model.field(25, Sparse::default().field(1, name()).then(import()));
    let of =
        |what: &str, model: Vec<u8>, answer: Verdict| row(&format!("{what} of {length} bytes"), model, &L, 2, answer);
    vec![
        of("two inputs of a function", with_twice(4), twice(*second, *first)),
        of("two attributes of a function", with_twice(6), refused(42, *second)),
        of("outputs of a function", with_twice(5), refused(35, *first)),
        of("two functions with names", named(named(Sparse::new(hex(M0)))).build(), refused(41, *next)),
        of("a function with a name", named(Sparse::new(hex(M0))).build(), accepted(0, 0)),
    ]
}

const MANY: usize = 40;

/// Nodes of ten bytes from 12 on bind `t00` to `t39`, and the last one binds one of them again.
fn one_of_many(at: usize) -> Row {
    let name = |at: usize| format!("t{at:02}");
    let graph = (0..MANY).fold(named(), |graph, other| graph.field(1, binding(name(other))));
    let model = model(graph.field(1, binding(name(at)))).build();
    row(&format!("the name {at} of {MANY} again"), model, &L, 80, twice(414, 14 + 10 * at as u64))
}

/// Initializers of eleven bytes from 13 on: `w0000` and so on, then those of `last`.
fn initializers(count: usize, last: &[&str]) -> Vec<u8> {
    let graph = (0..count).fold(named(), |graph, at| graph.field(5, tensor(&format!("w{at:04}"))));
    model(last.iter().fold(graph, |graph, name| graph.field(5, tensor(name)))).build()
}

/// Around the 4,096 cells of the program, which hold 2,048 names.
fn the_programs() -> Vec<Row> {
    let of = |name: &str, model: Vec<u8>, cells: usize, answer: Verdict| row(name, model, &L, cells, answer);
    vec![
        of("2,048 names, a cell too few", initializers(2_048, &[]), 4_095, refused(40, 22_532)),
        of("2,048 names", initializers(2_048, &[]), 4_096, accepted(0, 2_048)),
        of("2,049 names, two cells too few", initializers(2_049, &[]), 4_096, refused(40, 22_543)),
        of("2,049 names, a cell too few", initializers(2_049, &[]), 4_097, refused(40, 22_543)),
        of("2,049 names", initializers(2_049, &[]), 4_098, accepted(0, 2_049)),
        of("2,048 names and the first again", initializers(2_048, &["w0000"]), 4_096, twice(22_543, 15)),
        of("2,048 names and the last again", initializers(2_048, &["w2047"]), 4_096, twice(22_543, 22_532)),
    ]
}
