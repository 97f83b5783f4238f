//! Rows for IR versions, worked out by hand: which are taken, and what initializers may bear at version 3 and later.

use super::by_hand::{answer, in_graph, Answer};
use super::{accepted, at_depth, hex, holder, refused, row, twice, Row};
use crate::checker::Verdict;
use crate::models::lists::L;
use crate::models::proto::Tree;
use crate::schema::Message;

/// A graph by name, bytes and cells, with its answer at IR version 3, and at 4 and later. It begins at 8. A main input `a` with its type takes
/// 13 bytes, an initializer 7, a body's input 5.
type Graph = (&'static str, &'static str, usize, Answer, Answer);

/// At version 3, where ir_version stands first.
pub fn at_3() -> Vec<Row> {
    GRAPHS.iter().map(|graph| of(graph, 3)).chain(edges()).chain(deepest(3)).collect()
}

/// The same graphs at later versions, and where ir_version comes last.
pub fn ir_versions() -> Vec<Row> {
    let mut rows = Vec::new();
    for version in [4, 10, 11] {
        rows.extend(GRAPHS.iter().map(|graph| of(graph, version)));
        rows.extend(deepest(version));
    }
    for version in [3, 4, 11] {
        rows.extend(GRAPHS.iter().map(|graph| ir_version_last(of(graph, version))));
    }
    rows
}

fn of((name, graph, cells, at_3, later): &Graph, version: u8) -> Row {
    let said = if version == 3 { at_3 } else { later };
    row(&format!("{name}, IR {version}"), at(version, in_graph(graph)), &L, *cells, answer(*said))
}

/// The model, whose ir_version comes first in two bytes, at another version.
fn at(version: u8, mut model: Vec<u8>) -> Vec<u8> {
    model[1] = version;
    model
}

/// ir_version behind the graph: all places are two less.
fn ir_version_last(mut row: Row) -> Row {
    row.model.rotate_left(2);
    row.name.push_str(", ir_version last");
    row.answer = match row.answer {
        Verdict::Refused { number: 23, place, first } => twice(place - 2, first - 2),
        Verdict::Refused { number, place, .. } => refused(number, place - 2),
        accepted => accepted,
    };
    row
}

/// Versions at the edges as they stand on the wire, and the number that they are refused with, 0 for none.
#[rustfmt::skip]
const EDGES: &[(&str, u64)] = &[
    ("03", 0), ("04", 0), ("0A", 0), ("0B", 0),
    ("00", 10), ("01", 10), ("02", 10), ("0C", 10), ("7F", 10),
    ("83 01", 10), // 2^7 + 3
    ("83 80 80 80 10", 10), // 2^32 + 3
    ("8B 80 80 80 10", 10), // 2^32 + 11
    ("83 80 80 80 80 80 80 80 80 01", 10), // 2^63 + 3
    ("FF FF FF FF FF FF FF FF FF 01", 10), // -1
    ("83 00", 9), ("8B 80 00", 9), ("83 80 80 80 80 80 80 80 80 00", 9),
    ("83 80 80 80 80 80 80 80 80 02", 2),
];

/// M0 with each of them, before the graph and behind it, and with none.
fn edges() -> Vec<Row> {
    let m0 = hex("42 02 10 0D 3A 03 12 01 67");
    let mut rows = vec![row("no ir_version", m0.clone(), &L, 0, refused(10, 0))];
    for (version, number) in EDGES {
        let field = hex(&format!("08 {version}"));
        let answer = |place: usize| if *number == 0 { accepted(0, 0) } else { refused(*number, place as u64) };
        rows.push(row(&format!("ir_version {version}"), [&field[..], &m0].concat(), &L, 0, answer(0)));
        let last = [&m0[..], &field].concat();
        rows.push(row(&format!("ir_version {version}, last"), last, &L, 0, answer(m0.len())));
    }
    rows
}

/// A graph at depth 8 with an input `i`, in one with an input `h`, and an initializer of either name or of another.
fn deepest(version: u8) -> Vec<Row> {
    let graph =
        |input: &str| Tree::new(Message::Graph).text(2, "g").tree(11, Tree::new(Message::ValueInfo).text(1, input));
    let of = |name: &str, answer: fn(u64, u64) -> Verdict| {
        let eighth = graph("i").tree(5, Tree::new(Message::Tensor).text(8, name).number(2, 1));
        let model = at(version, at_depth(7, graph("h").tree(1, holder(eighth))));
        let place =
            |tag: u8| model.windows(3).position(|field| field == [tag, 1, name.as_bytes()[0]]).unwrap_or(0) as u64;
        let answer = answer(place(0x42), place(0x0A));
        row(&format!("an initializer {name} at depth 8, IR {version}"), model, &L, 6, answer)
    };
    match version {
        3 => vec![of("i", |_, _| accepted(7, 2)), of("h", |at, _| refused(43, at)), of("w", |at, _| refused(43, at))],
        _ => vec![of("i", twice), of("h", twice), of("w", |_, _| accepted(7, 3))],
    }
}

#[rustfmt::skip]
const GRAPHS: &[Graph] = &[
    // The main graph.
    ("an initializer and no input", "12 01 67 2A 05 42 01 77 10 01", 2, (43, 13, 0), (0, 0, 1)),
    ("an initializer that bears no input's name", "12 01 67 5A 0B 0A 01 61 12 06 0A 04 08 01 12 00 2A 05 42 01 77 10 01", 4, (43, 26, 0), (0, 0, 2)),
    ("one behind a default", "12 01 67 5A 0B 0A 01 61 12 06 0A 04 08 01 12 00 2A 05 42 01 61 10 01 2A 05 42 01 77 10 01", 4, (43, 33, 0), (0, 0, 2)),
    ("one before a default", "12 01 67 2A 05 42 01 77 10 01 2A 05 42 01 61 10 01 5A 0B 0A 01 61 12 06 0A 04 08 01 12 00", 4, (43, 13, 0), (0, 0, 2)),
    ("a default", "12 01 67 5A 0B 0A 01 61 12 06 0A 04 08 01 12 00 2A 05 42 01 61 10 01", 2, (0, 0, 1), (0, 0, 1)),
    ("two defaults, behind each other's input", "12 01 67 5A 0B 0A 01 61 12 06 0A 04 08 01 12 00 5A 0B 0A 01 62 12 06 0A 04 08 01 12 00 2A 05 42 01 62 10 01 2A 05 42 01 61 10 01", 4, (0, 0, 2), (0, 0, 2)),
    ("a second default", "12 01 67 5A 0B 0A 01 61 12 06 0A 04 08 01 12 00 2A 05 42 01 61 10 01 2A 05 42 01 61 10 01", 2, (23, 33, 13), (23, 33, 13)),
    ("a second default behind another's", "12 01 67 5A 0B 0A 01 61 12 06 0A 04 08 01 12 00 5A 0B 0A 01 62 12 06 0A 04 08 01 12 00 2A 05 42 01 61 10 01 2A 05 42 01 62 10 01 2A 05 42 01 61 10 01", 4, (23, 53, 13), (23, 53, 13)),
    ("w is no default of w1", "12 01 67 5A 0C 0A 02 77 31 12 06 0A 04 08 01 12 00 2A 05 42 01 77 10 01", 4, (43, 27, 0), (0, 0, 2)),
    ("w1 is no default of w", "12 01 67 5A 0B 0A 01 77 12 06 0A 04 08 01 12 00 2A 06 42 02 77 31 10 01", 4, (43, 26, 0), (0, 0, 2)),
    ("a node's output is no input", "12 01 67 0A 06 12 01 77 22 01 58 2A 05 42 01 77 10 01", 2, (43, 21, 0), (23, 13, 21)),
    ("nor is what a node reads", "12 01 67 2A 05 42 01 77 10 01 0A 08 0A 01 77 12 00 22 01 58", 2, (43, 13, 0), (0, 1, 1)),
    ("nor is a graph's output", "12 01 67 2A 05 42 01 77 10 01 62 0B 0A 01 77 12 06 0A 04 08 01 12 00", 2, (43, 13, 0), (0, 0, 1)),
    ("nor is a value_info", "12 01 67 6A 03 0A 01 77 2A 05 42 01 77 10 01", 2, (43, 18, 0), (0, 0, 1)),
    ("nor is a node's name", "12 01 67 0A 08 12 00 22 01 58 1A 01 77 2A 05 42 01 77 10 01", 2, (43, 23, 0), (0, 1, 1)),
    // The order of the rules.
    ("22 before 43", "12 01 67 2A 02 10 01", 2, (22, 11, 0), (22, 11, 0)),
    ("22 before 43, present and empty", "12 01 67 2A 04 42 00 10 01", 2, (22, 13, 0), (22, 13, 0)),
    ("21 before 43", "12 01 67 2A 05 42 01 80 10 01", 2, (21, 13, 0), (21, 13, 0)),
    ("43 before 23", "12 01 67 2A 05 42 01 77 10 01 2A 05 42 01 77 10 01", 2, (43, 13, 0), (23, 20, 13)),
    ("43 before 40", "12 01 67 5A 0B 0A 01 61 12 06 0A 04 08 01 12 00 2A 05 42 01 77 10 01", 3, (43, 26, 0), (40, 26, 0)),
    ("43 before 40, no cells", "12 01 67 2A 05 42 01 77 10 01", 0, (43, 13, 0), (40, 13, 0)),
    ("43 before 26", "12 01 67 2A 03 42 01 77", 2, (43, 13, 0), (26, 11, 0)),
    ("26 of a default", "12 01 67 5A 0B 0A 01 61 12 06 0A 04 08 01 12 00 2A 03 42 01 61", 2, (26, 24, 0), (26, 24, 0)),
    ("26 of a default before 43 of the next", "12 01 67 5A 0B 0A 01 61 12 06 0A 04 08 01 12 00 2A 03 42 01 61 2A 05 42 01 77 10 01", 4, (26, 24, 0), (26, 24, 0)),
    ("43 of one before 22 of the next", "12 01 67 2A 05 42 01 77 10 01 2A 00", 2, (43, 13, 0), (22, 18, 0)),
    ("43 of one before 23 of the next", "12 01 67 5A 0B 0A 01 61 12 06 0A 04 08 01 12 00 2A 05 42 01 61 10 01 2A 05 42 01 77 10 01 2A 05 42 01 61 10 01", 4, (43, 33, 0), (23, 40, 13)),
    ("23 of one before 43 of the next", "12 01 67 5A 0B 0A 01 61 12 06 0A 04 08 01 12 00 2A 05 42 01 61 10 01 2A 05 42 01 61 10 01 2A 05 42 01 77 10 01", 4, (23, 33, 13), (23, 33, 13)),
    ("40 of an input before 43", "12 01 67 2A 05 42 01 77 10 01 5A 0B 0A 01 61 12 06 0A 04 08 01 12 00", 1, (40, 20, 0), (40, 20, 0)),
    ("24 of an input before 43", "12 01 67 2A 05 42 01 61 10 01 5A 03 0A 01 62", 4, (24, 18, 0), (24, 18, 0)),
    ("16 before 43", "12 01 67 2A 05 42 01 77 10 01 7A 00", 2, (16, 18, 0), (16, 18, 0)),
    ("43 before 27", "12 01 67 0A 03 12 01 61 2A 05 42 01 77 10 01", 4, (43, 18, 0), (27, 11, 0)),
    // A body, whose first field behind its name is at 31.
    ("a body's initializer", "12 01 67 0A 19 12 00 22 01 58 2A 12 0A 01 6B A0 01 05 32 0A 12 01 68 2A 05 42 01 77 10 01", 2, (43, 33, 0), (0, 1, 1)),
    ("a body's default", "12 01 67 0A 1E 12 00 22 01 58 2A 17 0A 01 6B A0 01 05 32 0F 12 01 68 5A 03 0A 01 69 2A 05 42 01 69 10 01", 2, (0, 1, 1), (23, 38, 33)),
    ("a body's default before its input on the wire", "12 01 67 0A 1E 12 00 22 01 58 2A 17 0A 01 6B A0 01 05 32 0F 12 01 68 2A 05 42 01 69 10 01 5A 03 0A 01 69", 2, (0, 1, 1), (23, 33, 40)),
    ("a body's second default", "12 01 67 0A 25 12 00 22 01 58 2A 1E 0A 01 6B A0 01 05 32 16 12 01 68 5A 03 0A 01 69 2A 05 42 01 69 10 01 2A 05 42 01 69 10 01", 2, (23, 45, 33), (23, 38, 33)),
    ("a body's second default behind another's", "12 01 67 0A 31 12 00 22 01 58 2A 2A 0A 01 6B A0 01 05 32 22 12 01 68 5A 03 0A 01 69 5A 03 0A 01 6A 2A 05 42 01 69 10 01 2A 05 42 01 6A 10 01 2A 05 42 01 69 10 01", 4, (23, 57, 33), (23, 43, 33)),
    ("two defaults of a body", "12 01 67 0A 2A 12 00 22 01 58 2A 23 0A 01 6B A0 01 05 32 1B 12 01 68 5A 03 0A 01 69 5A 03 0A 01 6A 2A 05 42 01 6A 10 01 2A 05 42 01 69 10 01", 4, (0, 1, 2), (23, 43, 38)),
    ("a body's initializer behind its default", "12 01 67 0A 25 12 00 22 01 58 2A 1E 0A 01 6B A0 01 05 32 16 12 01 68 5A 03 0A 01 69 2A 05 42 01 69 10 01 2A 05 42 01 77 10 01", 4, (43, 45, 0), (23, 38, 33)),
    ("w1 is no default of a body's w", "12 01 67 0A 1F 12 00 22 01 58 2A 18 0A 01 6B A0 01 05 32 10 12 01 68 5A 03 0A 01 77 2A 06 42 02 77 31 10 01", 4, (43, 38, 0), (0, 1, 2)),
    ("a body's default is read and is its output", "12 01 67 0A 2D 12 00 22 01 58 2A 26 0A 01 6B A0 01 05 32 1E 12 01 68 5A 03 0A 01 69 2A 05 42 01 69 10 01 0A 08 0A 01 69 12 00 22 01 58 62 03 0A 01 69", 2, (0, 2, 1), (23, 38, 33)),
    ("a body's default and a node that binds its name", "12 01 67 0A 26 12 00 22 01 58 2A 1F 0A 01 6B A0 01 05 32 17 12 01 68 5A 03 0A 01 69 2A 05 42 01 69 10 01 0A 06 12 01 69 22 01 58", 2, (23, 45, 33), (23, 38, 33)),
    ("a body's output is no input", "12 01 67 0A 1E 12 00 22 01 58 2A 17 0A 01 6B A0 01 05 32 0F 12 01 68 2A 05 42 01 77 10 01 62 03 0A 01 77", 2, (43, 33, 0), (0, 1, 1)),
    // A body sees what is around it, but has no default for it.
    ("a main input", "12 01 67 5A 0B 0A 01 61 12 06 0A 04 08 01 12 00 0A 19 12 00 22 01 58 2A 12 0A 01 6B A0 01 05 32 0A 12 01 68 2A 05 42 01 61 10 01", 2, (43, 46, 0), (23, 46, 13)),
    ("a main input that has a default", "12 01 67 5A 0B 0A 01 61 12 06 0A 04 08 01 12 00 2A 05 42 01 61 10 01 0A 19 12 00 22 01 58 2A 12 0A 01 6B A0 01 05 32 0A 12 01 68 2A 05 42 01 61 10 01", 2, (43, 53, 0), (23, 53, 13)),
    ("what a node before it bound", "12 01 67 0A 06 12 01 61 22 01 58 0A 19 12 00 22 01 58 2A 12 0A 01 6B A0 01 05 32 0A 12 01 68 2A 05 42 01 61 10 01", 2, (43, 41, 0), (23, 41, 13)),
    ("a main input, behind a default of its own", "12 01 67 5A 0B 0A 01 61 12 06 0A 04 08 01 12 00 0A 25 12 00 22 01 58 2A 1E 0A 01 6B A0 01 05 32 16 12 01 68 5A 03 0A 01 69 2A 05 42 01 69 10 01 2A 05 42 01 61 10 01", 4, (43, 58, 0), (23, 51, 46)),
    ("a main input that is the body's as well", "12 01 67 5A 0B 0A 01 61 12 06 0A 04 08 01 12 00 0A 1E 12 00 22 01 58 2A 17 0A 01 6B A0 01 05 32 0F 12 01 68 5A 03 0A 01 61 2A 05 42 01 61 10 01", 2, (23, 46, 13), (23, 46, 13)),
    ("what its own node binds", "12 01 67 0A 1A 12 01 61 22 01 58 2A 12 0A 01 6B A0 01 05 32 0A 12 01 68 2A 05 42 01 61 10 01", 2, (43, 34, 0), (0, 1, 1)),
    ("the input of the body around it", "12 01 67 0A 32 12 00 22 01 58 2A 2B 0A 01 6B A0 01 05 32 23 12 01 68 5A 03 0A 01 69 0A 19 12 00 22 01 58 2A 12 0A 01 6B A0 01 05 32 0A 12 01 68 2A 05 42 01 69 10 01", 2, (43, 58, 0), (23, 58, 33)),
    ("a body in a body with a default", "12 01 67 0A 37 12 00 22 01 58 2A 30 0A 01 6B A0 01 05 32 28 12 01 68 5A 03 0A 01 69 0A 1E 12 00 22 01 58 2A 17 0A 01 6B A0 01 05 32 0F 12 01 68 5A 03 0A 01 6A 2A 05 42 01 6A 10 01", 4, (0, 2, 2), (23, 63, 58)),
    ("a default in both", "12 01 67 0A 3E 12 00 22 01 58 2A 37 0A 01 6B A0 01 05 32 2F 12 01 68 5A 03 0A 01 69 2A 05 42 01 69 10 01 0A 1E 12 00 22 01 58 2A 17 0A 01 6B A0 01 05 32 0F 12 01 68 5A 03 0A 01 6A 2A 05 42 01 6A 10 01", 4, (0, 2, 2), (23, 38, 33)),
    ("a default in both, the inner one first on the wire", "12 01 67 0A 3E 12 00 22 01 58 2A 37 0A 01 6B A0 01 05 32 2F 12 01 68 0A 1E 12 00 22 01 58 2A 17 0A 01 6B A0 01 05 32 0F 12 01 68 5A 03 0A 01 6A 2A 05 42 01 6A 10 01 5A 03 0A 01 69 2A 05 42 01 69 10 01", 4, (0, 2, 2), (23, 70, 65)),
    // What a body bound has vanished when it ends.
    ("siblings that each have a default", "12 01 67 0A 37 12 00 22 01 58 2A 17 0A 01 6B A0 01 05 32 0F 12 01 68 5A 03 0A 01 69 2A 05 42 01 69 10 01 2A 17 0A 01 6C A0 01 05 32 0F 12 01 68 5A 03 0A 01 69 2A 05 42 01 69 10 01", 2, (0, 1, 1), (23, 38, 33)),
    ("a default of a sibling's input", "12 01 67 0A 2B 12 00 22 01 58 2A 10 0A 01 6B A0 01 05 32 08 12 01 68 5A 03 0A 01 69 2A 12 0A 01 6C A0 01 05 32 0A 12 01 68 2A 05 42 01 69 10 01", 2, (43, 51, 0), (0, 1, 1)),
    ("a default again in a sibling, twice", "12 01 67 0A 3E 12 00 22 01 58 2A 17 0A 01 6B A0 01 05 32 0F 12 01 68 5A 03 0A 01 69 2A 05 42 01 69 10 01 2A 1E 0A 01 6C A0 01 05 32 16 12 01 68 5A 03 0A 01 69 2A 05 42 01 69 10 01 2A 05 42 01 69 10 01", 2, (23, 70, 58), (23, 38, 33)),
    ("bodies of two nodes that each have a default", "12 01 67 0A 1E 12 00 22 01 58 2A 17 0A 01 6B A0 01 05 32 0F 12 01 68 5A 03 0A 01 69 2A 05 42 01 69 10 01 0A 1E 12 00 22 01 58 2A 17 0A 01 6B A0 01 05 32 0F 12 01 68 5A 03 0A 01 69 2A 05 42 01 69 10 01", 2, (0, 2, 1), (23, 38, 33)),
    ("a name that a body has a default for, bound behind it", "12 01 67 0A 1E 12 00 22 01 58 2A 17 0A 01 6B A0 01 05 32 0F 12 01 68 5A 03 0A 01 69 2A 05 42 01 69 10 01 0A 06 12 01 69 22 01 58", 2, (0, 2, 1), (23, 38, 33)),
    ("a name that a body has a default for, bound behind it twice", "12 01 67 0A 1E 12 00 22 01 58 2A 17 0A 01 6B A0 01 05 32 0F 12 01 68 5A 03 0A 01 69 2A 05 42 01 69 10 01 0A 06 12 01 69 22 01 58 0A 06 12 01 69 22 01 58", 2, (23, 53, 45), (23, 38, 33)),
    // The order of the rules, and full cells.
    ("22 of a body's initializer before 43", "12 01 67 0A 16 12 00 22 01 58 2A 0F 0A 01 6B A0 01 05 32 07 12 01 68 2A 02 10 01", 2, (22, 31, 0), (22, 31, 0)),
    ("21 of a body's initializer before 43", "12 01 67 0A 19 12 00 22 01 58 2A 12 0A 01 6B A0 01 05 32 0A 12 01 68 2A 05 42 01 80 10 01", 2, (21, 33, 0), (21, 33, 0)),
    ("43 in a body before 26", "12 01 67 0A 17 12 00 22 01 58 2A 10 0A 01 6B A0 01 05 32 08 12 01 68 2A 03 42 01 77", 2, (43, 33, 0), (26, 31, 0)),
    ("43 in a body before 40", "12 01 67 0A 19 12 00 22 01 58 2A 12 0A 01 6B A0 01 05 32 0A 12 01 68 2A 05 42 01 77 10 01", 1, (43, 33, 0), (40, 33, 0)),
    ("26 of a body's default", "12 01 67 0A 1C 12 00 22 01 58 2A 15 0A 01 6B A0 01 05 32 0D 12 01 68 5A 03 0A 01 69 2A 03 42 01 69", 2, (26, 36, 0), (23, 38, 33)),
    ("23 of a body's input before 43", "12 01 67 5A 0B 0A 01 61 12 06 0A 04 08 01 12 00 0A 1E 12 00 22 01 58 2A 17 0A 01 6B A0 01 05 32 0F 12 01 68 5A 03 0A 01 61 2A 05 42 01 77 10 01", 2, (23, 46, 13), (23, 46, 13)),
    ("40 of a body's input before 43", "12 01 67 5A 0B 0A 01 61 12 06 0A 04 08 01 12 00 0A 1E 12 00 22 01 58 2A 17 0A 01 6B A0 01 05 32 0F 12 01 68 5A 03 0A 01 69 2A 05 42 01 77 10 01", 3, (40, 46, 0), (40, 46, 0)),
    ("a body's default, cells full", "12 01 67 5A 0B 0A 01 61 12 06 0A 04 08 01 12 00 2A 05 42 01 61 10 01 0A 1E 12 00 22 01 58 2A 17 0A 01 6B A0 01 05 32 0F 12 01 68 5A 03 0A 01 69 2A 05 42 01 69 10 01", 4, (0, 1, 2), (23, 58, 53)),
    ("a body's default, a cell too few for its input", "12 01 67 5A 0B 0A 01 61 12 06 0A 04 08 01 12 00 0A 1E 12 00 22 01 58 2A 17 0A 01 6B A0 01 05 32 0F 12 01 68 5A 03 0A 01 69 2A 05 42 01 69 10 01", 3, (40, 46, 0), (40, 46, 0)),
    ("a body's default, and a node that finds no cell", "12 01 67 0A 26 12 00 22 01 58 2A 1F 0A 01 6B A0 01 05 32 17 12 01 68 5A 03 0A 01 69 2A 05 42 01 69 10 01 0A 06 12 01 6A 22 01 58", 3, (40, 45, 0), (23, 38, 33)),
    ("a body's 43 before 30 behind it", "12 01 67 0A 23 12 00 22 01 58 2A 1C 0A 01 6B A0 01 05 32 14 12 01 68 0A 08 0A 01 7A 12 00 22 01 58 2A 05 42 01 77 10 01", 2, (43, 43, 0), (30, 33, 0)),
];
