//! Rows worked out by hand from document 01 and the readings of its open points.

use super::{
    accepted, domains, hex, ir_versions, lengths, odd, padded, refused, row, twice, versions, with_odd, Row, M0,
};
use crate::checker::Verdict;
use crate::models::lists::L;

/// A graph behind M0's header, so that its first byte stands at 8. It is under 128 bytes long.
pub(super) fn in_graph(graph: &str) -> Vec<u8> {
    let graph = hex(graph);
    let mut model = hex("08 08 42 02 10 0D 3A");
    model.push(graph.len() as u8);
    model.extend(graph);
    model
}

/// Rows for the places and the order of rules, worked out by hand; each graph begins at 8.
pub fn by_hand() -> Vec<Row> {
    let mut rows = Vec::new();
    for (name, graph, cells, answer) in [GRAPHS, twice::GRAPHS, padded::GRAPHS, padded::PASSING].concat() {
        rows.push(row(name, in_graph(graph), &L, cells, self::answer(answer)));
    }
    for (name, graph, cells, (nodes, names, odd)) in odd::GRAPHS {
        rows.push(row(name, in_graph(graph), &L, *cells, with_odd(*nodes, *names, *odd)));
    }
    for (name, model, number, place) in MODELS.iter().chain(padded::MODELS) {
        rows.push(row(name, hex(model), &L, 9, refused(*number, *place)));
    }
    rows.extend(other_lists());
    rows.extend(versions::versions());
    rows.extend(ir_versions::at_3());
    rows.extend(domains::domains());
    rows.extend(lengths::near());
    rows
}

/// (0, nodes, names), (23, place, first) or (number, place, 0).
pub(super) type Answer = (u64, u64, u64);

pub(super) fn answer(answer: Answer) -> Verdict {
    match answer {
        (0, nodes, names) => accepted(nodes, names),
        (number, place, first) => Verdict::Refused { number, place, first },
    }
}

/// A graph by name, bytes, cells and answer.
pub(super) type GraphRow = (&'static str, &'static str, usize, Answer);

#[rustfmt::skip]
const GRAPHS: &[GraphRow] = &[
    ("20, absent", "", 0, (20, 6, 0)),
    ("20, present and empty", "12 00", 0, (20, 8, 0)),
    ("21 of a graph name", "12 01 80", 0, (21, 8, 0)),
    ("16", "12 01 67 7A 00 7A 00", 0, (16, 11, 0)),
    ("21 of an input", "12 01 67 5A 03 0A 01 FF", 9, (21, 13, 0)),
    ("22, absent", "12 01 67 5A 00", 9, (22, 11, 0)),
    ("22, present and empty", "12 01 67 5A 02 0A 00", 9, (22, 13, 0)),
    ("24, no type", "12 01 67 5A 03 0A 01 61", 2, (24, 11, 0)),
    ("40 before 24", "12 01 67 5A 03 0A 01 61", 1, (40, 13, 0)),
    ("24, no tensor", "12 01 67 5A 05 0A 01 61 12 00", 2, (24, 16, 0)),
    ("5, two members of a type", "12 01 67 5A 09 0A 01 61 12 04 0A 00 22 00", 2, (5, 20, 0)),
    ("25, absent", "12 01 67 5A 07 0A 01 61 12 02 0A 00", 2, (25, 18, 0)),
    ("25, zero", "12 01 67 5A 09 0A 01 61 12 04 0A 02 08 00", 2, (25, 20, 0)),
    ("37", "12 01 67 5A 09 0A 01 61 12 04 0A 02 08 01", 2, (37, 18, 0)),
    ("38", "12 01 67 5A 18 0A 01 61 12 13 0A 11 08 01 12 0D 0A 0B 08 FF FF FF FF FF FF FF FF FF 01", 2, (38, 26, 0)),
    ("21, an empty dim_param", "12 01 67 5A 0F 0A 01 61 12 0A 0A 08 08 01 12 04 0A 02 12 00", 2, (21, 26, 0)),
    ("a dim with neither", "12 01 67 5A 0D 0A 01 61 12 08 0A 06 08 01 12 02 0A 00", 2, (0, 0, 1)),
    ("26, absent", "12 01 67 2A 03 42 01 77", 2, (26, 11, 0)),
    ("40 before 26", "12 01 67 2A 03 42 01 77", 1, (40, 13, 0)),
    ("26, zero", "12 01 67 2A 05 42 01 77 10 00", 2, (26, 16, 0)),
    ("a default, cells full", "12 01 67 5A 0B 0A 01 61 12 06 0A 04 08 01 12 00 2A 05 42 01 61 10 01", 2, (0, 0, 1)),
    ("a default before its input on the wire", "2A 05 42 01 61 10 01 12 01 67 5A 0B 0A 01 61 12 06 0A 04 08 01 12 00", 2, (0, 0, 1)),
    ("a second default", "12 01 67 5A 0B 0A 01 61 12 06 0A 04 08 01 12 00 2A 05 42 01 61 10 01 2A 05 42 01 61 10 01", 2, (23, 33, 13)),
    ("a default with 26", "12 01 67 5A 0B 0A 01 61 12 06 0A 04 08 01 12 00 2A 03 42 01 61", 2, (26, 24, 0)),
    ("27, absent", "12 01 67 0A 03 12 01 61", 2, (27, 11, 0)),
    ("27, present and empty", "12 01 67 0A 05 12 01 61 22 00", 2, (27, 16, 0)),
    ("28, at the domain", "12 01 67 0A 09 12 01 61 22 01 58 3A 01 78", 2, (28, 19, 0)),
    ("ai.onnx is the default domain", "12 01 67 0A 0F 12 01 61 22 01 58 3A 07 61 69 2E 6F 6E 6E 78", 2, (0, 1, 1)),
    ("29", "12 01 67 0A 08 1A 01 6E 12 00 22 01 58 0A 08 1A 01 6E 12 00 22 01 58", 0, (29, 23, 0)),
    ("34", "12 01 67 0A 03 22 01 58", 0, (34, 11, 0)),
    ("one empty output is enough", "12 01 67 0A 05 12 00 22 01 58", 0, (0, 1, 0)),
    ("23 of one output before 21 of the next", "12 01 67 0A 0C 12 01 61 12 01 61 12 01 80 22 01 58", 9, (23, 16, 13)),
    ("w does not serve w1", "12 01 67 0A 06 12 01 77 22 01 58 0A 07 0A 02 77 31 22 01 58", 9, (30, 21, 0)),
    ("w1 does not serve w", "12 01 67 0A 07 12 02 77 31 22 01 58 0A 06 0A 01 77 22 01 58", 9, (30, 22, 0)),
    ("a node before the input that it reads", "0A 09 0A 01 61 12 01 62 22 01 58 12 01 67 5A 0B 0A 01 61 12 06 0A 04 08 01 12 00", 4, (0, 1, 2)),
    ("31", "12 01 67 0A 16 12 01 61 22 01 58 2A 06 0A 01 6B A0 01 02 2A 06 0A 01 6B A0 01 02", 9, (31, 29, 0)),
    ("22 of an attribute", "12 01 67 0A 08 12 01 61 22 01 58 2A 00", 9, (22, 19, 0)),
    ("32, no type", "12 01 67 0A 0B 12 01 61 22 01 58 2A 03 0A 01 6B", 9, (32, 19, 0)),
    ("32, an empty packed carrier of another type", "12 01 67 0A 10 12 01 61 22 01 58 2A 08 0A 01 6B A0 01 02 3A 00", 9, (32, 19, 0)),
    ("33 before 32", "12 01 67 0A 0F 12 01 61 22 01 58 2A 07 0A 01 6B AA 01 01 72", 9, (33, 19, 0)),
    ("an empty ref_attr_name", "12 01 67 0A 11 12 01 61 22 01 58 2A 09 0A 01 6B A0 01 02 AA 01 00", 9, (0, 1, 1)),
    ("35", "12 01 67 62 03 0A 01 62", 9, (35, 13, 0)),
    ("24 of an output", "12 01 67 0A 06 12 01 61 22 01 58 62 03 0A 01 61", 9, (24, 19, 0)),
    // The order of the rules in one message: two or more are broken, the first one is told.
    ("27 before 28", "12 01 67 0A 06 12 01 61 3A 01 78", 9, (27, 11, 0)),
    ("21 of op_type before 28", "12 01 67 0A 09 12 01 61 22 01 C3 3A 01 78", 9, (21, 16, 0)),
    ("28 before 21 of a node name", "12 01 67 0A 0C 12 01 61 22 01 58 3A 01 78 1A 01 80", 9, (28, 19, 0)),
    ("21 of a node name before 30", "12 01 67 0A 0C 0A 01 7A 12 01 61 22 01 58 1A 01 80", 9, (21, 22, 0)),
    ("30 before 22 of an attribute", "12 01 67 0A 0B 0A 01 7A 12 01 61 22 01 58 2A 00", 9, (30, 13, 0)),
    ("22 of an attribute before 34", "12 01 67 0A 05 22 01 58 2A 00", 9, (22, 16, 0)),
    ("31 before 33", "12 01 67 0A 17 12 01 61 22 01 58 2A 06 0A 01 6B A0 01 02 2A 07 0A 01 6B AA 01 01 72", 9, (31, 29, 0)),
    ("21 of a graph name before 16", "12 01 80 7A 00", 9, (21, 8, 0)),
    ("21 of a node input before 30", "12 01 67 0A 09 0A 01 80 12 01 61 22 01 58", 9, (21, 13, 0)),
    ("30 of one input before 21 of the next", "12 01 67 0A 0C 0A 01 7A 0A 01 80 12 01 61 22 01 58", 9, (30, 13, 0)),
    ("21 of a node output before 40", "12 01 67 0A 06 12 01 80 22 01 58", 0, (21, 13, 0)),
    ("21 of an attribute before 31", "12 01 67 0A 16 12 01 61 22 01 58 2A 06 0A 01 80 A0 01 02 2A 06 0A 01 80 A0 01 02", 9, (21, 21, 0)),
    ("21 of an attribute before 33", "12 01 67 0A 0F 12 01 61 22 01 58 2A 07 0A 01 80 AA 01 01 72", 9, (21, 21, 0)),
    ("33 of a reference that is not UTF-8", "12 01 67 0A 12 12 01 61 22 01 58 2A 0A 0A 01 6B A0 01 02 AA 01 01 80", 9, (33, 19, 0)),
    ("21 of a graph output before 35", "12 01 67 62 03 0A 01 80", 9, (21, 13, 0)),
    ("21 of an input before 24", "12 01 67 5A 03 0A 01 80", 0, (21, 13, 0)),
    ("38 of a dim before 21 of the next", "12 01 67 5A 1D 0A 01 61 12 18 0A 16 08 01 12 12 0A 0B 08 FF FF FF FF FF FF FF FF FF 01 0A 03 12 01 80", 2, (38, 26, 0)),
    ("21 of a dim before an empty one", "12 01 67 5A 14 0A 01 61 12 0F 0A 0D 08 01 12 09 0A 03 12 01 80 0A 02 12 00", 2, (21, 26, 0)),
    ("21, a second dim_param that is empty", "12 01 67 5A 14 0A 01 61 12 0F 0A 0D 08 01 12 09 0A 03 12 01 2F 0A 02 12 00", 2, (21, 31, 0)),
    ("16 before inputs", "12 01 67 5A 00 7A 00", 9, (16, 13, 0)),
    ("inputs before initializers", "12 01 67 2A 00 5A 00", 9, (22, 13, 0)),
    ("initializers before nodes", "12 01 67 0A 00 2A 00", 9, (22, 13, 0)),
    ("nodes before outputs", "12 01 67 62 00 0A 00", 9, (27, 13, 0)),
    // A body, its tag at 27, in the node at 11, whose output is `a`. The body's node at 32 reads or binds `a`.
    ("27 before 30", "12 01 67 0A 1A 12 01 61 22 01 58 2A 12 0A 01 6B A0 01 05 32 0A 12 01 67 0A 05 0A 01 61 22 00", 9, (27, 37, 0)),
    ("a body reads its node's output", "12 01 67 0A 1B 12 01 61 22 01 58 2A 13 0A 01 6B A0 01 05 32 0B 12 01 67 0A 06 0A 01 61 22 01 58", 9, (30, 34, 0)),
    ("a body binds its node's output", "12 01 67 0A 1B 12 01 61 22 01 58 2A 13 0A 01 6B A0 01 05 32 0B 12 01 67 0A 06 12 01 61 22 01 58", 2, (0, 2, 1)),
    ("a body lists its node's output", "12 01 67 0A 18 12 01 61 22 01 58 2A 10 0A 01 6B A0 01 05 32 08 12 01 67 62 03 0A 01 61", 9, (35, 34, 0)),
];

/// A whole model that is refused, by name, bytes, number and place.
pub(super) type ModelRow = (&'static str, &'static str, u64, u64);

#[rustfmt::skip]
const MODELS: &[ModelRow] = &[
    ("5 before 1", "08 08 08", 5, 2),
    ("4 before 5", "08 08 0A 00", 4, 2),
    ("a tenth tag byte 81", "88 80 80 80 80 80 80 80 80 81 00", 2, 0),
    ("a tag of 2^32", "80 80 80 80 10 00", 3, 0),
    ("wire type 3 in an unknown field", "13 14", 3, 0),
    ("field 0 with a known wire type", "02 00", 3, 0),
    ("a length of 2^64 - 1", "3A FF FF FF FF FF FF FF FF FF 01", 1, 0),
    ("a length past the graph and inside the model", "3A 02 12 02 08 08 08 08", 1, 2),
    ("10 at ir_version", "42 02 10 0D 08 02 3A 03 12 01 67", 10, 4),
    ("11 before 12", "08 08", 11, 0),
    ("12", "08 08 3A 03 12 01 67", 12, 0),
    ("13 by the other name", "08 08 42 02 10 0D 42 0B 0A 07 61 69 2E 6F 6E 6E 78 10 0D 3A 03 12 01 67", 13, 6),
    ("14 of the first import before 13 of the second", "08 08 42 02 10 06 42 02 10 0D 3A 03 12 01 67", 14, 2),
    ("13 before 14 in one import", "08 08 42 02 10 0D 42 02 10 06 3A 03 12 01 67", 13, 6),
    ("14, no version", "08 08 42 00 3A 03 12 01 67", 14, 2),
    ("14, a domain that the list lacks", "08 08 42 05 0A 01 78 10 0D 3A 03 12 01 67", 14, 2),
];

/// Rows under other lists than L.
fn other_lists() -> Vec<Row> {
    let with_x = hex("00 00 00 0C 01 00 09 78 00 00 00 07 00 00 00 15");
    let imports_x = "08 08 42 05 0A 01 78 10 0D 3A";
    let alias = hex("00 00 00 12 01 00 0F 61 69 2E 6F 6E 6E 78 00 00 00 07 00 00 00 15");
    let twice = hex("00 00 00 15 01 00 08 00 00 00 07 00 00 00 15 00 08 00 00 00 07 00 00 00 15");
    vec![
        row("an empty list", hex(M0), &[], 1, refused(8, 0)),
        row("a list with no entries", hex(M0), &[0, 0, 0, 1, 1], 1, refused(14, 2)),
        row("a list with no version byte", hex(M0), &[0, 0, 0, 0], 1, refused(8, 0)),
        row("a list that names a domain twice", hex(M0), &twice, 1, refused(8, 0)),
        row("a list that says ai.onnx", hex(M0), &alias, 1, accepted(0, 0)),
        row("a list with a byte too many", hex(M0), &[&L[..], &[0]].concat(), 1, refused(8, 0)),
        row("8 before 1", hex("08"), &[], 1, refused(8, 0)),
        row("8 before 9", hex("88 00 08"), &[], 1, refused(8, 0)),
        row(
            "28, no domain: at the node",
            hex(&format!("{imports_x} 0B 12 01 67 0A 06 12 01 61 22 01 58")),
            &with_x,
            1,
            refused(28, 14),
        ),
        row(
            "28, an empty domain: at the domain",
            hex(&format!("{imports_x} 0D 12 01 67 0A 08 12 01 61 22 01 58 3A 00")),
            &with_x,
            1,
            refused(28, 22),
        ),
    ]
}
