//! References in a function's body: 33 and 32 at the attribute. `k` is the attribute that refers, `r` what it refers to. Types and carriers:
//! `values.rs`.

use super::{OfF, WithGraph};

#[rustfmt::skip]
pub const OF_F: &[OfF] = &[
    ("a reference to an attribute", "32 01 72 3A 11 12 00 22 01 58 2A 0A 0A 01 6B A0 01 02 AA 01 01 72", 0, (0, 1, 0)),
    ("a reference to the second attribute", "32 01 61 32 01 72 3A 11 12 00 22 01 58 2A 0A 0A 01 6B A0 01 02 AA 01 01 72", 0, (0, 1, 0)),
    ("a reference to a default", "5A 06 0A 01 72 A0 01 02 3A 11 12 00 22 01 58 2A 0A 0A 01 6B A0 01 02 AA 01 01 72", 0, (0, 1, 0)),
    ("a reference of another type than its default", "5A 06 0A 01 72 A0 01 02 3A 11 12 00 22 01 58 2A 0A 0A 01 6B A0 01 01 AA 01 01 72", 0, (0, 1, 0)),
    ("a reference before its attribute on the wire", "3A 11 12 00 22 01 58 2A 0A 0A 01 6B A0 01 02 AA 01 01 72 32 01 72", 0, (0, 1, 0)),
    ("a reference before its default on the wire", "3A 11 12 00 22 01 58 2A 0A 0A 01 6B A0 01 02 AA 01 01 72 5A 06 0A 01 72 A0 01 02", 0, (0, 1, 0)),
    ("two references to one attribute", "32 01 72 3A 1D 12 00 22 01 58 2A 0A 0A 01 6B A0 01 02 AA 01 01 72 2A 0A 0A 01 6C A0 01 02 AA 01 01 72", 0, (0, 1, 0)),
    ("an attribute of the same name as what it refers to", "32 01 72 3A 11 12 00 22 01 58 2A 0A 0A 01 72 A0 01 02 AA 01 01 72", 0, (0, 1, 0)),
    ("the type of a graph, and no graph", "32 01 72 3A 11 12 00 22 01 58 2A 0A 0A 01 6B A0 01 05 AA 01 01 72", 0, (0, 1, 0)),
    ("33, the function has no attributes", "3A 11 12 00 22 01 58 2A 0A 0A 01 6B A0 01 02 AA 01 01 72", 0, (33, 28, 0)),
    ("33, another attribute", "32 01 61 3A 11 12 00 22 01 58 2A 0A 0A 01 6B A0 01 02 AA 01 01 72", 0, (33, 31, 0)),
    ("33, a longer attribute", "32 02 72 31 3A 11 12 00 22 01 58 2A 0A 0A 01 6B A0 01 02 AA 01 01 72", 0, (33, 32, 0)),
    ("33, a shorter attribute", "32 01 72 3A 12 12 00 22 01 58 2A 0B 0A 01 6B A0 01 02 AA 01 02 72 31", 0, (33, 31, 0)),
    ("33, an input of that name", "22 01 72 3A 11 12 00 22 01 58 2A 0A 0A 01 6B A0 01 02 AA 01 01 72", 2, (33, 31, 0)),
    ("33, the function's own name", "3A 11 12 00 22 01 58 2A 0A 0A 01 6B A0 01 02 AA 01 01 66", 0, (33, 28, 0)),
    ("33, an attribute of its own node", "3A 19 12 00 22 01 58 2A 06 0A 01 72 A0 01 02 2A 0A 0A 01 6B A0 01 02 AA 01 01 72", 0, (33, 36, 0)),
    ("33, bytes that are not UTF-8", "32 01 72 3A 11 12 00 22 01 58 2A 0A 0A 01 6B A0 01 02 AA 01 01 80", 0, (33, 31, 0)),
    ("33 of the second reference", "32 01 72 3A 1D 12 00 22 01 58 2A 0A 0A 01 6B A0 01 02 AA 01 01 72 2A 0A 0A 01 6C A0 01 02 AA 01 01 71", 0, (33, 43, 0)),
    ("an empty ref_attr_name in a body", "3A 12 12 00 22 01 58 2A 0B 0A 01 6B A0 01 02 18 07 AA 01 00", 0, (0, 1, 0)),
    ("32, an empty ref_attr_name and another carrier", "32 01 72 3A 12 12 00 22 01 58 2A 0B 0A 01 6B A0 01 01 18 07 AA 01 00", 0, (32, 31, 0)),
    ("32, a reference of no type", "32 01 72 3A 0E 12 00 22 01 58 2A 07 0A 01 6B AA 01 01 72", 0, (32, 31, 0)),
    ("32, a reference with a value of its own type", "32 01 72 3A 13 12 00 22 01 58 2A 0C 0A 01 6B A0 01 02 18 07 AA 01 01 72", 0, (32, 31, 0)),
    ("32, a reference with a graph, which is not judged", "32 01 72 3A 13 12 00 22 01 58 2A 0C 0A 01 6B A0 01 05 32 00 AA 01 01 72", 0, (32, 31, 0)),
    // The order of the rules.
    ("22 of an attribute before 33", "3A 0B 12 00 22 01 58 2A 04 AA 01 01 72", 0, (22, 28, 0)),
    ("21 of an attribute before 33", "3A 11 12 00 22 01 58 2A 0A 0A 01 80 A0 01 02 AA 01 01 72", 0, (21, 30, 0)),
    ("31 before 33", "32 01 61 3A 19 12 00 22 01 58 2A 06 0A 01 6B A0 01 02 2A 0A 0A 01 6B A0 01 02 AA 01 01 72", 0, (31, 41, 0)),
    ("33 before 32, no type", "3A 0E 12 00 22 01 58 2A 07 0A 01 6B AA 01 01 72", 0, (33, 28, 0)),
    ("33 before 32, a carrier", "3A 13 12 00 22 01 58 2A 0C 0A 01 6B A0 01 02 18 07 AA 01 01 72", 0, (33, 28, 0)),
    ("33 before 34", "3A 0F 22 01 58 2A 0A 0A 01 6B A0 01 02 AA 01 01 72", 0, (33, 26, 0)),
    ("30 before 33", "3A 14 0A 01 7A 12 00 22 01 58 2A 0A 0A 01 6B A0 01 02 AA 01 01 72", 0, (30, 23, 0)),
    // In a nested graph of the body.
    ("a reference in a nested graph", "32 01 72 3A 25 12 00 22 01 58 2A 1E 0A 01 6B A0 01 05 32 16 12 01 67 0A 11 12 00 22 01 58 2A 0A 0A 01 6B A0 01 02 AA 01 01 72", 0, (0, 2, 0)),
    ("a reference in a nested graph to a default", "5A 06 0A 01 72 A0 01 02 3A 25 12 00 22 01 58 2A 1E 0A 01 6B A0 01 05 32 16 12 01 67 0A 11 12 00 22 01 58 2A 0A 0A 01 6B A0 01 02 AA 01 01 72", 0, (0, 2, 0)),
    ("33 in a nested graph", "32 01 61 3A 25 12 00 22 01 58 2A 1E 0A 01 6B A0 01 05 32 16 12 01 67 0A 11 12 00 22 01 58 2A 0A 0A 01 6B A0 01 02 AA 01 01 72", 0, (33, 51, 0)),
    ("32 in a nested graph", "32 01 72 3A 22 12 00 22 01 58 2A 1B 0A 01 6B A0 01 05 32 13 12 01 67 0A 0E 12 00 22 01 58 2A 07 0A 01 6B AA 01 01 72", 0, (32, 51, 0)),
    ("33, the attribute that holds the nested graph", "3A 25 12 00 22 01 58 2A 1E 0A 01 72 A0 01 05 32 16 12 01 67 0A 11 12 00 22 01 58 2A 0A 0A 01 6B A0 01 02 AA 01 01 72", 0, (33, 48, 0)),
];

const F_WITH_R: &str = "0A 01 66 4A 02 10 0D 32 01 72";

/// In a main graph of the name `g` the first function's tag is at 11, and that of one behind `F_WITH_R` at 24.
const G: &str = "12 01 67";

#[rustfmt::skip]
pub const WITH_GRAPH: &[WithGraph] = &[
    ("33 in the main graph, an attribute of a function", "12 01 67 0A 11 12 00 22 01 58 2A 0A 0A 01 6B A0 01 02 AA 01 01 72", &[F_WITH_R], 0, (33, 18, 0)),
    ("33 in a body of the main graph, an attribute of a function", "12 01 67 0A 25 12 00 22 01 58 2A 1E 0A 01 6B A0 01 05 32 16 12 01 67 0A 11 12 00 22 01 58 2A 0A 0A 01 6B A0 01 02 AA 01 01 72", &[F_WITH_R], 0, (33, 38, 0)),
    ("33, an attribute of the function before", G, &[F_WITH_R, "0A 01 67 4A 02 10 0D 3A 11 12 00 22 01 58 2A 0A 0A 01 6B A0 01 02 AA 01 01 72"], 0, (33, 41, 0)),
    ("33, an attribute of the function behind", G, &["0A 01 67 4A 02 10 0D 3A 11 12 00 22 01 58 2A 0A 0A 01 6B A0 01 02 AA 01 01 72", F_WITH_R], 0, (33, 28, 0)),
    ("33, a default of the function before", G, &["0A 01 66 4A 02 10 0D 5A 06 0A 01 72 A0 01 02", "0A 01 67 4A 02 10 0D 3A 11 12 00 22 01 58 2A 0A 0A 01 6B A0 01 02 AA 01 01 72"], 0, (33, 46, 0)),
    ("33 in a nested graph, an attribute of the function before", G, &[F_WITH_R, "0A 01 67 4A 02 10 0D 3A 25 12 00 22 01 58 2A 1E 0A 01 6B A0 01 05 32 16 12 01 67 0A 11 12 00 22 01 58 2A 0A 0A 01 6B A0 01 02 AA 01 01 72"], 0, (33, 61, 0)),
    ("two functions that each refer to their own", G, &["0A 01 66 4A 02 10 0D 32 01 61 3A 11 12 00 22 01 58 2A 0A 0A 01 6B A0 01 02 AA 01 01 61", "0A 01 67 4A 02 10 0D 32 01 72 3A 11 12 00 22 01 58 2A 0A 0A 01 6B A0 01 02 AA 01 01 72"], 0, (0, 2, 0)),
];
