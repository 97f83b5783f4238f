//! Bodies of functions: inputs (22, 21, 23, 40), nodes (29 within the function), outputs (22, 21, 35), and what is visible to them.

use super::{Functions, OfF, WithGraph};

#[rustfmt::skip]
pub const OF_F: &[OfF] = &[
    ("a function with no nodes", "", 0, (0, 0, 0)),
    ("a function with no nodes, its input is its output", "22 01 61 2A 01 61", 2, (0, 0, 1)),
    ("a function with a node", "22 01 61 3A 09 0A 01 61 12 01 62 22 01 58 2A 01 62", 4, (0, 1, 2)),
    ("outputs, nodes and inputs in this order on the wire", "2A 01 62 3A 09 0A 01 61 12 01 62 22 01 58 22 01 61", 4, (0, 1, 2)),
    ("an output listed twice", "22 01 61 2A 01 61 2A 01 61", 2, (0, 0, 1)),
    // Inputs.
    ("22 of a function's input", "22 00", 9, (22, 21, 0)),
    ("22 of the second input", "22 01 61 22 00", 9, (22, 24, 0)),
    ("21 of a function's input", "22 01 80", 9, (21, 21, 0)),
    ("23, two inputs", "22 01 61 22 01 61", 9, (23, 24, 21)),
    ("23, two inputs, another between", "22 01 61 22 01 62 22 01 61", 9, (23, 27, 21)),
    ("40 of an input", "22 01 61", 1, (40, 21, 0)),
    ("40 of the second input", "22 01 61 22 01 62", 3, (40, 24, 0)),
    ("22 of an input before 40", "22 00", 0, (22, 21, 0)),
    ("21 of an input before 40", "22 01 80", 0, (21, 21, 0)),
    ("23 of an input before 40", "22 01 61 22 01 61", 2, (23, 24, 21)),
    ("40 of one input before 22 of the next", "22 01 61 22 00", 0, (40, 21, 0)),
    ("inputs before nodes before them", "3A 00 22 00", 9, (22, 23, 0)),
    ("inputs before outputs before them", "2A 00 22 00", 9, (22, 23, 0)),
    // Nodes.
    ("27 in a function", "3A 03 12 01 61", 9, (27, 21, 0)),
    ("27 in a function, present and empty", "3A 05 12 01 61 22 00", 9, (27, 26, 0)),
    ("21 of an op_type in a function", "3A 05 12 00 22 01 80", 9, (21, 25, 0)),
    ("21 of a node's name in a function", "3A 08 12 00 22 01 58 1A 01 80", 9, (21, 28, 0)),
    ("29 in a function", "3A 08 1A 01 6E 12 00 22 01 58 3A 08 1A 01 6E 12 00 22 01 58", 0, (29, 33, 0)),
    ("29 in a function, an unnamed node between", "3A 08 1A 01 6E 12 00 22 01 58 3A 05 12 00 22 01 58 3A 08 1A 01 6E 12 00 22 01 58", 0, (29, 40, 0)),
    ("a node and one in its body", "3A 1F 1A 01 6E 12 00 22 01 58 2A 15 0A 01 6B A0 01 05 32 0D 12 01 67 0A 08 1A 01 6E 12 00 22 01 58", 0, (0, 2, 0)),
    ("28 before 29", "3A 08 1A 01 6E 12 00 22 01 58 3A 0B 1A 01 6E 12 00 22 01 58 3A 01 78", 0, (28, 41, 0)),
    ("29 before 30", "3A 08 1A 01 6E 12 00 22 01 58 3A 0B 0A 01 7A 1A 01 6E 12 00 22 01 58", 0, (29, 36, 0)),
    ("21 of a node's input in a function", "3A 08 0A 01 80 12 00 22 01 58", 9, (21, 23, 0)),
    ("30 in a function", "3A 08 0A 01 7A 12 00 22 01 58", 9, (30, 23, 0)),
    ("30 of its own output", "3A 09 0A 01 61 12 01 61 22 01 58", 9, (30, 23, 0)),
    ("30 of the next node's output", "3A 08 0A 01 61 12 00 22 01 58 3A 06 12 01 61 22 01 58", 9, (30, 23, 0)),
    ("30, a function's output is no definition", "2A 01 61 3A 08 0A 01 61 12 00 22 01 58", 9, (30, 26, 0)),
    ("30, an attribute of the function is no name", "32 01 61 3A 08 0A 01 61 12 00 22 01 58", 9, (30, 26, 0)),
    ("an input that is left out", "3A 07 0A 00 12 00 22 01 58", 0, (0, 1, 0)),
    ("31 in a function", "3A 15 12 00 22 01 58 2A 06 0A 01 6B A0 01 02 2A 06 0A 01 6B A0 01 02", 0, (31, 38, 0)),
    ("32 in a function", "3A 0A 12 00 22 01 58 2A 03 0A 01 6B", 0, (32, 28, 0)),
    ("34 in a function", "3A 03 22 01 58", 0, (34, 21, 0)),
    ("21 of a node's output in a function", "3A 06 12 01 80 22 01 58", 9, (21, 23, 0)),
    ("23 of a node's output, an input", "22 01 61 3A 06 12 01 61 22 01 58", 9, (23, 26, 21)),
    ("23 of a node's output, a node's", "3A 06 12 01 61 22 01 58 3A 06 12 01 61 22 01 58", 9, (23, 31, 23)),
    ("23 of a node's output, the input behind it on the wire", "3A 06 12 01 61 22 01 58 22 01 61", 9, (23, 23, 29)),
    ("40 of a node's output", "22 01 61 3A 06 12 01 62 22 01 58", 3, (40, 26, 0)),
    ("nodes before outputs before them", "2A 00 3A 00", 9, (27, 23, 0)),
    // Outputs.
    ("22 of a function's output", "2A 00", 9, (22, 21, 0)),
    ("21 of a function's output", "2A 01 80", 9, (21, 21, 0)),
    ("35 of a function", "2A 01 61", 9, (35, 21, 0)),
    ("35 of the second output", "22 01 61 2A 01 61 2A 01 62", 9, (35, 27, 0)),
    ("35 of one output before 22 of the next", "2A 01 61 2A 00", 9, (35, 21, 0)),
    ("35, w does not serve w1", "22 01 77 2A 02 77 31", 9, (35, 24, 0)),
    ("35, what a body binds", "3A 1A 12 00 22 01 58 2A 13 0A 01 6B A0 01 05 32 0B 12 01 67 0A 06 12 01 61 22 01 58 2A 01 61", 9, (35, 49, 0)),
    // Nested graphs: the node at 21 or 24 holds one, as in the main graph.
    ("a body reads its function's input", "22 01 61 3A 1C 12 00 22 01 58 2A 15 0A 01 6B A0 01 05 32 0D 12 01 67 0A 08 0A 01 61 12 00 22 01 58", 2, (0, 2, 1)),
    ("a body lists its function's input", "22 01 61 3A 17 12 00 22 01 58 2A 10 0A 01 6B A0 01 05 32 08 12 01 67 62 03 0A 01 61", 2, (0, 1, 1)),
    ("a body binds its function's input", "22 01 61 3A 1A 12 00 22 01 58 2A 13 0A 01 6B A0 01 05 32 0B 12 01 67 0A 06 12 01 61 22 01 58", 9, (23, 46, 21)),
    ("a body reads its node's output in a function", "3A 1B 12 01 61 22 01 58 2A 13 0A 01 6B A0 01 05 32 0B 12 01 67 0A 06 0A 01 61 22 01 58", 9, (30, 44, 0)),
    ("a body binds its node's output in a function", "3A 1B 12 01 61 22 01 58 2A 13 0A 01 6B A0 01 05 32 0B 12 01 67 0A 06 12 01 61 22 01 58 2A 01 61", 2, (0, 2, 1)),
    ("a body's name is no longer visible", "3A 1A 12 00 22 01 58 2A 13 0A 01 6B A0 01 05 32 0B 12 01 67 0A 06 12 01 61 22 01 58 3A 08 0A 01 61 12 00 22 01 58", 9, (30, 51, 0)),
    ("the most names are in a body", "22 01 61 3A 1A 12 00 22 01 58 2A 13 0A 01 6B A0 01 05 32 0B 12 01 67 0A 06 12 01 62 22 01 58", 4, (0, 2, 2)),
    ("40 in a body of a function", "22 01 61 3A 1A 12 00 22 01 58 2A 13 0A 01 6B A0 01 05 32 0B 12 01 67 0A 06 12 01 62 22 01 58", 3, (40, 46, 0)),
    ("20 in a function", "3A 0F 12 00 22 01 58 2A 08 0A 01 6B A0 01 05 32 00", 0, (20, 36, 0)),
    ("16 in a function", "3A 14 12 00 22 01 58 2A 0D 0A 01 6B A0 01 05 32 05 12 01 67 7A 00", 0, (16, 41, 0)),
    ("no type of a body is judged", "3A 17 12 00 22 01 58 2A 10 0A 01 6B A0 01 05 32 08 12 01 67 5A 03 0A 01 61", 2, (0, 1, 1)),
    ("26 in a function", "3A 17 12 00 22 01 58 2A 10 0A 01 6B A0 01 05 32 08 12 01 67 2A 03 42 01 77", 2, (26, 41, 0)),
];

#[rustfmt::skip]
pub const FUNCTIONS: &[Functions] = &[
    ("nodes of all functions, names of the one with most", &["0A 01 66 4A 02 10 0D 22 01 61 22 01 62 3A 05 12 00 22 01 58", "0A 01 67 4A 02 10 0D 3A 06 12 01 61 22 01 58 3A 05 12 00 22 01 58"], 4, (0, 3, 2)),
    ("the same, the other way round", &["0A 01 67 4A 02 10 0D 3A 06 12 01 61 22 01 58 3A 05 12 00 22 01 58", "0A 01 66 4A 02 10 0D 22 01 61 22 01 62 3A 05 12 00 22 01 58"], 4, (0, 3, 2)),
    ("40 in the second function", &["0A 01 66 4A 02 10 0D 22 01 61", "0A 01 67 4A 02 10 0D 22 01 61 22 01 62"], 3, (40, 37, 0)),
    ("one node name in two functions", &["0A 01 66 4A 02 10 0D 3A 08 1A 01 6E 12 00 22 01 58", "0A 01 67 4A 02 10 0D 3A 08 1A 01 6E 12 00 22 01 58"], 0, (0, 2, 0)),
    ("one attribute in two functions", &["0A 01 66 4A 02 10 0D 32 01 61 5A 06 0A 01 62 A0 01 02", "0A 01 67 4A 02 10 0D 32 01 62 5A 06 0A 01 61 A0 01 02"], 0, (0, 0, 0)),
    ("30, the first function's input", &["0A 01 66 4A 02 10 0D 22 01 61", "0A 01 67 4A 02 10 0D 3A 08 0A 01 61 12 00 22 01 58"], 9, (30, 36, 0)),
    ("30, the next function's input", &["0A 01 66 4A 02 10 0D 3A 08 0A 01 61 12 00 22 01 58", "0A 01 67 4A 02 10 0D 22 01 61"], 9, (30, 23, 0)),
    ("35, what the first function binds", &["0A 01 66 4A 02 10 0D 3A 06 12 01 61 22 01 58", "0A 01 67 4A 02 10 0D 2A 01 61"], 9, (35, 39, 0)),
    ("35 of the first before 22 of the second", &["0A 01 66 4A 02 10 0D 2A 01 61", ""], 9, (35, 21, 0)),
    ("a function that calls itself", &["0A 01 66 4A 02 10 0D 22 01 61 2A 01 62 3A 09 0A 01 61 12 01 62 22 01 66"], 4, (0, 1, 2)),
    ("functions that call each other, with too many inputs", &["0A 01 66 4A 02 10 0D 3A 05 12 00 22 01 67", "0A 01 67 4A 02 10 0D 22 01 61 3A 0B 0A 01 61 0A 01 61 12 00 22 01 66"], 2, (0, 2, 1)),
];

/// The main graph's node binds `a` at 13. The first function's tag is at 19, its first field at 22, and what is behind its import at 29.
const A: &str = "12 01 67 0A 06 12 01 61 22 01 58";

#[rustfmt::skip]
pub const WITH_GRAPH: &[WithGraph] = &[
    ("nodes of graph and function, names of the graph", A, &["0A 01 66 4A 02 10 0D 3A 05 12 00 22 01 58"], 2, (0, 2, 1)),
    ("names of the function, which has more", A, &["0A 01 66 4A 02 10 0D 22 01 61 22 01 62"], 4, (0, 1, 2)),
    ("names of graph and function do not add up", A, &["0A 01 66 4A 02 10 0D 22 01 62"], 2, (0, 1, 1)),
    ("40 in a function, the graph has cells enough", A, &["0A 01 66 4A 02 10 0D 22 01 61 22 01 62"], 3, (40, 32, 0)),
    ("40 in the graph before a function's 22", A, &[""], 1, (40, 13, 0)),
    ("30, a body that reads an outer name", A, &["0A 01 66 4A 02 10 0D 3A 08 0A 01 61 12 00 22 01 58"], 9, (30, 31, 0)),
    ("35, an outer name", A, &["0A 01 66 4A 02 10 0D 2A 01 61"], 9, (35, 29, 0)),
    ("30 in a nested graph, an outer name", A, &["0A 01 66 4A 02 10 0D 3A 1C 12 00 22 01 58 2A 15 0A 01 6B A0 01 05 32 0D 12 01 67 0A 08 0A 01 61 12 00 22 01 58"], 9, (30, 51, 0)),
    ("an input named as an outer name", A, &["0A 01 66 4A 02 10 0D 22 01 61"], 2, (0, 1, 1)),
    ("a node that binds an outer name", A, &["0A 01 66 4A 02 10 0D 3A 06 12 01 61 22 01 58"], 2, (0, 2, 1)),
    ("23 has the function's own definition", A, &["0A 01 66 4A 02 10 0D 22 01 61 22 01 61"], 2, (23, 32, 29)),
    ("a node named as one of the graph", "12 01 67 0A 08 1A 01 6E 12 00 22 01 58", &["0A 01 66 4A 02 10 0D 3A 08 1A 01 6E 12 00 22 01 58"], 0, (0, 2, 0)),
    ("30 in the graph, a function's input", "12 01 67 0A 08 0A 01 61 12 00 22 01 58", &["0A 01 66 4A 02 10 0D 22 01 61"], 9, (30, 13, 0)),
    ("a function named as a graph and a value", "12 01 66 0A 06 12 01 66 22 01 66", &["0A 01 66 4A 02 10 0D"], 2, (0, 1, 1)),
    ("20 before a function's 22", "", &[""], 9, (20, 6, 0)),
    ("35 of the graph before a function's 12", "12 01 67 62 03 0A 01 62", &["0A 01 66"], 9, (35, 13, 0)),
    ("27 before 41", "12 01 67 0A 00", &["0A 01 66 4A 02 10 0D", "0A 01 66 4A 02 10 0D"], 9, (27, 11, 0)),
];
