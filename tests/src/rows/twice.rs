//! Rows for both places of 23, worked out by hand: where the name is, and the field that defines what is visible already. Each graph begins
//! at 8. A main input `a` with its type takes 13 bytes, an initializer 7, a node with one output 8.

use super::by_hand::GraphRow;

#[rustfmt::skip]
pub const GRAPHS: &[GraphRow] = &[
    ("two inputs", "12 01 67 5A 0B 0A 01 61 12 06 0A 04 08 01 12 00 5A 03 0A 01 61", 2, (23, 26, 13)),
    ("two inputs, the type before the name", "12 01 67 5A 0B 12 06 0A 04 08 01 12 00 0A 01 61 5A 03 0A 01 61", 2, (23, 26, 21)),
    ("two initializers", "12 01 67 2A 05 42 01 77 10 01 2A 05 42 01 77 10 01", 2, (23, 20, 13)),
    ("two initializers, the type before the name", "12 01 67 2A 05 10 01 42 01 77 2A 05 10 01 42 01 77", 3, (23, 22, 15)),
    ("two nodes, cells full", "12 01 67 0A 06 12 01 61 22 01 58 0A 06 12 01 61 22 01 58", 2, (23, 21, 13)),
    ("two nodes, a cell too few", "12 01 67 0A 06 12 01 61 22 01 58 0A 06 12 01 61 22 01 58", 1, (40, 13, 0)),
    ("two outputs of a node, another between", "12 01 67 0A 0C 12 01 61 12 01 62 12 01 61 22 01 58", 4, (23, 19, 13)),
    ("two outputs of a node, one left out between", "12 01 67 0A 0B 12 01 61 12 00 12 01 61 22 01 58", 2, (23, 18, 13)),
    ("a node's own name is no definition", "12 01 67 0A 0C 1A 01 61 12 01 61 12 01 61 22 01 58", 2, (23, 19, 16)),
    ("a read is no definition", "12 01 67 0A 06 12 01 61 22 01 58 0A 09 0A 01 61 12 01 61 22 01 58", 2, (23, 24, 13)),
    // The input, whatever its default.
    ("a second default behind an initializer", "12 01 67 2A 05 42 01 77 10 01 5A 0B 0A 01 61 12 06 0A 04 08 01 12 00 2A 05 42 01 61 10 01 2A 05 42 01 61 10 01", 4, (23, 40, 20)),
    ("a second default, the first before the input on the wire", "2A 05 42 01 61 10 01 12 01 67 5A 0B 0A 01 61 12 06 0A 04 08 01 12 00 2A 05 42 01 61 10 01", 2, (23, 33, 20)),
    ("an input with a default, bound by a node", "12 01 67 5A 0B 0A 01 61 12 06 0A 04 08 01 12 00 2A 05 42 01 61 10 01 0A 06 12 01 61 22 01 58", 2, (23, 33, 13)),
    ("the same, the default before the input on the wire", "2A 05 42 01 61 10 01 12 01 67 5A 0B 0A 01 61 12 06 0A 04 08 01 12 00 0A 06 12 01 61 22 01 58", 2, (23, 33, 20)),
    ("an input with a default, again in a body", "12 01 67 5A 0B 0A 01 61 12 06 0A 04 08 01 12 00 2A 05 42 01 61 10 01 0A 17 12 00 22 01 58 2A 10 0A 01 6B A0 01 05 32 08 12 01 67 5A 03 0A 01 61", 2, (23, 53, 13)),
    // The definition stands behind on the wire.
    ("two defaults before their input", "2A 05 42 01 61 10 01 2A 05 42 01 61 10 01 12 01 67 5A 0B 0A 01 61 12 06 0A 04 08 01 12 00", 2, (23, 17, 27)),
    ("a node before an input", "0A 06 12 01 61 22 01 58 12 01 67 5A 0B 0A 01 61 12 06 0A 04 08 01 12 00", 2, (23, 10, 21)),
    ("a node before an initializer", "0A 06 12 01 61 22 01 58 12 01 67 2A 05 42 01 61 10 01", 2, (23, 10, 21)),
    ("a body's initializer before its input", "12 01 67 0A 1E 12 00 22 01 58 2A 17 0A 01 6B A0 01 05 32 0F 2A 05 42 01 69 10 01 12 01 67 5A 03 0A 01 69", 2, (23, 30, 40)),
    // Bodies see what is around them, and have no defaults.
    ("a body's input, an outer name", "12 01 67 0A 06 12 01 61 22 01 58 0A 17 12 00 22 01 58 2A 10 0A 01 6B A0 01 05 32 08 12 01 67 5A 03 0A 01 61", 2, (23, 41, 13)),
    ("a body's initializer, its own input", "12 01 67 0A 1E 12 00 22 01 58 2A 17 0A 01 6B A0 01 05 32 0F 12 01 67 5A 03 0A 01 69 2A 05 42 01 69 10 01", 2, (23, 38, 33)),
    ("a body's node, an outer name", "12 01 67 0A 06 12 01 78 22 01 58 0A 1A 12 00 22 01 58 2A 13 0A 01 6B A0 01 05 32 0B 12 01 67 0A 06 12 01 78 22 01 58", 2, (23, 41, 13)),
    // What a body bound has vanished when it ends.
    ("a body's name outside", "12 01 67 0A 1A 12 00 22 01 58 2A 13 0A 01 6B A0 01 05 32 0B 12 01 67 0A 06 12 01 78 22 01 58 0A 06 12 01 78 22 01 58", 2, (0, 3, 1)),
    ("a body's name outside, and again", "12 01 67 0A 1A 12 00 22 01 58 2A 13 0A 01 6B A0 01 05 32 0B 12 01 67 0A 06 12 01 78 22 01 58 0A 06 12 01 78 22 01 58 0A 06 12 01 78 22 01 58", 2, (23, 49, 41)),
    ("a body's name is its node's, and again", "12 01 67 0A 1B 12 01 78 22 01 58 2A 13 0A 01 6B A0 01 05 32 0B 12 01 67 0A 06 12 01 78 22 01 58 0A 06 12 01 78 22 01 58", 2, (23, 42, 13)),
    ("a sibling's name, twice in the next body", "12 01 67 0A 37 12 00 22 01 58 2A 13 0A 01 6B A0 01 05 32 0B 12 01 67 0A 06 12 01 78 22 01 58 2A 1B 0A 01 6C A0 01 05 32 13 12 01 67 0A 06 12 01 78 22 01 58 0A 06 12 01 78 22 01 58", 2, (23, 62, 54)),
    // Which of two names that begin alike.
    ("w and w1, w again", "12 01 67 0A 06 12 01 77 22 01 58 0A 07 12 02 77 31 22 01 58 0A 06 12 01 77 22 01 58", 4, (23, 30, 13)),
    ("w and w1, w1 again", "12 01 67 0A 06 12 01 77 22 01 58 0A 07 12 02 77 31 22 01 58 0A 07 12 02 77 31 22 01 58", 4, (23, 30, 21)),
    ("w1 and w, w again", "12 01 67 0A 07 12 02 77 31 22 01 58 0A 06 12 01 77 22 01 58 0A 06 12 01 77 22 01 58", 5, (23, 30, 22)),
    ("w1 and w, w1 again", "12 01 67 0A 07 12 02 77 31 22 01 58 0A 06 12 01 77 22 01 58 0A 07 12 02 77 31 22 01 58", 5, (23, 30, 13)),
    ("wa and wb, wa again", "12 01 67 0A 07 12 02 77 61 22 01 58 0A 07 12 02 77 62 22 01 58 0A 07 12 02 77 61 22 01 58", 4, (23, 31, 13)),
    ("wa and wb, wb again", "12 01 67 0A 07 12 02 77 61 22 01 58 0A 07 12 02 77 62 22 01 58 0A 07 12 02 77 62 22 01 58", 4, (23, 31, 22)),
    ("wa and wb, a cell too few", "12 01 67 0A 07 12 02 77 61 22 01 58 0A 07 12 02 77 62 22 01 58 0A 07 12 02 77 61 22 01 58", 3, (40, 22, 0)),
];
