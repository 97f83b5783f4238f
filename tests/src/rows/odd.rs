//! Rows for the third count, worked out by hand: `odd` is how often a field that is tested for 21 holds no identifier. Each graph begins at 8.

/// A graph by name, bytes, cells and counts: nodes, names and odd ones.
pub type OddRow = (&'static str, &'static str, usize, (u64, u64, u64));

#[rustfmt::skip]
pub const GRAPHS: &[OddRow] = &[
    ("a graph name that begins with a digit", "12 02 39 61", 0, (0, 0, 1)),
    ("a graph name with a slash", "12 03 61 2F 62", 0, (0, 0, 1)),
    ("an input", "12 01 67 5A 0B 0A 01 2F 12 06 0A 04 08 01 12 00", 2, (0, 1, 1)),
    ("an initializer", "12 01 67 2A 05 42 01 2E 10 01", 2, (0, 1, 1)),
    ("an input and its default", "12 01 67 5A 0B 0A 01 2F 12 06 0A 04 08 01 12 00 2A 05 42 01 2F 10 01", 2, (0, 1, 2)),
    ("a default before its input on the wire", "2A 05 42 01 2F 10 01 12 01 67 5A 0B 0A 01 2F 12 06 0A 04 08 01 12 00", 2, (0, 1, 2)),
    ("an op_type", "12 01 67 0A 06 12 01 61 22 01 2D", 2, (1, 1, 1)),
    ("a node's name", "12 01 67 0A 09 12 01 61 22 01 58 1A 01 39", 2, (1, 1, 1)),
    ("a node's empty name", "12 01 67 0A 08 12 01 61 22 01 58 1A 00", 2, (1, 1, 0)),
    ("a node's output, and a read of it", "12 01 67 0A 06 12 01 2F 22 01 58 0A 08 0A 01 2F 12 00 22 01 58", 2, (2, 1, 2)),
    ("three reads of one output", "12 01 67 0A 06 12 01 2F 22 01 58 0A 0E 0A 01 2F 0A 01 2F 0A 01 2F 12 00 22 01 58", 2, (2, 1, 4)),
    ("inputs and outputs that are left out", "12 01 67 0A 0B 0A 00 0A 00 12 00 12 00 22 01 58", 0, (1, 0, 0)),
    ("an attribute's name", "12 01 67 0A 0E 12 01 61 22 01 58 2A 06 0A 01 2F A0 01 02", 2, (1, 1, 1)),
    ("an output that is listed twice", "12 01 67 0A 06 12 01 2F 22 01 58 62 0B 0A 01 2F 12 06 0A 04 08 01 12 00 62 0B 0A 01 2F 12 06 0A 04 08 01 12 00", 2, (1, 1, 3)),
    ("three dim_params of an input, two odd and the same", "12 01 67 5A 1A 0A 01 61 12 15 0A 13 08 01 12 0F 0A 03 12 01 2D 0A 03 12 01 2D 0A 03 12 01 6E", 2, (0, 1, 2)),
    ("a dim_param of an output", "12 01 67 2A 05 42 01 77 10 01 62 10 0A 01 77 12 0B 0A 09 08 01 12 05 0A 03 12 01 2D", 2, (0, 1, 1)),
    ("each name of a node, the graph's and a dim's", "12 01 2F 0A 11 12 01 2F 1A 01 2F 22 01 2F 2A 06 0A 01 2F A0 01 02 62 10 0A 01 2F 12 0B 0A 09 08 01 12 05 0A 03 12 01 2F", 2, (1, 1, 7)),
    // Bodies: their names count, and no type of theirs.
    ("a body's name, op_type and output", "12 01 67 0A 1B 12 01 61 22 01 58 2A 13 0A 01 6B A0 01 05 32 0B 12 01 2F 0A 06 12 01 2F 22 01 2D", 2, (2, 1, 3)),
    ("a body's input, read and listed", "12 01 67 0A 26 12 00 22 01 58 2A 1F 0A 01 6B A0 01 05 32 17 12 01 67 5A 03 0A 01 2F 0A 08 0A 01 2F 12 00 22 01 58 62 03 0A 01 2F", 2, (2, 1, 3)),
    ("a body's initializer", "12 01 67 0A 1B 12 00 22 01 58 2A 14 0A 01 6B A0 01 05 32 0C 12 01 67 2A 07 42 03 61 2F 62 10 01", 2, (1, 1, 1)),
    ("an outer name that a body reads and lists", "12 01 67 0A 06 12 01 2F 22 01 58 0A 21 12 00 22 01 58 2A 1A 0A 01 6B A0 01 05 32 12 12 01 67 0A 08 0A 01 2F 12 00 22 01 58 62 03 0A 01 2F", 2, (3, 1, 3)),
    ("a dim_param of a body's input", "12 01 67 0A 24 12 00 22 01 58 2A 1D 0A 01 6B A0 01 05 32 15 12 01 67 5A 10 0A 01 69 12 0B 0A 09 08 01 12 05 0A 03 12 01 2D", 2, (1, 1, 0)),
    ("a dim_param of a body's input, not UTF-8", "12 01 67 0A 24 12 00 22 01 58 2A 1D 0A 01 6B A0 01 05 32 15 12 01 67 5A 10 0A 01 69 12 0B 0A 09 08 01 12 05 0A 03 12 01 80", 2, (1, 1, 0)),
    ("a dim_param of a body's input, empty", "12 01 67 0A 23 12 00 22 01 58 2A 1C 0A 01 6B A0 01 05 32 14 12 01 67 5A 0F 0A 01 69 12 0A 0A 08 08 01 12 04 0A 02 12 00", 2, (1, 1, 0)),
    // What no rule tests.
    ("a value_info", "12 01 67 6A 03 0A 01 2F", 0, (0, 0, 0)),
    ("a value_info that is not UTF-8", "12 01 67 6A 03 0A 01 80", 0, (0, 0, 0)),
    ("a dim_param of a value_info, and an empty one", "12 01 67 6A 11 12 0F 0A 0D 08 01 12 09 0A 03 12 01 80 0A 02 12 00", 0, (0, 0, 0)),
    ("the name of an attribute's tensor", "12 01 67 0A 13 12 01 61 22 01 58 2A 0B 0A 01 6B A0 01 04 2A 03 42 01 80", 2, (1, 1, 0)),
    ("the names of an attribute's tensors", "12 01 67 0A 18 12 01 61 22 01 58 2A 10 0A 01 6B A0 01 09 52 03 42 01 2F 52 03 42 01 80", 2, (1, 1, 0)),
    ("an attribute's string", "12 01 67 0A 11 12 01 61 22 01 58 2A 09 0A 01 6B A0 01 03 22 01 80", 2, (1, 1, 0)),
    ("an attribute's strings", "12 01 67 0A 14 12 01 61 22 01 58 2A 0C 0A 01 6B A0 01 08 4A 01 2F 4A 01 80", 2, (1, 1, 0)),
    ("an empty ref_attr_name and a doc_string", "12 01 67 52 01 80 0A 14 12 01 61 22 01 58 32 01 80 2A 09 0A 01 6B A0 01 02 AA 01 00", 2, (1, 1, 0)),
    // UTF-8.
    ("é", "12 01 67 0A 07 12 02 C3 A9 22 01 58", 2, (1, 1, 1)),
    ("é in both of its forms, which are two names", "12 01 67 0A 0C 12 02 C3 A9 12 03 65 CC 81 22 01 58", 4, (1, 2, 2)),
    ("U+0000, and no name", "12 01 00 0A 08 0A 00 12 01 00 22 01 58", 2, (1, 1, 2)),
    ("a byte order mark and a noncharacter", "12 03 EF BB BF 0A 08 12 03 EF BF BF 22 01 58", 2, (1, 1, 2)),
    ("the last character", "12 01 67 0A 09 12 04 F4 8F BF BF 22 01 58", 2, (1, 1, 1)),
];
