//! The third count in functions: `odd` is how often a field that is tested for 21 holds no identifier.

/// Functions behind M0 by name, bytes, cells and counts: nodes, names and odd ones.
type OddFunctions = (&'static str, &'static [&'static str], usize, (u64, u64, u64));

#[rustfmt::skip]
pub const FUNCTIONS: &[OddFunctions] = &[
    ("a function's name", &["0A 01 2F 4A 02 10 0D"], 0, (0, 0, 1)),
    ("a function's name, an input, a read and an output listed twice", &["0A 01 2F 4A 02 10 0D 22 01 2F 3A 08 0A 01 2F 12 00 22 01 58 2A 01 2F 2A 01 2F"], 2, (1, 1, 5)),
    ("an attribute and a reference to it", &["0A 01 66 4A 02 10 0D 32 01 2F 3A 11 12 00 22 01 58 2A 0A 0A 01 6B A0 01 02 AA 01 01 2F"], 0, (1, 0, 1)),
    ("a default and two references to it", &["0A 01 66 4A 02 10 0D 5A 06 0A 01 2F A0 01 02 3A 1D 12 00 22 01 58 2A 0A 0A 01 6B A0 01 02 AA 01 01 2F 2A 0A 0A 01 2D A0 01 02 AA 01 01 2F"], 0, (1, 0, 2)),
    ("a domain and an overload", &["0A 01 66 4A 02 10 0D 52 01 2F 6A 01 2F"], 0, (0, 0, 0)),
    ("each name of a node", &["0A 01 66 4A 02 10 0D 3A 11 12 01 2F 1A 01 2F 22 01 2F 2A 06 0A 01 2F A0 01 02"], 2, (1, 1, 4)),
    ("inputs and outputs that a node leaves out", &["0A 01 66 4A 02 10 0D 3A 09 0A 00 12 00 12 00 22 01 58"], 0, (1, 0, 0)),
    ("a nested graph's name, input and output, and no dim_param of it", &["0A 01 66 4A 02 10 0D 3A 29 12 00 22 01 58 2A 22 0A 01 6B A0 01 05 32 1A 12 01 2F 5A 10 0A 01 2F 12 0B 0A 09 08 01 12 05 0A 03 12 01 2D 62 03 0A 01 2F"], 2, (1, 1, 3)),
    ("two functions", &["0A 01 2F 4A 02 10 0D 22 01 2F", "0A 01 2D 4A 02 10 0D 22 01 2F 2A 01 2F"], 2, (0, 1, 5)),
];
