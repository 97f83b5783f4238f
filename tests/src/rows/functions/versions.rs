//! Initializers in nested graphs of a function, at IR version 3 and later: as in those of the main graph. A function's own inputs have no
//! defaults. The node's graph has its name at 38, or at 41 behind an input of the function, and what follows three bytes later.

use super::{answer, behind, row, Answer, Row, F, L};

/// What stands in the function `f` behind its import, cells, and the answers at 3 and later.
type Nested = (&'static str, &'static str, usize, Answer, Answer);

#[rustfmt::skip]
const NESTED: &[Nested] = &[
    ("an initializer in a function", "3A 19 12 00 22 01 58 2A 12 0A 01 6B A0 01 05 32 0A 12 01 67 2A 05 42 01 77 10 01", 2, (43, 43, 0), (0, 1, 1)),
    ("a default in a function", "3A 1E 12 00 22 01 58 2A 17 0A 01 6B A0 01 05 32 0F 12 01 67 5A 03 0A 01 69 2A 05 42 01 69 10 01", 2, (0, 1, 1), (23, 48, 43)),
    ("a default twice in a function", "3A 25 12 00 22 01 58 2A 1E 0A 01 6B A0 01 05 32 16 12 01 67 5A 03 0A 01 69 2A 05 42 01 69 10 01 2A 05 42 01 69 10 01", 2, (23, 55, 43), (23, 48, 43)),
    ("an initializer named as the function's input", "22 01 69 3A 19 12 00 22 01 58 2A 12 0A 01 6B A0 01 05 32 0A 12 01 67 2A 05 42 01 69 10 01", 2, (43, 46, 0), (23, 46, 21)),
    ("a default and the function's input beside it", "22 01 61 3A 1E 12 00 22 01 58 2A 17 0A 01 6B A0 01 05 32 0F 12 01 67 5A 03 0A 01 69 2A 05 42 01 69 10 01", 4, (0, 1, 2), (23, 51, 46)),
    ("43 in a function before 40", "22 01 61 3A 19 12 00 22 01 58 2A 12 0A 01 6B A0 01 05 32 0A 12 01 67 2A 05 42 01 77 10 01", 3, (43, 46, 0), (40, 46, 0)),
    ("a function's input has no default to give", "22 01 69 2A 01 69", 2, (0, 0, 1), (0, 0, 1)),
];

pub fn rows() -> Vec<Row> {
    let mut rows = Vec::new();
    for (name, rest, cells, at_3, later) in NESTED {
        for version in [3, 4, 9, 10, 11] {
            let said = if version == 3 { *at_3 } else { *later };
            let model = behind(&format!("08 {version:02X} 42 02 10 0D 3A 03 12 01 67"), &[&format!("{F} {rest}")]);
            rows.push(row(&format!("{name}, IR {version}"), model, &L, *cells, answer(said)));
        }
    }
    rows
}
