//! Names of functions, and which two are the same: 22, 21, 41.

use super::{answer, behind, row, Answer, Functions, Row, L};
use crate::rows::hex;

#[rustfmt::skip]
pub const FUNCTIONS: &[Functions] = &[
    ("22, no name: at the function", &["4A 02 10 0D"], 0, (22, 11, 0)),
    ("22, a function of no bytes", &[""], 0, (22, 11, 0)),
    ("22, a name that is present and empty", &["4A 02 10 0D 0A 00"], 0, (22, 18, 0)),
    ("22 of the second", &["0A 01 66 4A 02 10 0D", "4A 02 10 0D"], 0, (22, 21, 0)),
    ("21 of a function's name", &["0A 01 80 4A 02 10 0D"], 0, (21, 14, 0)),
    ("21 of a function's name before all behind it", &["0A 01 80 32 00 5A 00 22 00 3A 00 2A 00"], 0, (21, 14, 0)),
    ("22 of a function's name before 12", &["0A 00"], 0, (22, 14, 0)),
    ("41, the same again", &["0A 01 66 4A 02 10 0D", "0A 01 66 4A 02 10 0D"], 0, (41, 21, 0)),
    ("41, all else is another", &["0A 01 66 4A 02 10 0D", "22 01 61 4A 02 10 07 32 01 62 0A 01 66"], 9, (41, 21, 0)),
    ("41, another function between", &["0A 01 66 4A 02 10 0D", "0A 01 67 4A 02 10 0D", "0A 01 66 4A 02 10 0D"], 0, (41, 31, 0)),
    ("41 of the second before 41 of the third", &["0A 01 66 4A 02 10 0D", "0A 01 66 4A 02 10 0D", "0A 01 66 4A 02 10 0D"], 0, (41, 21, 0)),
    ("another name", &["0A 01 66 4A 02 10 0D", "0A 01 67 4A 02 10 0D"], 0, (0, 0, 0)),
    ("a longer name", &["0A 01 66 4A 02 10 0D", "0A 02 66 31 4A 02 10 0D"], 0, (0, 0, 0)),
    ("a shorter name", &["0A 02 66 31 4A 02 10 0D", "0A 01 66 4A 02 10 0D"], 0, (0, 0, 0)),
    ("a capital letter", &["0A 01 66 4A 02 10 0D", "0A 01 46 4A 02 10 0D"], 0, (0, 0, 0)),
    // The domain.
    ("apart by domain", &["0A 01 66 4A 02 10 0D", "0A 01 66 52 01 78 4A 02 10 0D"], 0, (0, 0, 0)),
    ("apart by domain, the other way round", &["0A 01 66 52 01 78 4A 02 10 0D", "0A 01 66 4A 02 10 0D"], 0, (0, 0, 0)),
    ("two domains", &["0A 01 66 52 01 78 4A 02 10 0D", "52 01 79 0A 01 66 4A 02 10 0D"], 0, (0, 0, 0)),
    ("a longer domain", &["0A 01 66 52 01 78 4A 02 10 0D", "0A 01 66 52 02 78 78 4A 02 10 0D"], 0, (0, 0, 0)),
    ("41, one domain", &["0A 01 66 52 01 78 4A 02 10 0D", "52 01 78 0A 01 66 4A 02 10 0D"], 0, (41, 24, 0)),
    ("41, one domain, a function of another between", &["0A 01 66 52 01 78 4A 02 10 0D", "0A 01 66 4A 02 10 0D", "0A 01 66 52 01 78 4A 02 10 0D"], 0, (41, 34, 0)),
    ("41, no domain and an empty one", &["0A 01 66 4A 02 10 0D", "0A 01 66 52 00 4A 02 10 0D"], 0, (41, 21, 0)),
    ("41, no domain and ai.onnx", &["0A 01 66 4A 02 10 0D", "0A 01 66 52 07 61 69 2E 6F 6E 6E 78 4A 02 10 0D"], 0, (41, 21, 0)),
    ("41, ai.onnx and no domain", &["0A 01 66 52 07 61 69 2E 6F 6E 6E 78 4A 02 10 0D", "0A 01 66 4A 02 10 0D"], 0, (41, 30, 0)),
    ("41, ai.onnx and an empty domain", &["0A 01 66 52 07 61 69 2E 6F 6E 6E 78 4A 02 10 0D", "0A 01 66 4A 02 10 0D 52 00"], 0, (41, 30, 0)),
    ("41, ai.onnx twice", &["0A 01 66 52 07 61 69 2E 6F 6E 6E 78 4A 02 10 0D", "0A 01 66 52 07 61 69 2E 6F 6E 6E 78 4A 02 10 0D"], 0, (41, 30, 0)),
    ("ai.onnx and ai.onn", &["0A 01 66 52 07 61 69 2E 6F 6E 6E 78 4A 02 10 0D", "0A 01 66 52 06 61 69 2E 6F 6E 6E 4A 02 10 0D"], 0, (0, 0, 0)),
    ("no domain and ai.onnx.ml", &["0A 01 66 4A 02 10 0D", "0A 01 66 52 0A 61 69 2E 6F 6E 6E 78 2E 6D 6C 4A 02 10 0D"], 0, (0, 0, 0)),
    ("a domain need not be imported, and is free bytes", &["0A 01 66 52 02 80 FF 4A 02 10 0D"], 0, (0, 0, 0)),
    ("name and domain do not run together", &["0A 02 66 67 52 01 78 4A 02 10 0D", "0A 01 66 52 02 67 78 4A 02 10 0D"], 0, (0, 0, 0)),
    ("name and domain exchanged", &["0A 01 66 52 01 78 4A 02 10 0D", "0A 01 78 52 01 66 4A 02 10 0D"], 0, (0, 0, 0)),
    // 41 comes behind the name and before all else of its function, and behind all of the functions before it.
    ("41 before 22 of an attribute", &["0A 01 66 4A 02 10 0D", "0A 01 66 32 00"], 0, (41, 21, 0)),
    ("41 before 22 of a default", &["0A 01 66 4A 02 10 0D", "0A 01 66 5A 00"], 0, (41, 21, 0)),
    ("41 before 12", &["0A 01 66 4A 02 10 0D", "0A 01 66"], 0, (41, 21, 0)),
    ("41 before 22 of an input", &["0A 01 66 4A 02 10 0D", "0A 01 66 22 00"], 0, (41, 21, 0)),
    ("35 of the first before 41 of the second", &["0A 01 66 4A 02 10 0D 2A 01 61", "0A 01 66 4A 02 10 0D"], 9, (35, 21, 0)),
    ("12 of the first before 41 of the second", &["0A 01 66", "0A 01 66 4A 02 10 0D"], 9, (12, 11, 0)),
    ("41 of the second before 22 of the third", &["0A 01 66 4A 02 10 0D", "0A 01 66 4A 02 10 0D", ""], 0, (41, 21, 0)),
];

/// Two functions behind M0, with their answer below IR version 10 and from it on.
type Overloads = (&'static str, [&'static str; 2], Answer, Answer);

#[rustfmt::skip]
const OVERLOADS: &[Overloads] = &[
    ("two overloads", ["0A 01 66 6A 01 6F 4A 02 10 0D", "0A 01 66 6A 01 70 4A 02 10 0D"], (41, 24, 0), (0, 0, 0)),
    ("an overload and none", ["0A 01 66 6A 01 6F 4A 02 10 0D", "0A 01 66 4A 02 10 0D"], (41, 24, 0), (0, 0, 0)),
    ("none and an overload", ["0A 01 66 4A 02 10 0D", "6A 01 6F 0A 01 66 4A 02 10 0D"], (41, 21, 0), (0, 0, 0)),
    ("a longer overload", ["0A 01 66 6A 01 6F 4A 02 10 0D", "0A 01 66 6A 02 6F 6F 4A 02 10 0D"], (41, 24, 0), (0, 0, 0)),
    ("one overload", ["0A 01 66 6A 01 6F 4A 02 10 0D", "6A 01 6F 0A 01 66 4A 02 10 0D"], (41, 24, 0), (41, 24, 0)),
    ("none and an empty overload", ["0A 01 66 4A 02 10 0D", "0A 01 66 4A 02 10 0D 6A 00"], (41, 21, 0), (41, 21, 0)),
    ("an empty overload and none", ["0A 01 66 4A 02 10 0D 6A 00", "0A 01 66 4A 02 10 0D"], (41, 23, 0), (41, 23, 0)),
    ("ai.onnx has no other name as an overload", ["0A 01 66 6A 07 61 69 2E 6F 6E 6E 78 4A 02 10 0D", "0A 01 66 4A 02 10 0D"], (41, 30, 0), (0, 0, 0)),
    ("one overload, two domains", ["0A 01 66 6A 01 6F 4A 02 10 0D", "0A 01 66 6A 01 6F 52 01 78 4A 02 10 0D"], (0, 0, 0), (0, 0, 0)),
    ("one overload, one domain by both of its names", ["0A 01 66 6A 01 6F 4A 02 10 0D 52 00", "0A 01 66 6A 01 6F 52 07 61 69 2E 6F 6E 6E 78 4A 02 10 0D"], (41, 26, 0), (41, 26, 0)),
    ("one overload, two names", ["0A 01 66 6A 01 6F 4A 02 10 0D", "0A 01 67 6A 01 6F 4A 02 10 0D"], (0, 0, 0), (0, 0, 0)),
    ("two overloads of free bytes", ["0A 01 66 6A 01 80 4A 02 10 0D", "0A 01 66 6A 01 FF 4A 02 10 0D"], (41, 24, 0), (0, 0, 0)),
    ("domain and overload exchanged", ["0A 01 66 52 01 6F 4A 02 10 0D", "0A 01 66 6A 01 6F 4A 02 10 0D"], (0, 0, 0), (0, 0, 0)),
    ("domain and overload do not run together", ["0A 01 66 52 02 78 79 4A 02 10 0D", "0A 01 66 52 01 78 6A 01 79 4A 02 10 0D"], (0, 0, 0), (0, 0, 0)),
    ("two overloads, the second's first rule", ["0A 01 66 6A 01 6F 4A 02 10 0D", "0A 01 66 6A 01 70 32 00"], (41, 24, 0), (22, 33, 0)),
];

/// "from IR 10" is 10 and 11. ir_version stands first, or behind the functions, where all places are two less.
pub fn overloads() -> Vec<Row> {
    let mut rows = Vec::new();
    for (name, functions, below, from) in OVERLOADS {
        for version in 3..=11 {
            let said = if version < 10 { *below } else { *from };
            let first = behind(&format!("08 {version:02X} 42 02 10 0D 3A 03 12 01 67"), functions);
            let mut last = behind("42 02 10 0D 3A 03 12 01 67", functions);
            last.extend(hex(&format!("08 {version:02X}")));
            let sooner = if said.0 == 0 { said } else { (said.0, said.1 - 2, 0) };
            rows.push(row(&format!("{name}, IR {version}"), first, &L, 0, answer(said)));
            rows.push(row(&format!("{name}, IR {version}, which comes last"), last, &L, 0, answer(sooner)));
        }
    }
    rows
}
