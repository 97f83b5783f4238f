//! Imports of a function: 12, 13, 14, and 28 by its own imports and no others.

use super::{answer, behind, row, Answer, Functions, OfF, Row};
use crate::rows::hex;

#[rustfmt::skip]
pub const FUNCTIONS: &[Functions] = &[
    ("12, no imports: at the function", &["0A 01 66"], 0, (12, 11, 0)),
    ("12, one function's imports are not the next one's", &["0A 01 66 4A 02 10 0D", "0A 01 67"], 0, (12, 21, 0)),
    ("12, the next one's imports", &["0A 01 66", "0A 01 67 4A 02 10 0D"], 0, (12, 11, 0)),
    ("22 of an attribute before 12", &["0A 01 66 32 00"], 0, (22, 17, 0)),
    ("42 before 12", &["0A 01 66 32 01 61 32 01 61"], 0, (42, 20, 0)),
    ("32 of a default before 12", &["0A 01 66 5A 03 0A 01 61"], 0, (32, 17, 0)),
    ("33 of a default before 12", &["0A 01 66 5A 07 0A 01 61 AA 01 01 72"], 0, (33, 17, 0)),
    ("12 before 22 of an input", &["0A 01 66 22 00"], 0, (12, 11, 0)),
    ("12 before 40", &["0A 01 66 22 01 61"], 0, (12, 11, 0)),
    ("12 before 27", &["0A 01 66 3A 00"], 0, (12, 11, 0)),
    ("12 before 35", &["0A 01 66 2A 01 61"], 0, (12, 11, 0)),
    ("a version that the model does not import, the lowest", &["0A 01 66 4A 02 10 07"], 0, (0, 0, 0)),
    ("a version that the model does not import, the highest", &["0A 01 66 4A 02 10 15"], 0, (0, 0, 0)),
    ("two functions with two versions", &["0A 01 66 4A 02 10 07", "0A 01 67 4A 02 10 15"], 0, (0, 0, 0)),
    ("14, a version below the list's", &["0A 01 66 4A 02 10 06"], 0, (14, 17, 0)),
    ("14, a version above the list's", &["0A 01 66 4A 02 10 16"], 0, (14, 17, 0)),
    ("14, no version", &["0A 01 66 4A 00"], 0, (14, 17, 0)),
    ("14, a negative version", &["0A 01 66 4A 0B 10 FF FF FF FF FF FF FF FF FF 01"], 0, (14, 17, 0)),
    ("14, a domain that the list lacks", &["0A 01 66 4A 05 0A 01 78 10 0D"], 0, (14, 17, 0)),
    ("14 in the second function", &["0A 01 66 4A 02 10 0D", "0A 01 67 4A 02 10 06"], 0, (14, 27, 0)),
    ("14 of the first import before 13 of the second", &["0A 01 66 4A 02 10 06 4A 02 10 0D"], 0, (14, 17, 0)),
    ("14 before 22 of an input before it", &["0A 01 66 22 00 4A 02 10 06"], 0, (14, 19, 0)),
    ("14 before 40", &["0A 01 66 22 01 61 4A 02 10 06"], 0, (14, 20, 0)),
    ("the alias is imported, and a node of no domain", &["0A 01 66 4A 0B 0A 07 61 69 2E 6F 6E 6E 78 10 0D 3A 05 12 00 22 01 58"], 0, (0, 1, 0)),
];

#[rustfmt::skip]
pub const OF_F: &[OfF] = &[
    ("13, the default domain twice", "4A 02 10 0D", 0, (13, 21, 0)),
    ("13, the default domain by its other name", "4A 0B 0A 07 61 69 2E 6F 6E 6E 78 10 0D", 0, (13, 21, 0)),
    ("13 of a function's import before 14 of it", "4A 02 10 06", 0, (13, 21, 0)),
    ("13 of one import before 14 of the next", "4A 02 10 0D 4A 05 0A 01 78 10 0D", 0, (13, 21, 0)),
    ("14 of one import before 13 of the next", "4A 05 0A 01 78 10 0D 4A 02 10 0D", 0, (14, 21, 0)),
    ("13 before 22 of an input before it", "22 00 4A 02 10 0D", 0, (13, 23, 0)),
    ("13 before 27 of a node before it", "3A 00 4A 02 10 0D", 0, (13, 23, 0)),
    ("13 before 35 of an output before it", "2A 01 61 4A 02 10 0D", 0, (13, 24, 0)),
    ("28, at the domain of a function's node", "3A 08 12 00 22 01 58 3A 01 78", 0, (28, 28, 0)),
    ("ai.onnx in a function's node", "3A 0E 12 00 22 01 58 3A 07 61 69 2E 6F 6E 6E 78", 0, (0, 1, 0)),
];

/// Model and functions under a list that has the default domain and `x`. With two imports the model's functions begin at 18, with one at 11.
type Listed = (&'static str, &'static str, &'static [&'static str], Answer);

const LIST: &str = "00 00 00 16 01 00 08 00 00 00 07 00 00 00 15 00 09 78 00 00 00 07 00 00 00 15";
const BOTH: &str = "08 08 42 02 10 0D 42 05 0A 01 78 10 0D 3A 03 12 01 67";
const DEFAULT: &str = super::M0;

#[rustfmt::skip]
const LISTED: &[Listed] = &[
    ("28, x is the model's import", BOTH, &["0A 01 66 4A 02 10 0D 3A 08 12 00 22 01 58 3A 01 78"], (28, 35, 0)),
    ("28, the default domain is the model's import: at the node", BOTH, &["0A 01 66 4A 05 0A 01 78 10 0D 3A 05 12 00 22 01 58"], (28, 31, 0)),
    ("28, an empty domain: at the domain", BOTH, &["0A 01 66 4A 05 0A 01 78 10 0D 3A 07 3A 00 12 00 22 01 58"], (28, 33, 0)),
    ("28, ai.onnx: at the domain", BOTH, &["0A 01 66 4A 05 0A 01 78 10 0D 3A 0E 12 00 22 01 58 3A 07 61 69 2E 6F 6E 6E 78"], (28, 38, 0)),
    ("x is the function's import and not the model's", DEFAULT, &["0A 01 66 4A 05 0A 01 78 10 0D 3A 08 12 00 22 01 58 3A 01 78"], (0, 1, 0)),
    ("both are the function's imports", DEFAULT, &["0A 01 66 4A 05 0A 01 78 10 0D 4A 02 10 0D 3A 08 12 00 22 01 58 3A 01 78 3A 05 12 00 22 01 58"], (0, 2, 0)),
    ("28, x is the first function's import", DEFAULT, &["0A 01 66 4A 05 0A 01 78 10 0D", "0A 01 67 4A 02 10 0D 3A 08 12 00 22 01 58 3A 01 78"], (28, 41, 0)),
    ("28, x is the next function's import", DEFAULT, &["0A 01 66 4A 02 10 0D 3A 08 12 00 22 01 58 3A 01 78", "0A 01 67 4A 05 0A 01 78 10 0D"], (28, 28, 0)),
    ("13, x twice", DEFAULT, &["0A 01 66 4A 05 0A 01 78 10 0D 4A 05 0A 01 78 10 07"], (13, 24, 0)),
    ("a function of the domain x, which nobody imports", DEFAULT, &["0A 01 66 4A 02 10 0D 52 01 78"], (0, 0, 0)),
    ("28, the function's own domain is no import", DEFAULT, &["0A 01 66 4A 02 10 0D 52 01 78 3A 08 12 00 22 01 58 3A 01 78"], (28, 31, 0)),
    ("28 in a body, x is the model's import", BOTH, &["0A 01 66 4A 02 10 0D 3A 1C 12 00 22 01 58 2A 15 0A 01 6B A0 01 05 32 0D 12 01 67 0A 08 12 00 22 01 58 3A 01 78"], (28, 55, 0)),
    ("x in a body, the function's import", DEFAULT, &["0A 01 66 4A 05 0A 01 78 10 0D 3A 1F 12 00 22 01 58 3A 01 78 2A 15 0A 01 6B A0 01 05 32 0D 12 01 67 0A 08 12 00 22 01 58 3A 01 78"], (0, 2, 0)),
    ("28 in the main graph, x is a function's import", "08 08 42 02 10 0D 3A 0D 12 01 67 0A 08 12 00 22 01 58 3A 01 78", &["0A 01 66 4A 05 0A 01 78 10 0D"], (28, 18, 0)),
];

pub fn other_lists() -> Vec<Row> {
    let listed =
        |(name, model, functions, said): &Listed| row(name, behind(model, functions), &hex(LIST), 0, answer(*said));
    LISTED.iter().map(listed).collect()
}
