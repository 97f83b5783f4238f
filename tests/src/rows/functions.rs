//! Rows for functions: document 02, Req 01, each sentence of it and of its readings. The rows are worked out by hand but for those of
//! `wires.rs`, `values.rs` and `names.rs`, which go through all fields, types and kinds of name.

mod attributes;
mod bodies;
mod identity;
mod imports;
mod names;
mod odd;
mod references;
#[cfg(test)]
mod runs;
mod values;
mod versions;
mod wires;

use super::by_hand::{answer, Answer};
use super::{hex, refused, row, with_odd, Row};
use crate::models::lists::L;

/// Rows that are tried in other spellings too.
pub fn functions() -> Vec<Row> {
    let mut rows = Vec::new();
    for (name, rest, cells, said) in [attributes::OF_F, imports::OF_F, bodies::OF_F, references::OF_F].concat() {
        rows.push(row(name, behind(M0, &[&format!("{F} {rest}")]), &L, cells, answer(said)));
    }
    for (name, functions, cells, said) in [identity::FUNCTIONS, imports::FUNCTIONS, bodies::FUNCTIONS].concat() {
        rows.push(row(name, behind(M0, functions), &L, cells, answer(said)));
    }
    for (name, graph, functions, cells, said) in [bodies::WITH_GRAPH, references::WITH_GRAPH].concat() {
        rows.push(row(name, behind(&with_graph(graph), functions), &L, cells, answer(said)));
    }
    for (name, functions, cells, (nodes, names, odd)) in odd::FUNCTIONS {
        rows.push(row(name, behind(M0, functions), &L, *cells, with_odd(*nodes, *names, *odd)));
    }
    for (name, model, number, place) in wires::MODELS {
        rows.push(row(name, hex(model), &L, 9, refused(*number, *place)));
    }
    rows.extend(imports::other_lists());
    rows.extend(whole_functions());
    rows
}

/// Rows that go through all versions, fields, types and kinds of name.
pub fn function_fields() -> Vec<Row> {
    [identity::overloads(), versions::rows(), wires::rows(), values::rows(), names::rows()].concat()
}

/// Accepted models, few and short, with all that a function has: what is near to them is tried byte by byte.
pub fn whole_functions() -> Vec<Row> {
    let whole = |(name, version, functions, cells, said): &Whole| {
        let header = format!("08 {version:02X} 42 02 10 0D 3A 03 12 01 67");
        row(name, behind(&header, functions), &L, *cells, answer(*said))
    };
    WHOLE.iter().map(whole).collect()
}

/// Functions behind M0 at an IR version.
type Whole = (&'static str, u8, &'static [&'static str], usize, Answer);

#[rustfmt::skip]
const WHOLE: &[Whole] = &[
    ("name and import", 8, &["0A 01 66 4A 02 10 0D"], 0, (0, 0, 0)),
    ("input, node and output", 9, &["0A 01 66 4A 02 10 0D 22 01 61 3A 09 0A 01 61 12 01 62 22 01 58 2A 01 62"], 4, (0, 1, 2)),
    ("attribute, default and a reference to each", 9, &["0A 01 66 4A 02 10 0D 32 01 72 5A 06 0A 01 64 A0 01 02 3A 1D 12 00 22 01 58 2A 0A 0A 01 6B A0 01 02 AA 01 01 72 2A 0A 0A 01 6C A0 01 02 AA 01 01 64"], 0, (0, 1, 0)),
    ("a reference in a nested graph", 8, &["0A 01 66 4A 02 10 0D 32 01 72 3A 25 12 00 22 01 58 2A 1E 0A 01 6B A0 01 05 32 16 12 01 67 0A 11 12 00 22 01 58 2A 0A 0A 01 6B A0 01 02 AA 01 01 72"], 0, (0, 2, 0)),
    ("two domains", 8, &["0A 01 66 4A 02 10 0D 52 01 78", "0A 01 66 4A 02 10 0D 52 01 79"], 0, (0, 0, 0)),
    ("two overloads", 10, &["0A 01 66 4A 02 10 0D 6A 01 6F", "0A 01 66 4A 02 10 0D 6A 01 70"], 0, (0, 0, 0)),
];

const M0: &str = super::M0;

/// A function `f` that imports the default domain. Behind M0 its tag is at 11, its name at 14, its import at 17, and what follows at 21.
const F: &str = "0A 01 66 4A 02 10 0D";

/// What stands in the function `f` behind its name and import: name, bytes, cells and answer.
type OfF = (&'static str, &'static str, usize, Answer);

/// Whole functions behind M0: the first has its tag at 11 and its first field at 14. Each takes three bytes besides its own.
type Functions = (&'static str, &'static [&'static str], usize, Answer);

/// Functions behind another main graph, whose first field is at 8.
type WithGraph = (&'static str, &'static str, &'static [&'static str], usize, Answer);

fn with_graph(graph: &str) -> String {
    format!("08 08 42 02 10 0D 3A {:02X} {graph}", hex(graph).len())
}

/// The model, and these functions behind it, each under 128 bytes long.
fn behind(model: &str, functions: &[&str]) -> Vec<u8> {
    let mut model = hex(model);
    for function in functions.iter().map(|function| hex(function)) {
        model.extend([0xCA, 0x01, function.len() as u8]);
        model.extend(function);
    }
    model
}
