//! Models aimed at the index: at names that come, go and come again, at lists that it remembers only in part, and at names
//! that share a bucket. The answer of each is worked out by hand; none may depend on how the extra cells are laid out.

mod attributes;
mod crafted;
mod defaults;
mod function_attributes;
mod function_imports;
mod functions;
mod imports;
mod near;
mod nested_defaults;
mod nodes;
mod parts;
mod references;
mod scopes;
mod starts;

use crate::checker::{Counts, Verdict, CELLS_PER_NAME};
use crate::models::lists::L;
use crate::models::proto::Tree;
use crate::rows::Row;

pub use crafted::{crafted, SEED};
pub use near::near;

/// Small ones, for every number of extra cells from `4n` to `4n + 60`.
pub fn small() -> Vec<Row> {
    let lists =
        [nodes::rows(), attributes::rows(), defaults::rows(), nested_defaults::rows(), imports::rows()].concat();
    let of_functions =
        [functions::rows(), function_attributes::rows(), references::rows(), function_imports::rows()].concat();
    [scopes::rows(), lists, of_functions, starts::rows(), crafted::few()].concat()
}

/// So many names in a list: more than the smaller sizes of extra cells have room for.
const MANY: usize = 24;

/// Which of many names comes again: the first, some on each side of where a small memory ends, the last.
const AGAIN: [usize; 6] = [0, 1, 6, 7, 13, MANY - 1];

/// All names are identifiers.
fn accepted(name: &str, model: Vec<u8>, nodes: usize, names: usize) -> Row {
    let answer = Verdict::Accepted(Counts { nodes: nodes as u64, names: names as u64, odd: 0 });
    Row { name: name.into(), model, list: L.to_vec(), cells: CELLS_PER_NAME * names, answer }
}

/// Refused at the `nth` field, counted from 0, with this tag and these contents. There are cells enough.
fn refused(name: &str, model: Vec<u8>, number: u64, field: (u8, &str, usize)) -> Row {
    let answer = Verdict::refused(number, place_of(&model, field));
    Row { name: name.into(), model, list: L.to_vec(), cells: CELLS_PER_NAME * 3 * MANY, answer }
}

/// 23 at such a field. `first`: which field with the same tag and contents defines the name.
fn twice(name: &str, model: Vec<u8>, (tag, contents, nth): (u8, &str, usize), first: usize) -> Row {
    defined(name, model, (tag, contents, nth), (tag, contents, first))
}

/// 23 at the first of these fields, where the second one defines the name.
fn defined(name: &str, model: Vec<u8>, field: (u8, &str, usize), first: (u8, &str, usize)) -> Row {
    let answer = Verdict::twice(place_of(&model, field), place_of(&model, first));
    Row { answer, ..refused(name, model, 23, field) }
}

fn place_of(model: &[u8], (tag, contents, nth): (u8, &str, usize)) -> u64 {
    place_of_bytes(model, tag, contents.as_bytes(), nth)
}

/// The contents are shorter than 128 bytes.
fn place_of_bytes(model: &[u8], tag: u8, contents: &[u8], nth: usize) -> u64 {
    let field = [&[tag, contents.len() as u8], contents].concat();
    let mut places = (0..model.len()).filter(|at| model[*at..].starts_with(&field));
    places.nth(nth).unwrap_or_else(|| panic!("no field {nth} {tag:02X} {contents:02X?}")) as u64
}

/// Refused at the last field of the model: nothing but it stands where it begins.
fn at_last(name: &str, number: u64, mut model: Tree) -> Row {
    let whole = model.encode();
    model.items.pop();
    let answer = Verdict::refused(number, model.encode().len() as u64);
    Row { name: name.into(), model: whole, list: L.to_vec(), cells: CELLS_PER_NAME * 3 * MANY, answer }
}

#[cfg(test)]
mod tests {
    use super::*;
    use crate::checker::check;

    #[test]
    fn the_checker_on_the_small_models() {
        let rows = small();
        for row in &rows {
            assert_eq!(check(&row.model, &row.list, row.cells), row.answer, "{}", row.name);
        }
        for number in [0, 13, 23, 28, 29, 30, 31, 33, 35, 41, 42, 43] {
            let count = rows.iter().filter(|row| row.answer.number() == number).count();
            assert!(count > 1, "{count} rows answer {number}");
        }
    }

    #[test]
    fn the_checker_on_the_other_models() {
        for row in crafted().into_iter().chain(near()) {
            assert_eq!(check(&row.model, &row.list, row.cells), row.answer, "{}", row.name);
        }
    }
}
