//! The library's answer to a model, on the terms that the command line sets.
use crate::args::{Operators, Terms};
use crate::explain::Given;
use crate::input::{self, Model};
use crate::{complain, lists, text};
use onnx_gate::{operators, Accepted, Options, Refusal};
use std::ffi::OsStr;

pub struct Judge {
    list: Vec<u8>,
    options: Options,
}

/// The bytes of a model, and the answer to these bytes.
pub struct Judged {
    pub model: Model,
    pub answer: Result<Accepted, Refusal>,
    cells: usize,
}

impl Judge {
    /// Reads the operator list. Under an unsound one the library refuses every model; whose fault that is should be plain.
    pub fn new(terms: &Terms) -> Result<Judge, String> {
        let list = match &terms.operators {
            Operators::List(list) => list.clone(),
            Operators::File(file) => {
                let list = input::read_list(file).map_err(|why| format!("{}: {why}", text::file(file)))?;
                if !operators::is_sound(&list) {
                    complain(&lists::unsound(file, &list));
                }
                list
            }
        };
        let cells = terms.cells.unwrap_or(usize::MAX);
        Ok(Judge { list, options: Options { cells, seed: terms.seed, ..Options::default() } })
    }

    /// The answer to the model in a file, or why there is none.
    pub fn judge(&self, file: &OsStr, model: Model) -> Result<Judged, String> {
        warn_of_size(file, model.len() as u64);
        let checked = self.options.check(&model, &self.list).map_err(|why| why.to_string())?;
        Ok(Judged { model, answer: checked.answer, cells: checked.cells })
    }

    /// What an explanation of the answer goes by.
    pub fn given<'a>(&'a self, judged: &'a Judged) -> Given<'a> {
        Given { model: &judged.model, operators: &self.list, cells: judged.cells }
    }
}

/// Sizes that are seldom meant.
fn warn_of_size(file: &OsStr, size: u64) {
    let said = match size {
        0 => "is empty, and judged as a model of no bytes",
        input::MOST.. => "is larger than any model that is accepted; the rest of it is not read",
        _ => return,
    };
    complain(&format!("{} {said}", text::file(file)));
}
