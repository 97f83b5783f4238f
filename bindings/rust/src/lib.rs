//! The proved gate for Rust: a model is accepted or refused before a runtime sees it.
//!
//! The answer is that of the proved library, `libgate_c.a`; nothing here judges a model.
//!
//! ```
//! let list = onnx_gate::operators::write(&[("ai.onnx", 7, 21)]).unwrap();
//! let model = b"\x08\x08\x42\x02\x10\x0D\x3A\x0B\x12\x01g\x0A\x06\x12\x01a\x22\x01X";
//! match onnx_gate::check(model, &list) {
//!     Ok(accepted) => println!("{accepted}"),
//!     Err(refusal) => println!("{refusal}: {}", refusal.explanation()),
//! }
//! ```
//!
//! `check` allocates as many cells as the model needs; `Options` bounds them. `check_indexed` and `check_with` work in
//! the caller's cells and allocate nothing.

pub mod operators;
mod refusal;
mod rules;
mod sizing;
mod skim;

pub use refusal::Refusal;
pub use rules::{rule, Rule, RULES};
pub use sizing::{check, Checked, NoMemory, Options, MEMORY};

use refusal::ALREADY_VISIBLE;
use std::fmt;

/// A model longer than this is refused with 7.
pub const LARGEST_MODEL: usize = 2_147_483_647;

/// The cells that a visible name takes, for its place and its length: an odd cell is of no use.
pub const CELLS_PER_NAME: usize = 2;

/// The three counts of an acceptance.
#[derive(Clone, Copy, Debug, PartialEq, Eq)]
pub struct Accepted {
    /// Nodes in all graphs and functions.
    pub nodes: u64,
    /// The largest number of names visible together, in the main graph or in a function.
    pub names: u64,
    /// Fields with a name that is no identifier of C, as exporters write them: `/encoder/MatMul_output_0`. Counted is each
    /// name of a graph, function, input, output, initializer, node and attribute, each op_type, input and output of a
    /// node, and each dim_param of the main graph's inputs and outputs.
    pub odd: u64,
}

impl fmt::Display for Accepted {
    fn fmt(&self, f: &mut fmt::Formatter<'_>) -> fmt::Result {
        write!(f, "accepted nodes {} names {} odd {}", self.nodes, self.names, self.odd)
    }
}

/// What crosses: `refusal` is 0 for an acceptance.
#[repr(C)]
struct Answer {
    refusal: u64,
    place: u64,
    nodes: u64,
    names: u64,
    first: u64,
    odd: u64,
}

#[repr(C)]
struct Part {
    start: u64,
    length: u64,
}

extern "C" {
    fn onnx_gate_check(
        model: *const u8,
        model_length: usize,
        operators: *const u8,
        operators_length: usize,
        cells: *mut u32,
        cells_length: usize,
    ) -> Answer;
    fn onnx_gate_check_indexed(
        model: *const u8,
        model_length: usize,
        operators: *const u8,
        operators_length: usize,
        cells: *mut u32,
        cells_length: usize,
        extra: *mut u32,
        extra_length: usize,
        seed: u64,
    ) -> Answer;
    fn onnx_gate_show_name(model: *const u8, model_length: usize, start: u64, length: u64) -> Part;
}

impl Answer {
    fn told(self) -> Result<Accepted, Refusal> {
        match self.refusal {
            0 => Ok(Accepted { nodes: self.nodes, names: self.names, odd: self.odd }),
            number => {
                let first = Some(self.first as usize).filter(|_| number == ALREADY_VISIBLE);
                Err(Refusal { number, place: self.place as usize, first })
            }
        }
    }
}

/// The check in the caller's cells, `CELLS_PER_NAME` for each name that may be visible at once, and with no index: its
/// time grows with the square of the names. All cells are zero afterwards, whatever they held.
pub fn check_with(model: &[u8], operators: &[u8], cells: &mut [u32]) -> Result<Accepted, Refusal> {
    // SAFETY: a Rattle slice is a pointer and a length, never null here. The function only reads the model and
    // the list, writes only the cells, keeps none of them, and has no precondition.
    let answer = unsafe {
        onnx_gate_check(
            model.as_ptr(),
            model.len(),
            operators.as_ptr(),
            operators.len(),
            cells.as_mut_ptr(),
            cells.len(),
        )
    };
    answer.told()
}

/// The same answer for every `seed`, by an index in extra cells; refused with 65 where these are fewer than four times
/// the cells. With `4 * (cells.len() / 2) + 2 + 4 * (model.len() / 3)` of them, if that is more, the time is linear, as
/// long as whoever makes the model does not know the seed. All cells of both kinds are zero afterwards, whatever they
/// held.
pub fn check_indexed(
    model: &[u8],
    operators: &[u8],
    cells: &mut [u32],
    extra: &mut [u32],
    seed: u64,
) -> Result<Accepted, Refusal> {
    // SAFETY: as above; the function writes the extra cells too.
    let answer = unsafe {
        onnx_gate_check_indexed(
            model.as_ptr(),
            model.len(),
            operators.as_ptr(),
            operators.len(),
            cells.as_mut_ptr(),
            cells.len(),
            extra.as_mut_ptr(),
            extra.len(),
            seed,
        )
    };
    answer.told()
}

/// The part of `model` that starts at `start` and has `length` bytes, or the empty part where it does not fit.
pub fn show_name(model: &[u8], start: usize, length: usize) -> &[u8] {
    // SAFETY: as above; the function reads nothing but the length.
    let part = unsafe { onnx_gate_show_name(model.as_ptr(), model.len(), start as u64, length as u64) };
    &model[part.start as usize..][..part.length as usize]
}

#[cfg(test)]
mod tests;
