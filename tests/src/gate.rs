//! The foreign interface to the proved library.
//!
//! Rattle's `pub extern "C" fn` takes a `&[T]` or `&mut [T]` as a pointer and a length, two parameters in a row, and
//! returns a `#[repr(C)]` struct by C's rules. So `onnx_gate_check(model: &[u8], list: &[u8], cells: &mut [u32])` has
//! the six parameters below, and the indexed check nine. An empty slice may have any pointer that is aligned and not null, as Rust's own has.

use crate::checker::{Counts, Verdict};

/// The answer as it crosses: `refusal` is 0 for an acceptance; numbers that do not apply are 0.
#[repr(C)]
#[derive(Clone, Copy, Debug, PartialEq, Eq)]
pub struct Answer {
    pub refusal: u64,
    pub place: u64,
    pub nodes: u64,
    pub names: u64,
    pub first: u64,
    pub odd: u64,
}

extern "C" {
    fn onnx_gate_check(
        model_ptr: *const u8,
        model_len: usize,
        list_ptr: *const u8,
        list_len: usize,
        cells_ptr: *mut u32,
        cells_len: usize,
    ) -> Answer;
    fn onnx_gate_check_indexed(
        model_ptr: *const u8,
        model_len: usize,
        list_ptr: *const u8,
        list_len: usize,
        cells_ptr: *mut u32,
        cells_len: usize,
        extra_ptr: *mut u32,
        extra_len: usize,
        seed: u64,
    ) -> Answer;
}

/// The library's whole answer, as it came.
pub fn raw_check(model: &[u8], list: &[u8], cells: &mut [u32]) -> Answer {
    // The three slices live through the call, and the library has no other way to reach memory of ours.
    unsafe { onnx_gate_check(model.as_ptr(), model.len(), list.as_ptr(), list.len(), cells.as_mut_ptr(), cells.len()) }
}

/// The same of the indexed check.
pub fn raw_check_indexed(model: &[u8], list: &[u8], cells: &mut [u32], extra: &mut [u32], seed: u64) -> Answer {
    // The four slices live through the call, and the two that are written are two.
    unsafe {
        onnx_gate_check_indexed(
            model.as_ptr(),
            model.len(),
            list.as_ptr(),
            list.len(),
            cells.as_mut_ptr(),
            cells.len(),
            extra.as_mut_ptr(),
            extra.len(),
            seed,
        )
    }
}

impl Answer {
    /// The answer as a verdict; Err where a number that does not apply is not 0.
    pub fn verdict(self) -> Result<Verdict, String> {
        let accepted = self.refusal == 0;
        let stray = if accepted { self.place != 0 } else { self.nodes != 0 || self.names != 0 || self.odd != 0 };
        if stray || self.refusal != 23 && self.first != 0 {
            return Err(format!("a number that does not apply is not 0: {self:?}"));
        }
        if accepted {
            Ok(Verdict::Accepted(Counts { nodes: self.nodes, names: self.names, odd: self.odd }))
        } else {
            Ok(Verdict::Refused { number: self.refusal, place: self.place, first: self.first })
        }
    }
}
