//! The most memory that one side needs beside the model, measured in a process of its own.

use std::fs;
use std::hint::black_box;
use std::path::Path;
use std::process::Command;

use gate_tests::checker::{check, CELLS_PER_NAME};
use gate_tests::gate::{raw_check, raw_check_indexed};

use crate::onnx::Onnx;

/// The sides by the words of the command line.
pub const SIDES: [&str; 5] = ["indexed", "plain", "rust", "parse", "checker"];

/// What is lent, as words of the command line: the file of the operator list, cells, extra cells.
pub struct Lent<'a> {
    pub list: &'a str,
    pub cells: &'a str,
    pub extra: &'a str,
}

/// Runs this program again for one side. In kB.
pub fn measure(side: &str, model: &Path, lent: &Lent, library: &str) -> Result<u64, String> {
    let program = std::env::current_exe().map_err(|error| error.to_string())?;
    let output = Command::new(program)
        .args(["memory", side])
        .arg(model)
        .args([lent.list, lent.cells, lent.extra, library])
        .output()
        .map_err(|error| error.to_string())?;
    let told = String::from_utf8_lossy(&output.stdout);
    told.trim().parse().map_err(|_| format!("{side}: {}", String::from_utf8_lossy(&output.stderr)))
}

fn read(path: &str) -> Result<Vec<u8>, String> {
    fs::read(path).map_err(|error| format!("{path}: {error}"))
}

/// What the process started by `measure` does: the peak with one call, above what stood before it.
pub fn report(side: &str, model: &str, lent: &Lent, library: &str) -> Result<u64, String> {
    let (model, list) = (read(model)?, read(lent.list)?);
    let number = |word: &str| word.parse::<usize>().map_err(|_| format!("{word} is no number"));
    let room = (number(lent.cells)?, number(lent.extra)?);
    let onnx = if matches!(side, "parse" | "checker") { Some(Onnx::load(library)?) } else { None };
    // Once on a tiny model first: what is set up once for all models (tables of operators) is not the model's.
    work(side, &TINY, &list, (CELLS_PER_NAME, 4 * CELLS_PER_NAME), onnx.as_ref())?;
    // 5 sets the peak back to what is resident now. The peak of getrusage cannot be: it even outlives an exec.
    fs::write("/proc/self/clear_refs", "5").map_err(|error| format!("clear_refs: {error}"))?;
    let before = status("VmRSS:")?;
    work(side, &model, &list, room, onnx.as_ref())?;
    Ok(status("VmHWM:")?.saturating_sub(before))
}

/// M1 of document 01.
const TINY: [u8; 19] = *b"\x08\x08\x42\x02\x10\x0D\x3A\x0B\x12\x01\x67\x0A\x06\x12\x01\x61\x22\x01\x58";

/// No seed makes a difference to memory. A small one would make one to time.
const SEED: u64 = 0x9E37_79B9_7F4A_7C15;

fn work(side: &str, model: &[u8], list: &[u8], room: (usize, usize), onnx: Option<&Onnx>) -> Result<(), String> {
    let (cells, extra) = room;
    let done = match (side, onnx) {
        // The cells are the caller's, and all the memory that the check works with.
        ("indexed", _) => raw_check_indexed(model, list, &mut vec![0; cells], &mut vec![0; extra], SEED).refusal == 0,
        ("plain", _) => raw_check(model, list, &mut vec![0; cells]).refusal == 0,
        ("rust", _) => check(model, list, cells).number() == 0,
        ("parse", Some(onnx)) => onnx.parse(model).is_some(),
        ("checker", Some(onnx)) => onnx.parse(model).is_some_and(|parsed| parsed.check().is_ok()),
        _ => return Err(format!("no side {side}")),
    };
    black_box(done);
    Ok(())
}

fn status(line: &str) -> Result<u64, String> {
    let all = fs::read_to_string("/proc/self/status").map_err(|error| error.to_string())?;
    kilobytes(&all, line).ok_or(format!("no {line} in /proc/self/status"))
}

/// A line of a process's status, in kB.
pub fn kilobytes(status: &str, line: &str) -> Option<u64> {
    status.lines().find_map(|l| l.strip_prefix(line))?.split_whitespace().next()?.parse().ok()
}
