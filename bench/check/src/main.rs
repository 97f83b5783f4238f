//! The proved check beside an ordinary Rust checker, the Protocol Buffers parse and onnx::checker: bench/run.
//!
//! `check_bench FOLDER LIBRARY COMMAND full|quick [WORD]` prints the tables and writes FOLDER/sweep.csv; with a word it
//! prints those of the workloads whose names contain it, and no more;
//! `check_bench crafted` prints what names made for a seed cost;
//! `check_bench before full|quick [WORD]` prints times beside those of another clone's library;
//! `check_bench memory SIDE MODEL LIST CELLS EXTRA LIBRARY` is what it starts to measure the memory of one side.

#[cfg(feature = "before")]
mod before;
mod clock;
mod command;
mod crafted;
mod files;
mod functions;
mod given;
mod ir_3;
mod lists;
mod markdown;
mod memory;
mod onnx;
mod report;
mod searches;
mod sweep;
mod timing;
mod watch;
mod workloads;

use std::collections::hash_map::RandomState;
use std::fs;
use std::hash::{BuildHasher, Hasher};
use std::path::Path;
use std::process::ExitCode;
use std::time::Duration;

use memory::Lent;
use onnx::Onnx;
use report::Run;
use timing::Plan;
use workloads::LARGEST;

const FULL: Plan = Plan { runs: 21, budget: Duration::from_secs(4) };
const QUICK: Plan = Plan { runs: 5, budget: Duration::from_secs(1) };

fn main() -> ExitCode {
    let words: Vec<String> = std::env::args().skip(1).collect();
    let words: Vec<&str> = words.iter().map(String::as_str).collect();
    let done = match words[..] {
        ["memory", side, model, list, cells, extra, library] => {
            memory::report(side, model, &Lent { list, cells, extra }, library).map(|kb| println!("{kb}"))
        }
        ["crafted"] => {
            println!("{}", crafted::rows(random()));
            Ok(())
        }
        ["before", length] => before(length, ""),
        ["before", length, word] => before(length, word),
        [folder, library, command, "full"] => all([folder, library, command], FULL, ""),
        [folder, library, command, "quick"] => all([folder, library, command], QUICK, ""),
        [folder, library, command, "full", word] => all([folder, library, command], FULL, word),
        [folder, library, command, "quick", word] => all([folder, library, command], QUICK, word),
        _ => Err("usage: check_bench FOLDER LIBRARY COMMAND full|quick [WORD]".to_string()),
    };
    match done {
        Ok(()) => ExitCode::SUCCESS,
        Err(told) => {
            eprintln!("{told}");
            ExitCode::FAILURE
        }
    }
}

/// A seed from the system: whoever made a model beforehand cannot have known it.
fn random() -> u64 {
    RandomState::new().build_hasher().finish()
}

#[cfg(feature = "before")]
fn before(length: &str, word: &str) -> Result<(), String> {
    let plan = if length == "quick" { QUICK } else { FULL };
    let run = Run { folder: Path::new(""), onnx: None, library: "", command: None, plan, seed: random() };
    println!("Seed of the index, drawn for this run: {:#018x}.\n", run.seed);
    println!("Time, best run:\n\n{}", before::rows(&run, &report::chosen(word)?));
    Ok(())
}

#[cfg(not(feature = "before"))]
fn before(_: &str, _: &str) -> Result<(), String> {
    Err("built without the feature `before`: bench/run --before CLONE".to_string())
}

fn all([folder, library, command]: [&str; 3], plan: Plan, word: &str) -> Result<(), String> {
    let onnx = Onnx::load(library);
    if let Err(told) = &onnx {
        println!("Without Protocol Buffers and onnx::checker (apt-get install libonnx-dev libprotobuf-dev): {told}\n");
    }
    let (folder, command) = (Path::new(folder), Some(Path::new(command)).filter(|command| command.is_file()));
    let run = Run { folder, onnx: onnx.as_ref().ok(), library, command, plan, seed: random() };
    println!("Seed of the index, drawn for this run: {:#018x}.\n", run.seed);
    println!("{}", report::workloads(&run, word)?);
    if LARGEST.name.contains(word) {
        println!("The command on the workload of 1.9 GB, output to /dev/null:\n\n{}", command::rows(&run)?);
    }
    if !word.is_empty() {
        return Ok(());
    }
    println!("Names made to share a bucket, as outputs of a chain:\n\n{}", crafted::rows(run.seed));
    let csv = sweep::csv(&run);
    let file = run.folder.join("sweep.csv");
    fs::write(&file, &csv).map_err(|error| format!("{}: {error}", file.display()))?;
    println!("Time against the number of nodes in a chain:\n\n{}", sweep::rows(&csv));
    Ok(())
}
