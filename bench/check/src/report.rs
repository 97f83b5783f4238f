//! The tables of the workloads.

use std::path::Path;
use std::time::Duration;

use crate::files::Scratch;
use crate::given::Given;
use crate::markdown::{count, head, megabytes, ratio, table, time, MISSING};
use crate::memory::{self, Lent};
use crate::onnx::Onnx;
use crate::timing::{alone, in_turn, measure, Measured, Plain, Plan, Times};
use crate::workloads::{Workload, WORKLOADS};

/// What a run needs: where files go, the C++ side if it is there and its path, the command if it is there, how long to
/// measure, and the seed.
pub struct Run<'a> {
    pub folder: &'a Path,
    pub onnx: Option<&'a Onnx>,
    pub library: &'a str,
    pub command: Option<&'a Path>,
    pub plan: Plan,
    pub seed: u64,
}

impl Run<'_> {
    /// A workload at a part of its size: 4 is a quarter.
    pub fn given(&self, workload: &Workload, part: usize) -> Given {
        let model = (workload.make)(workload.size.unwrap_or(part) / part, self.seed);
        let other = self.seed.rotate_left(17) ^ 0x6A09_E667_F3BC_C908;
        Given::new(model, workload.operators(), if workload.other_seed { other } else { self.seed })
    }
}

const TIME_HEAD: [&str; 11] = [
    "indexed ÷ Rust",
    "indexed ÷ parse",
    "indexed ÷ (parse + onnx::checker)",
    "plain ÷ Rust",
    "workload",
    "bytes",
    "indexed check",
    "plain check",
    "Rust checker",
    "protobuf parse",
    "onnx::checker",
];

const GROWTH_HEAD: [&str; 8] =
    ["workload", "at n", "at 2n", "at 4n", "2n ÷ n", "4n ÷ 2n", "of 4n, clearing", "cells and extra cells"];

const MEMORY_HEAD: [&str; 7] =
    ["workload", "model", "indexed check", "plain check", "Rust checker", "protobuf parse", "parse + onnx::checker"];

pub const NONE: &str = "–";

/// The indexed check at a quarter, at half and at the whole of the size, and the time for clearing the cells of the whole.
struct Growth {
    sizes: Option<[Duration; 3]>,
    clearing: Duration,
}

/// The tables of the workloads whose names contain the word, and what onnx::checker has against any of them.
pub fn workloads(run: &Run, word: &str) -> Result<String, String> {
    let (mut times, mut growths, mut memory) =
        (vec![head(&TIME_HEAD)], vec![head(&GROWTH_HEAD)], vec![head(&MEMORY_HEAD)]);
    let mut told = String::new();
    for workload in chosen(word)? {
        eprintln!("{}", workload.name);
        let quarter = workload.size.is_some().then(|| run.given(workload, 4));
        let smaller = quarter.as_ref().map(|quarter| (quarter.plain()(), 16));
        let given = run.given(workload, 1);
        let measured = measure(&given, smaller, run.onnx, run.plan);
        let sizes = quarter.map(|quarter| sizes(&quarter, &run.given(workload, 2), &given, run.plan));
        let growth = Growth { sizes, clearing: alone(given.clearing(), short(run.plan)).best() };
        times.push(time_row(workload.name, &given, &measured));
        growths.push(growth_row(workload.name, &given, &growth, measured.indexed.best()));
        memory.push(memory_row(run, workload.name, &given, &measured)?);
        if let Some(complaint) = &measured.told {
            told.push_str(&format!("- onnx::checker refuses \"{}\": {complaint}\n", workload.name));
        }
    }
    if run.onnx.is_some() && told.is_empty() {
        told.push_str("onnx::checker lets every one of these models pass.\n");
    }
    let (times, growths, memory) = (table(&times, &[4]), table(&growths, &[0]), table(&memory, &[0]));
    let growing = "The indexed check at a quarter of each workload (n), at half and at the whole:";
    let peak = "Peak memory beside the model's own bytes, in MB:";
    Ok(format!("Time, best run (median):\n\n{times}\n{told}\n{growing}\n\n{growths}\n{peak}\n\n{memory}"))
}

pub fn chosen(word: &str) -> Result<Vec<&'static Workload>, String> {
    let chosen: Vec<&Workload> = WORKLOADS.iter().filter(|workload| workload.name.contains(word)).collect();
    if chosen.is_empty() {
        return Err(format!("no workload's name contains {word:?}"));
    }
    Ok(chosen)
}

/// For what is beside the table.
pub fn short(plan: Plan) -> Plan {
    Plan { runs: plan.runs.min(9), budget: plan.budget / 4 }
}

/// The indexed check at three sizes in turn: a ratio of times from different minutes would say more of the machine.
fn sizes(quarter: &Given, half: &Given, whole: &Given, plan: Plan) -> [Duration; 3] {
    let plan = Plan { budget: plan.budget / 2, ..plan };
    in_turn([quarter.indexed(), half.indexed(), whole.indexed()], plan).map(|times| times.best())
}

pub fn both(times: &Times) -> String {
    format!("{} ({})", time(times.best()), time(times.median()))
}

fn time_row(name: &str, given: &Given, m: &Measured) -> Vec<String> {
    let indexed = m.indexed.best();
    let (beside, steps) = match &m.onnx {
        Some((parse, checker)) => (
            [ratio(indexed, parse.best()), ratio(indexed, parse.best() + checker.best())],
            [both(parse), both(checker)],
        ),
        None => ([MISSING, MISSING].map(String::from), [MISSING, MISSING].map(String::from)),
    };
    let (plain_ratio, plain) = match &m.plain {
        Plain::Run(times) => (ratio(times.best(), m.rust.best()), both(times)),
        Plain::Quarter(taken) => (NONE.to_string(), format!("not run ({} at a quarter)", time(*taken))),
    };
    let mut row = vec![ratio(indexed, m.rust.best())];
    row.extend(beside);
    row.extend([plain_ratio, name.to_string(), count(given.model.len() as u64)]);
    row.extend([both(&m.indexed), plain, both(&m.rust)]);
    row.extend(steps);
    row
}

fn growth_row(name: &str, given: &Given, growth: &Growth, whole: Duration) -> Vec<String> {
    let sizes = match growth.sizes {
        Some([quarter, half, whole]) => {
            [time(quarter), time(half), time(whole), ratio(half, quarter), ratio(whole, half)]
        }
        None => [NONE.to_string(), NONE.to_string(), time(whole), NONE.to_string(), NONE.to_string()],
    };
    let lent = format!("{} + {}", count(given.cells as u64), count(given.extra as u64));
    let mut row = vec![name.to_string()];
    row.extend(sizes);
    row.extend([time(growth.clearing), lent]);
    row
}

fn memory_row(run: &Run, name: &str, given: &Given, m: &Measured) -> Result<Vec<String>, String> {
    let model = Scratch::new(run.folder.join("workload.onnx"), &given.model)?;
    let list = Scratch::new(run.folder.join("workload.lst"), &given.list)?;
    let words = (list.word(), given.cells.to_string(), given.extra.to_string());
    let lent = Lent { list: &words.0, cells: &words.1, extra: &words.2 };
    let mut row = vec![name.to_string(), megabytes(given.model.len() as u64 / 1024)];
    for side in memory::SIDES {
        let cpp = matches!(side, "parse" | "checker");
        row.push(match (cpp && run.onnx.is_none(), side, &m.plain) {
            (true, _, _) => MISSING.to_string(),
            (_, "plain", Plain::Quarter(_)) => "not run".to_string(),
            _ => megabytes(memory::measure(side, &model.path, &lent, run.library)?),
        });
    }
    Ok(row)
}
