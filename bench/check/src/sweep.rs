//! Time against the number of nodes in a chain: the plot's figures, and the same as a table.

use std::time::Duration;

use gate_tests::models::lists::L;

use crate::given::Given;
use crate::markdown::{count, head, ratio, table, time, MISSING};
use crate::report::Run;
use crate::timing::{measure, Plain, Times};
use crate::workloads::chain;

const NODES: [usize; 10] = [100, 200, 500, 1_000, 2_000, 5_000, 10_000, 20_000, 50_000, 100_000];

/// In seconds, what bench/plot.py draws. The plain check ends where the next size would take it too long.
pub fn csv(run: &Run) -> String {
    let mut out = String::from("nodes,named,bytes,indexed,plain,rust,parse,checker\n");
    for named in [false, true] {
        let mut before: Option<(Duration, usize)> = None;
        for nodes in NODES {
            eprintln!("{nodes} nodes, {}", if named { "named" } else { "unnamed" });
            let given = Given::new(chain(nodes, named), L.to_vec(), run.seed);
            let smaller = before.map(|(taken, fewer)| (taken, (nodes * nodes / (fewer * fewer)) as u32));
            let m = measure(&given, smaller, run.onnx, run.plan);
            let plain = match &m.plain {
                Plain::Run(times) => {
                    before = Some((times.best(), nodes));
                    seconds(times)
                }
                Plain::Quarter(_) => String::new(),
            };
            let (parse, checker) =
                m.onnx.as_ref().map(|(parse, checker)| (seconds(parse), seconds(checker))).unwrap_or_default();
            let (indexed, rust, bytes) = (seconds(&m.indexed), seconds(&m.rust), given.model.len());
            out.push_str(&format!("{nodes},{},{bytes},{indexed},{plain},{rust},{parse},{checker}\n", u8::from(named)));
        }
    }
    out
}

fn seconds(times: &Times) -> String {
    format!("{:.9}", times.best().as_secs_f64())
}

const HEAD: [&str; 8] = [
    "nodes",
    "names",
    "indexed ÷ Rust",
    "plain ÷ Rust",
    "indexed check",
    "plain check",
    "Rust checker",
    "parse + onnx::checker",
];

pub fn rows(csv: &str) -> String {
    let mut rows = vec![head(&HEAD)];
    for line in csv.lines().skip(1) {
        let cells: Vec<&str> = line.split(',').collect();
        let taken = |at: usize| cells[at].parse().ok().map(Duration::from_secs_f64);
        let (indexed, plain, rust) = (taken(3), taken(4), taken(5));
        let onnx = taken(6).zip(taken(7)).map(|(parse, checker)| parse + checker);
        let beside = |one: Option<Duration>| one.zip(rust).map_or("–".to_string(), |(one, other)| ratio(one, other));
        let shown = |taken: Option<Duration>, none: &str| taken.map_or(none.to_string(), time);
        let named = if cells[1] == "1" { "named" } else { "unnamed" };
        let mut row = vec![count(cells[0].parse().unwrap_or(0)), named.to_string(), beside(indexed), beside(plain)];
        row.extend([shown(indexed, ""), shown(plain, "not run"), shown(rust, ""), shown(onnx, MISSING)]);
        rows.push(row);
    }
    table(&rows, &[1])
}
