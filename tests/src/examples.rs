//! The files of examples/, and tests/examples.txt, the one table that every binding is held to: here by the checker.

use std::collections::BTreeMap;
use std::fs;

use crate::checker::{check, Counts, Verdict};
use crate::models::lists::{encode, Entry};

const ROOT: &str = concat!(env!("CARGO_MANIFEST_DIR"), "/..");

fn list() -> Vec<u8> {
    let entry = |domain: &[u8], lowest, highest| Entry { domain: domain.to_vec(), lowest, highest };
    encode(&[entry(b"ai.onnx", 7, 21), entry(b"ai.onnx.ml", 1, 5)])
}

fn table() -> BTreeMap<String, String> {
    let text = fs::read_to_string(format!("{ROOT}/tests/examples.txt")).expect("a table");
    let rows = text.lines().filter(|line| !line.starts_with('#'));
    rows.map(|row| row.split_once(": ").expect("a file and its answer"))
        .map(|(file, answer)| (file.into(), answer.into()))
        .collect()
}

fn answers() -> BTreeMap<String, Verdict> {
    let files = fs::read_dir(format!("{ROOT}/examples")).expect("examples").map(|file| file.expect("a file").path());
    let models = files.filter(|path| path.extension().is_some_and(|ending| ending == "onnx"));
    let named = models.map(|path| {
        let model = fs::read(&path).expect("a model");
        let name = path.file_name().expect("a name").to_string_lossy().into_owned();
        (name, check(&model, &list(), usize::MAX))
    });
    named.collect()
}

#[test]
fn the_table_is_the_checkers() {
    let told = answers().into_iter().map(|(file, verdict)| (file, verdict.to_string())).collect();
    assert_eq!(table(), told);
}

/// So that a binding that mixes them up is seen.
#[test]
fn counts_differ() {
    let accepted = answers().into_values().filter_map(|verdict| match verdict {
        Verdict::Accepted(counts) => Some(counts),
        Verdict::Refused { .. } => None,
    });
    let counts: Vec<Counts> = accepted.collect();
    let differ =
        |counts: &Counts| counts.nodes != counts.names && counts.odd != counts.nodes && counts.odd != counts.names;
    assert!(counts.len() > 2 && counts.iter().all(differ), "{counts:?}");
    assert!(counts.iter().any(|counts| counts.odd > 0), "{counts:?}");
}
