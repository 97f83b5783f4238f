//! Every file of examples/ through the binding and through its example program, against tests/examples.txt.
use onnx_gate::{check, check_indexed, check_with, operators, Accepted, Refusal};
use std::path::{Path, PathBuf};
use std::process::Command;

const ROOT: &str = concat!(env!("CARGO_MANIFEST_DIR"), "/../..");

/// Each file with the answer that it is to have.
fn table() -> Vec<(PathBuf, String)> {
    let text = std::fs::read_to_string(format!("{ROOT}/tests/examples.txt")).unwrap();
    let rows = text.lines().filter(|line| !line.starts_with('#')).map(|row| row.split_once(": ").unwrap());
    let rows: Vec<_> =
        rows.map(|(file, answer)| (Path::new(ROOT).join("examples").join(file), answer.into())).collect();
    assert!(rows.len() > 30, "{} rows", rows.len());
    rows
}

fn line(answer: Result<Accepted, Refusal>) -> String {
    answer.map_or_else(|refusal| refusal.to_string(), |accepted| accepted.to_string())
}

#[test]
fn answers() {
    let list = operators::write(&[("ai.onnx", 7, 21), ("ai.onnx.ml", 1, 5)]).unwrap();
    for (path, expected) in table() {
        let model = std::fs::read(&path).unwrap();
        assert_eq!(line(check(&model, &list)), expected, "{path:?}");
        let (mut cells, mut extra) = ([7; 99], [7; 4 * 99 + 200]);
        assert_eq!(line(check_with(&model, &list, &mut cells)), expected, "{path:?}, in lent cells");
        assert_eq!(line(check_indexed(&model, &list, &mut cells, &mut extra, 5)), expected, "{path:?}, indexed");
    }
}

/// Cargo puts examples beside the folder of test programs.
fn example() -> PathBuf {
    std::env::current_exe().unwrap().parent().unwrap().with_file_name("examples").join("check")
}

#[test]
fn the_example_exits_with_1_on_a_refusal() {
    for (path, expected) in table() {
        let output = Command::new(example()).arg(&path).output().unwrap();
        let said = String::from_utf8(output.stdout).unwrap();
        assert_eq!(said.trim_end().split(": ").next(), Some(&expected[..]), "{path:?}");
        let status = if expected.starts_with("accepted") { 0 } else { 1 };
        assert_eq!(output.status.code(), Some(status), "{path:?}");
    }
    let absent = Command::new(example()).arg("/no/such/model").output().unwrap();
    assert!(!absent.status.success() && absent.stdout.is_empty());
}
