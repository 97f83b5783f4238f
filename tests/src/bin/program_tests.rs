//! The program `onnx_gate` against the checker on the same files: `program_tests PROGRAM`. Each case is two files, either of which may be
//! absent, in a folder of its own; the whole output must be the one line that document 01 says.

use std::path::{Path, PathBuf};
use std::process::{Command, ExitCode};
use std::{env, fs};

use gate_tests::checker::{check, Verdict};
use gate_tests::models::{self, lists};
use gate_tests::rows;

/// "It has a model buffer of 32,768 bytes, a list buffer of 4,096 bytes and 4,096 cells." So it holds 2,048 names.
const MODEL: usize = 32_768;
const LIST: usize = 4_096;
const CELLS: usize = 4_096;

const SEED: u64 = 7;
const CASES: u64 = 1_500;

struct Files {
    label: String,
    model: Option<Vec<u8>>,
    list: Option<Vec<u8>>,
}

fn main() -> ExitCode {
    let Some(program) = env::args().nth(1).and_then(|word| fs::canonicalize(word).ok()) else {
        eprintln!("usage: program_tests PROGRAM");
        return ExitCode::FAILURE;
    };
    let folder = env::temp_dir().join(format!("onnx_gate_{}", std::process::id()));
    let outcome = run(&program, &folder);
    let _ = fs::remove_dir_all(&folder);
    match outcome {
        Ok(cases) => {
            println!("ok: the program agrees with the checker on {cases} pairs of files");
            ExitCode::SUCCESS
        }
        Err(told) => {
            println!("FAILED: {told}");
            ExitCode::FAILURE
        }
    }
}

fn run(program: &Path, folder: &Path) -> Result<usize, String> {
    let cases = cases();
    for files in &cases {
        let printed = printed(program, folder, files).map_err(|told| format!("{}: {told}", files.label))?;
        let expected = expected(files);
        if printed != expected.as_bytes() {
            let printed = String::from_utf8_lossy(&printed);
            return Err(format!("{}: the program prints {printed:?}, document 01 says {expected:?}", files.label));
        }
    }
    Ok(cases.len())
}

fn printed(program: &Path, folder: &Path, files: &Files) -> std::io::Result<Vec<u8>> {
    fs::create_dir_all(folder)?;
    put(folder.join("model.onnx"), &files.model)?;
    put(folder.join("operators.lst"), &files.list)?;
    Ok(Command::new(program).current_dir(folder).output()?.stdout)
}

fn put(path: PathBuf, bytes: &Option<Vec<u8>>) -> std::io::Result<()> {
    match bytes {
        Some(bytes) => fs::write(path, bytes),
        None if path.exists() => fs::remove_file(path),
        None => Ok(()),
    }
}

/// "an absent file counts as empty"; "a longer model prints refusal 7 and a longer list 8, both at 0, 7 first".
fn expected(files: &Files) -> String {
    let model = files.model.as_deref().unwrap_or_default();
    let list = files.list.as_deref().unwrap_or_default();
    let verdict = if model.len() > MODEL {
        Verdict::refused(7, 0)
    } else if list.len() > LIST {
        Verdict::refused(8, 0)
    } else {
        check(model, list, CELLS)
    };
    format!("{verdict}\n")
}

fn cases() -> Vec<Files> {
    let mut cases = absences();
    cases.extend(sizes());
    let by_hand = rows::by_hand().into_iter().chain(rows::functions()).chain(rows::ir_versions());
    for row in rows::document().into_iter().chain(by_hand).chain(rows::names()).chain(rows::wide()) {
        cases.push(Files { label: row.name, model: Some(row.model), list: Some(row.list) });
    }
    for number in 0..CASES {
        let case = models::case(SEED, number);
        cases.push(Files { label: format!("case {number}"), model: Some(case.model), list: Some(case.list) });
    }
    cases
}

fn absences() -> Vec<Files> {
    let model = || Some(sound());
    let list = || Some(lists::L.to_vec());
    [("none", None, None), ("no model", None, list()), ("no list", model(), None), ("both", model(), list())]
        .map(|(label, model, list)| Files { label: label.into(), model, list })
        .into()
}

/// Files of just the buffer's size, a byte less, a byte more and much more, filled with unknown fields or with nothing that a list has.
fn sizes() -> Vec<Files> {
    let mut cases = Vec::new();
    for size in [MODEL - 1, MODEL, MODEL + 1, MODEL + 2, 3 * MODEL] {
        for list in [lists::L.to_vec(), vec![0; LIST + 1], Vec::new()] {
            cases.push(Files { label: format!("model of {size}"), model: Some(filled(size)), list: Some(list) });
        }
    }
    for size in [LIST - 1, LIST, LIST + 1, 2 * LIST] {
        cases.push(Files { label: format!("list of {size}"), model: Some(sound()), list: Some(long_list(size)) });
    }
    cases
}

/// Document 01's first sample that is accepted.
fn sound() -> Vec<u8> {
    let rows = rows::document();
    let row = rows.into_iter().find(|row| matches!(row.answer, Verdict::Accepted(_)));
    row.map(|row| row.model).unwrap_or_default()
}

/// A sound model with an unknown field behind it, so long that the whole has this size.
fn filled(size: usize) -> Vec<u8> {
    let mut model = sound();
    // Field 100 with contents: a tag of two bytes and a length of three, which is the shortest from 2^14 on.
    let rest = size - model.len() - 5;
    model.extend([0xA2, 0x06, rest as u8 | 0x80, (rest >> 7) as u8 | 0x80, (rest >> 14) as u8]);
    model.resize(size, 0);
    model
}

/// A sound list of this size: the default domain, and one with a long name.
fn long_list(size: usize) -> Vec<u8> {
    let mut list = lists::L.to_vec();
    let entry = size - list.len() - 2;
    list.extend((entry as u16).to_be_bytes());
    list.resize(size - 8, b'd');
    list.extend([0, 0, 0, 1, 0, 0, 0, 1]);
    let rest = (size - 4) as u32;
    list[..4].copy_from_slice(&rest.to_be_bytes());
    list
}
