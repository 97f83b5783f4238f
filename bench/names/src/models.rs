//! The names of models in files that a check would test, in wire order.

use std::fs;
use std::io;
use std::path::{Path, PathBuf};

use gate_tests::odd::tested;
use gate_tests::schema::first_walk;

/// All nonempty ones in the models below a folder, with the number of models; one that no check would walk has none.
pub fn names(folder: &Path) -> io::Result<(usize, Vec<Vec<u8>>)> {
    let mut files = Vec::new();
    find(folder, &mut files)?;
    files.sort();
    let (mut models, mut names) = (0, Vec::new());
    for file in files {
        let model = fs::read(file)?;
        if first_walk(&model).is_err() {
            continue;
        }
        models += 1;
        let bytes = tested(&model).into_iter().map(|(_, field)| model[field.start..field.end].to_vec());
        names.extend(bytes.filter(|name| !name.is_empty()));
    }
    Ok((models, names))
}

fn find(folder: &Path, files: &mut Vec<PathBuf>) -> io::Result<()> {
    for entry in fs::read_dir(folder)? {
        let entry = entry?;
        if entry.file_type()?.is_dir() {
            find(&entry.path(), files)?;
        } else if entry.path().extension().is_some_and(|extension| extension == "onnx") {
            files.push(entry.path());
        }
    }
    Ok(())
}
