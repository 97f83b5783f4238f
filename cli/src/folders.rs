//! The models that a command line names: files, and what folders hold.
use crate::{complain, input, text};
use std::ffi::{OsStr, OsString};
use std::fs::{self, FileType};
use std::io;
use std::os::unix::ffi::OsStrExt;
use std::path::Path;

/// A file to be read, or why there is nothing to read.
#[derive(Debug, PartialEq, Eq)]
pub struct Found {
    pub file: OsString,
    pub fault: Option<String>,
}

/// All models, in the order of the words, and by name within a folder.
pub fn find(words: &[OsString]) -> Vec<Found> {
    let mut found = Vec::new();
    for word in words {
        let path = Path::new(word);
        if word == "-" || !path.is_dir() {
            found.push(Found { file: word.clone(), fault: None });
            continue;
        }
        let before = found.len();
        look_into(path, &mut found);
        if found.len() == before {
            found.push(Found { file: word.clone(), fault: Some("holds no .onnx file; nothing was checked".into()) });
        }
    }
    found
}

/// Adds every model below a folder, and every folder that cannot be looked into.
fn look_into(folder: &Path, found: &mut Vec<Found>) {
    let entries = match entries(folder) {
        Ok(entries) => entries,
        Err(why) => return found.push(Found { file: folder.into(), fault: Some(input::plain(why)) }),
    };
    for (name, kind) in entries {
        let path = folder.join(&name);
        if kind.is_dir() {
            look_into(&path, found);
        } else if is_model_name(&name) {
            found.push(Found { file: path.into(), fault: None });
        } else if kind.is_symlink() && path.is_dir() {
            // a link may lead back here
            complain(&format!("{}: is a link to a folder, and not followed", text::file(path.as_os_str())));
        }
    }
}

/// Names and kinds, and not the system's own entries, which would keep each folder open while those below are visited.
fn entries(folder: &Path) -> io::Result<Vec<(OsString, FileType)>> {
    let read = fs::read_dir(folder)?.map(|entry| entry.and_then(|e| Ok((e.file_name(), e.file_type()?))));
    let mut entries = read.collect::<io::Result<Vec<_>>>()?;
    entries.sort_by(|a, b| a.0.cmp(&b.0));
    Ok(entries)
}

/// Whether a name ends as a model's does, in capitals or not.
pub fn is_model_name(name: &OsStr) -> bool {
    let bytes = name.as_bytes();
    bytes.len() >= 5 && bytes[bytes.len() - 5..].eq_ignore_ascii_case(b".onnx")
}

#[cfg(test)]
mod tests {
    use super::*;

    #[test]
    fn names_of_models() {
        assert!(["a.onnx", "--x=b.ONNX", ".Onnx"].iter().all(|name| is_model_name(OsStr::new(name))));
        assert!(["", "onnx", "a.onn", "a.onnx.txt", "a.onnx "].iter().all(|name| !is_model_name(OsStr::new(name))));
        assert!(is_model_name(OsStr::from_bytes(b"\xff.oNNx")));
    }

    #[test]
    fn what_is_no_folder_is_named() {
        let found = find(&["-".into(), "/no/such".into(), "/dev/null".into()]);
        assert!(found.iter().all(|f| f.fault.is_none()) && found.len() == 3);
    }
}
