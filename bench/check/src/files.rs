//! Files for other processes to read.

use std::fs::{self, File};
use std::io::{self, Seek, Write};
use std::path::{Path, PathBuf};

/// A file that is removed when this is dropped, also where a measurement fails.
pub struct Scratch {
    pub path: PathBuf,
}

impl Scratch {
    pub fn new(path: PathBuf, bytes: &[u8]) -> Result<Scratch, String> {
        let scratch = Scratch { path };
        sparse(&scratch.path, bytes).map_err(|error| format!("{}: {error}", scratch.path.display()))?;
        Ok(scratch)
    }

    /// As a word of a command line.
    pub fn word(&self) -> String {
        self.path.display().to_string()
    }
}

impl Drop for Scratch {
    fn drop(&mut self) {
        // What cannot be removed is written over by the next run.
        let _ = fs::remove_file(&self.path);
    }
}

static ZEROS: [u8; 1 << 16] = [0; 1 << 16];

/// Leaves holes where there are blocks of zeros, so that they take no room on the disk.
fn sparse(path: &Path, bytes: &[u8]) -> io::Result<()> {
    let mut file = File::create(path)?;
    for block in bytes.chunks(ZEROS.len()) {
        if *block == ZEROS[..block.len()] {
            file.seek_relative(block.len() as i64)?;
        } else {
            file.write_all(block)?;
        }
    }
    file.set_len(bytes.len() as u64)
}
