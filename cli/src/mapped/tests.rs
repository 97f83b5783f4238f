use super::*;
use std::fs::{self, OpenOptions};
use std::io::Write;
use std::path::{Path, PathBuf};
use std::process::Command;
use std::sync::{Mutex, MutexGuard, PoisonError};

/// One mapping at a time is leased.
static ALONE: Mutex<()> = Mutex::new(());

/// A file of its own, which is removed with it.
struct Sample(PathBuf, #[allow(dead_code)] MutexGuard<'static, ()>);

const BYTES: usize = 3 << 20;

impl Sample {
    fn new(name: &str) -> Self {
        let alone = ALONE.lock().unwrap_or_else(PoisonError::into_inner);
        let path = std::env::temp_dir().join(format!("onnx-gate-{}-{name}", std::process::id()));
        fs::write(&path, contents()).unwrap();
        Sample(path, alone)
    }

    fn open(&self) -> File {
        File::open(&self.0).unwrap()
    }

    fn leased(&self) -> bool {
        Mapped::leased(self.open()).is_ok()
    }

    /// Whether this file system, and no code that is tested here, grants one.
    fn can_be_leased(&self) -> bool {
        let file = self.open();
        // SAFETY: as in `lease`. Closing the file gives it back.
        let granted = is_local(&file) && unsafe { fcntl(file.as_raw_fd(), F_SETLEASE, F_RDLCK) == 0 };
        if !granted {
            eprintln!("no leases on {}: nothing is tried", self.0.display());
        }
        granted
    }
}

impl Drop for Sample {
    fn drop(&mut self) {
        let _ = fs::remove_file(&self.0);
    }
}

fn contents() -> Vec<u8> {
    (0..BYTES).map(|i| (i / 7 % 251) as u8).collect()
}

/// Opens for writing, cuts and writes, as soon as it may.
fn writer(path: &Path) -> std::thread::JoinHandle<()> {
    let path = path.to_path_buf();
    std::thread::spawn(move || {
        let mut file = OpenOptions::new().write(true).truncate(true).open(path).unwrap();
        file.write_all(b"other bytes").unwrap();
    })
}

#[test]
fn the_bytes_of_a_file() {
    let sample = Sample::new("bytes");
    if !sample.can_be_leased() {
        return;
    }
    let mapped = Mapped::leased(sample.open()).unwrap();
    assert!(*mapped == contents()[..]);
    assert!(!sample.leased(), "one at a time");
    drop(mapped);
    assert!(sample.leased() && sample.leased(), "the lease is given back");
    writer(&sample.0).join().unwrap();
}

#[test]
fn a_file_that_is_written_to() {
    let sample = Sample::new("written");
    if !sample.can_be_leased() {
        return;
    }
    let writing = OpenOptions::new().append(true).open(&sample.0).unwrap();
    assert!(!sample.leased());
    drop(writing);
    assert!(sample.leased());
    fs::write(&sample.0, b"").unwrap();
    assert!(!sample.leased(), "no bytes, no pages");
    assert!(Mapped::leased(File::open("/proc/self/status").unwrap()).is_err(), "what the system makes up");
}

/// Who writes need not wait for the answer, and the bytes stay what they were, those that were cut off among them.
#[test]
fn a_writer_that_comes_later() {
    let sample = Sample::new("later");
    if !sample.can_be_leased() {
        return;
    }
    let mapped = Mapped::leased(sample.open()).unwrap();
    let before = mapped.as_ptr();
    writer(&sample.0).join().unwrap();
    assert_eq!(fs::read(&sample.0).unwrap(), b"other bytes");
    assert!(*mapped == contents()[..] && mapped.as_ptr() == before);
    // and may come again
    writer(&sample.0).join().unwrap();
    let second = Mapped::leased(sample.open()).unwrap();
    drop(mapped);
    writer(&sample.0).join().unwrap();
    assert_eq!(*second, *b"other bytes");
}

#[test]
fn the_number_of_bytes_alone() {
    let sample = Sample::new("unread");
    OpenOptions::new().write(true).open(&sample.0).unwrap().set_len(5 << 30).unwrap();
    let length = onnx_gate::LARGEST_MODEL + 1;
    assert_eq!(Mapped::unread(&sample.open(), length).unwrap().len(), length);
    assert!(Mapped::unread(&sample.open(), 0).is_none());
    assert!(Mapped::unread(&File::open("/").unwrap(), 1).is_none());
}

/// In a process of its own: a page that is not there ends it, with a message and a status.
#[test]
fn a_page_that_cannot_be_read() {
    let _alone = ALONE.lock();
    let words = ["--exact", "mapped::tests::reads_a_page_that_is_cut_off", "--ignored", "--nocapture"];
    let done = Command::new(std::env::current_exe().unwrap()).args(words).output().unwrap();
    assert_eq!(done.status.code(), Some(WRONG.into()));
    assert!(String::from_utf8(done.stderr).unwrap().contains("cannot be read any more while it is judged\n"));
}

#[test]
#[ignore = "ends the process"]
fn reads_a_page_that_is_cut_off() {
    let sample = Sample::new("cut");
    assert!(listen());
    let mapped = Mapped::unread(&sample.open(), BYTES).unwrap();
    fs::write(&sample.0, b"").unwrap();
    fs::remove_file(&sample.0).unwrap();
    println!("{}", mapped[BYTES / 2]);
}
