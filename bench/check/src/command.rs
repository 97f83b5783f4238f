//! The command on the largest workload: its memory and its time, as a process beside `cat`.

use std::fs::File;
use std::io;
use std::path::Path;
use std::process::{Command, Stdio};
use std::time::{Duration, Instant};

use crate::files::Scratch;
use crate::markdown::{head, megabytes, table};
use crate::report::{both, short, Run, NONE};
use crate::timing::alone;
use crate::watch::watch;
use crate::workloads::LARGEST;

const HEAD: [&str; 4] = ["process", "peak memory, MB", "of it file pages, MB", "time"];

/// What is run: how the table calls it, the program, and its words before the file.
struct Process<'a> {
    name: &'a str,
    program: &'a Path,
    words: &'a [&'a str],
    file: &'a Path,
}

/// Rows for both ways to run the command, where it was built, and for `cat`.
pub fn rows(run: &Run) -> Result<String, String> {
    let model = Scratch::new(run.folder.join("command.onnx"), &run.given(&LARGEST, 1).model)?;
    let processes = [
        ("`onnx-gate check`", run.command, &["check"][..]),
        ("`onnx-gate pass`", run.command, &["pass"][..]),
        ("`cat`", Some(Path::new("cat")), &[][..]),
    ];
    read_once(&model.path).map_err(|error| format!("{}: {error}", model.word()))?;
    let mut rows = vec![head(&HEAD)];
    for (name, program, words) in processes {
        rows.push(match program {
            Some(program) => Process { name, program, words, file: &model.path }.row(run)?,
            None => [name, NONE, NONE, "not built"].map(String::from).to_vec(),
        });
    }
    Ok(table(&rows, &[0]))
}

/// The first to read the file waits until the system has pages for it. It should be none of those that are measured.
fn read_once(file: &Path) -> io::Result<u64> {
    io::copy(&mut File::open(file)?, &mut io::sink())
}

impl Process<'_> {
    fn row(&self, run: &Run) -> Result<Vec<String>, String> {
        eprintln!("{}", self.name);
        let (ended, peak) = watch(self.command()).map_err(|error| format!("{}: {error}", self.name))?;
        if !ended.success() {
            return Err(format!("{}: {ended}", self.name));
        }
        let times = alone(|| self.timed(), short(run.plan));
        Ok(vec![self.name.to_string(), megabytes(peak.resident), megabytes(peak.file), both(&times)])
    }

    fn command(&self) -> Command {
        let mut command = Command::new(self.program);
        command.args(self.words).arg(self.file);
        command.stdin(Stdio::null()).stdout(Stdio::null()).stderr(Stdio::null());
        command
    }

    /// From its start to its end, by the time of day: it is no thread of this process.
    fn timed(&self) -> Duration {
        let start = Instant::now();
        let ended = self.command().status();
        let taken = start.elapsed();
        assert!(ended.is_ok_and(|ended| ended.success()), "{} failed, and had not before", self.name);
        taken
    }
}
