//! The memory of another program, looked at before and after each of its system calls: between two of them a process gets
//! more memory and never gives any back, so that no peak is missed, however short it lasts.

use std::ffi::{c_int, c_long};
use std::fs;
use std::io;
use std::os::unix::process::{CommandExt, ExitStatusExt};
use std::process::{Command, ExitStatus};

use crate::memory::kilobytes;

extern "C" {
    fn ptrace(request: c_int, ...) -> c_long;
    fn waitpid(process: c_int, status: *mut c_int, options: c_int) -> c_int;
}

const TRACE_ME: c_int = 0;
const TO_NEXT_SYSTEM_CALL: c_int = 24;
const STOPPED: c_int = 0x7f;
const SIGTRAP: c_int = 5;
const NOTHING: c_long = 0;

/// The most that was resident, and what of that were pages of files, which the system can take back. In kB.
#[derive(Default)]
pub struct Peak {
    pub resident: u64,
    pub file: u64,
}

/// Runs it to its end.
pub fn watch(mut command: Command) -> io::Result<(ExitStatus, Peak)> {
    // SAFETY: between fork and exec this makes one system call and touches no memory.
    unsafe { command.pre_exec(|| worked(ptrace(TRACE_ME, NOTHING, NOTHING, NOTHING))) };
    let process = command.spawn()?.id() as c_int;
    let (file, mut peak, mut status) = (format!("/proc/{process}/status"), Peak::default(), 0);
    loop {
        // SAFETY: the status lives through the call, and the process is waited for nowhere else.
        worked(c_long::from(unsafe { waitpid(process, &mut status, 0) }))?;
        if status & 0xff != STOPPED {
            return Ok((ExitStatus::from_raw(status), peak));
        }
        peak.see(&fs::read_to_string(&file)?);
        let signal = status >> 8 & 0xff;
        // A stop at a system call looks like this signal; others are the process's own.
        let passed_on = if signal == SIGTRAP { 0 } else { signal };
        // SAFETY: the process is stopped, and its memory is not ours.
        worked(unsafe { ptrace(TO_NEXT_SYSTEM_CALL, process, NOTHING, c_long::from(passed_on)) })?;
    }
}

fn worked(answer: c_long) -> io::Result<()> {
    if answer < 0 {
        return Err(io::Error::last_os_error());
    }
    Ok(())
}

impl Peak {
    fn see(&mut self, status: &str) {
        let now = |line| kilobytes(status, line).unwrap_or(0);
        if now("VmRSS:") > self.resident {
            *self = Peak { resident: now("VmRSS:"), file: now("RssFile:") };
        }
    }
}
