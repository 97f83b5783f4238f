//! How long a piece of work takes.

use std::ffi::{c_int, c_long};
use std::time::{Duration, Instant};

#[repr(C)]
struct Timespec {
    seconds: i64,
    nanoseconds: c_long,
}

extern "C" {
    fn clock_gettime(clock: c_int, time: *mut Timespec) -> c_int;
}

const CLOCK_THREAD_CPUTIME_ID: c_int = 3;

/// From here on a call is timed by the processor time of its thread, which other processes disturb less than the time of
/// day. Below it, asking the system for it would disturb more.
const LONG: Duration = Duration::from_millis(1);

/// The processor time of this thread so far.
fn processor() -> Duration {
    let mut time = Timespec { seconds: 0, nanoseconds: 0 };
    // SAFETY: the struct is that of 64-bit Linux, and lives through the call.
    let failed = unsafe { clock_gettime(CLOCK_THREAD_CPUTIME_ID, &mut time) };
    assert_eq!(failed, 0, "there is no clock of the thread");
    Duration::new(time.seconds as u64, time.nanoseconds as u32)
}

pub fn timed<T>(work: impl FnOnce() -> T) -> (Duration, T) {
    let (before, start) = (processor(), Instant::now());
    let result = work();
    let taken = start.elapsed();
    if taken < LONG {
        return (taken, result);
    }
    (taken.min(processor() - before), result)
}
