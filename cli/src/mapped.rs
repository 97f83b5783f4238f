//! A model in the pages of its file, without a copy of it. All unsafe code of the command stands here.
//!
//! The library is proved for bytes that stay, and those of a file under a writer do not. So the file is leased: Linux
//! grants a read lease only while nobody has the file open for writing, and lets whoever would then write to it or cut
//! it wait (lease-break-time, 45 seconds) and sends a signal. Its handler puts a copy in the place of the pages and
//! gives the lease back. Where that cannot be done in time the process ends, since no answer may go by other bytes.
//! What another machine writes breaks no lease: only files of this one are mapped.
use crate::WRONG;
use std::fs::File;
use std::ops::Deref;
use std::os::fd::AsRawFd;
use std::ptr::{copy_nonoverlapping, null_mut};
use std::sync::atomic::{AtomicI32, AtomicPtr, AtomicUsize, Ordering::SeqCst};

/// What Linux on x86-64 calls by these numbers.
const PROT_READ: i32 = 1;
const PROT_WRITE: i32 = 2;
const MAP_PRIVATE: i32 = 2;
const MAP_ANONYMOUS: i32 = 0x20;
const MREMAP_MAYMOVE: i32 = 1;
const MREMAP_FIXED: i32 = 2;
const F_SETLEASE: i32 = 1024;
const F_GETLEASE: i32 = 1025;
const F_RDLCK: i32 = 0;
const F_UNLCK: i32 = 2;
const SIGBUS: i32 = 7;
const SIGIO: i32 = 29;
const SIG_UNBLOCK: i32 = 1;

/// The file systems of this machine: ext2 to ext4, XFS, Btrfs, F2FS, ZFS, tmpfs and overlays.
const LOCAL: [i64; 7] = [0xEF53, 0x5846_5342, 0x9123_683E, 0xF2F5_2010, 0x2FC1_2FC1, 0x0102_1994, 0x794C_7630];

extern "C" {
    fn mmap(at: *mut u8, length: usize, access: i32, flags: i32, descriptor: i32, offset: i64) -> *mut u8;
    fn mremap(at: *mut u8, length: usize, new_length: usize, flags: i32, ...) -> *mut u8;
    fn munmap(at: *mut u8, length: usize) -> i32;
    fn fcntl(descriptor: i32, command: i32, ...) -> i32;
    fn fstatfs(descriptor: i32, about: *mut [i64; 15]) -> i32;
    fn signal(number: i32, handler: extern "C" fn(i32)) -> usize;
    fn sigprocmask(how: i32, signals: *const [u64; 16], before: *mut [u64; 16]) -> i32;
    fn write(descriptor: i32, bytes: *const u8, length: usize) -> isize;
    fn _exit(status: i32) -> !;
}

/// The mapping under a lease, of which there is one at a time, for the handler. No other has an address.
static ADDRESS: AtomicPtr<u8> = AtomicPtr::new(null_mut());
static LENGTH: AtomicUsize = AtomicUsize::new(0);
static DESCRIPTOR: AtomicI32 = AtomicI32::new(-1);

pub struct Mapped {
    at: *mut u8,
    length: usize,
    /// Closing it gives the lease back.
    _lease: Option<File>,
}

impl Mapped {
    /// The whole file, whose bytes are from now on the same until this is dropped; the file itself where it cannot be
    /// leased: it is another user's, somebody writes to it, or its file system has no leases.
    pub fn leased(file: File) -> Result<Mapped, File> {
        if !ADDRESS.load(SeqCst).is_null() || !is_local(&file) || !listen() || !lease(&file, F_RDLCK) {
            return Err(file);
        }
        // asked for under the lease
        let length = file.metadata().map_or(0, |about| about.len());
        if let Some(mut mapped) = Mapped::unread(&file, length as usize) {
            LENGTH.store(mapped.length, SeqCst);
            DESCRIPTOR.store(file.as_raw_fd(), SeqCst);
            ADDRESS.store(mapped.at, SeqCst);
            // a signal that came before there was an address did nothing
            if is_leased(&file) {
                mapped._lease = Some(file);
                return Ok(mapped);
            }
        }
        lease(&file, F_UNLCK);
        Err(file)
    }

    /// The first `length` bytes of a file with no lease, for whoever asks for their number alone.
    pub fn unread(file: &File, length: usize) -> Option<Mapped> {
        // SAFETY: a new mapping changes no memory that is in use.
        let at = unsafe { mmap(null_mut(), length, PROT_READ, MAP_PRIVATE, file.as_raw_fd(), 0) };
        // the address of a failure is -1
        (at as isize != -1).then_some(Mapped { at, length, _lease: None })
    }
}

impl Deref for Mapped {
    type Target = [u8];

    fn deref(&self) -> &[u8] {
        // SAFETY: so many bytes are mapped at this address for as long as `self` lives, and the lease and its handler
        // see to it that they stay. Bytes without a lease are not looked at.
        unsafe { std::slice::from_raw_parts(self.at, self.length) }
    }
}

impl Drop for Mapped {
    fn drop(&mut self) {
        let _ = ADDRESS.compare_exchange(self.at, null_mut(), SeqCst, SeqCst);
        // SAFETY: nothing borrows from `self` any more, and the handler has no address now.
        unsafe { munmap(self.at, self.length) };
    }
}

/// Takes a lease or gives it back: whether that was done.
fn lease(file: &File, kind: i32) -> bool {
    // SAFETY: the call takes a descriptor that is open, and numbers.
    unsafe { fcntl(file.as_raw_fd(), F_SETLEASE, kind) == 0 }
}

/// Whether the lease is there and nobody waits for its end.
fn is_leased(file: &File) -> bool {
    // SAFETY: as above.
    unsafe { fcntl(file.as_raw_fd(), F_GETLEASE) == F_RDLCK }
}

fn is_local(file: &File) -> bool {
    let mut about = [0; 15];
    // SAFETY: the call writes a structure of this size, which begins with the kind of the file system.
    unsafe { fstatfs(file.as_raw_fd(), &mut about) == 0 && LOCAL.contains(&about[0]) }
}

/// Whether the two signals come to their handlers. Who started this process may have kept one from coming.
fn listen() -> bool {
    let mut signals = [0; 16];
    signals[0] = 1 << (SIGIO - 1) | 1 << (SIGBUS - 1);
    // SAFETY: both handlers do only what a handler may do; the set has the size and the form of the C library's.
    unsafe {
        signal(SIGIO, give_way) != usize::MAX
            && signal(SIGBUS, unreadable) != usize::MAX
            && sigprocmask(SIG_UNBLOCK, &signals, null_mut()) == 0
    }
}

/// Somebody waits to write to the file. The command has one thread, so that nothing reads the pages meanwhile.
extern "C" fn give_way(_: i32) {
    let at = ADDRESS.swap(null_mut(), SeqCst);
    if at.is_null() {
        return;
    }
    let (length, descriptor) = (LENGTH.load(SeqCst), DESCRIPTOR.load(SeqCst));
    // SAFETY: `at` is a mapping of `length` bytes, which is replaced in one step by one with the same bytes. The copying
    // and the system calls are such as a handler may do.
    unsafe {
        let copy = mmap(null_mut(), length, PROT_READ | PROT_WRITE, MAP_PRIVATE | MAP_ANONYMOUS, -1, 0);
        if copy as isize == -1 {
            end("onnx-gate: a file is written to while it is judged, and there is no memory for a copy of it\n");
        }
        copy_nonoverlapping(at, copy, length);
        // the lease cannot be given back where it is lost, and then the copy may have bytes of two files
        let moved = mremap(copy, length, length, MREMAP_MAYMOVE | MREMAP_FIXED, at);
        if moved != at || fcntl(descriptor, F_SETLEASE, F_UNLCK) != 0 {
            end("onnx-gate: a file was written to while it was judged\n");
        }
    }
}

/// A page that the device does not give, or that was cut off after the lease was lost.
extern "C" fn unreadable(_: i32) {
    end("onnx-gate: a file cannot be read any more while it is judged\n");
}

/// Ends the process from a handler: what was judged before is told already, and nothing is said of this file.
fn end(message: &str) -> ! {
    // SAFETY: both are system calls, and `message` has this length.
    unsafe {
        write(2, message.as_ptr(), message.len());
        _exit(WRONG.into())
    }
}

#[cfg(test)]
mod tests;
