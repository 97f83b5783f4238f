//! The proved functions, from target/staticlib/libwalk_c.a.

/// Number and place of document 01, both 0 where the walk passes.
#[repr(C)]
#[derive(Clone, Copy, Debug, PartialEq, Eq)]
pub struct Answer {
    pub number: u64,
    pub place: u64,
}

unsafe extern "C" {
    fn walk_c_first_walk(model: *const u8, len: usize) -> Answer;
    fn walk_c_varints(bytes: *const u8, len: usize) -> u64;
}

pub fn first_walk(model: &[u8]) -> Answer {
    // SAFETY: a Rattle slice is a pointer and a length, and the function only reads.
    unsafe { walk_c_first_walk(model.as_ptr(), model.len()) }
}

pub fn varints(bytes: &[u8]) -> u64 {
    // SAFETY: as above.
    unsafe { walk_c_varints(bytes.as_ptr(), bytes.len()) }
}

/// The same of another clone, its archive's names changed by `run --before`.
#[cfg(feature = "before")]
pub mod before {
    use super::Answer;

    unsafe extern "C" {
        fn before_first_walk(model: *const u8, len: usize) -> Answer;
        fn before_varints(bytes: *const u8, len: usize) -> u64;
    }

    pub fn first_walk(model: &[u8]) -> Answer {
        // SAFETY: as above.
        unsafe { before_first_walk(model.as_ptr(), model.len()) }
    }

    pub fn varints(bytes: &[u8]) -> u64 {
        // SAFETY: as above.
        unsafe { before_varints(bytes.as_ptr(), bytes.len()) }
    }
}
