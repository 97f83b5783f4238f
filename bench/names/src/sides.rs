//! Each side answers 0 for an identifier, 1 for any other name that is well-formed UTF-8, and 2 for bytes that are not.

pub type Side = fn(&[u8]) -> u64;

extern "C" {
    fn proved_spell(name: *const u8, len: usize) -> u64;
    #[cfg(feature = "before")]
    fn before_spell(name: *const u8, len: usize) -> u64;
}

/// The proved test, `spell_c_spell` of crates/spell_c.
pub fn proved(name: &[u8]) -> u64 {
    // SAFETY: a Rattle slice is a pointer and a length, and the function only reads.
    unsafe { proved_spell(name.as_ptr(), name.len()) }
}

/// The same of another clone: `run --before`.
#[cfg(feature = "before")]
pub fn before(name: &[u8]) -> u64 {
    // SAFETY: as above.
    unsafe { before_spell(name.as_ptr(), name.len()) }
}

/// As one would write it in Rust. A call, as that of the proved test is one.
#[inline(never)]
pub fn rust(name: &[u8]) -> u64 {
    let follows = |byte: &u8| byte.is_ascii_alphanumeric() || *byte == b'_';
    let identifier = match name {
        [first, rest @ ..] => (first.is_ascii_alphabetic() || *first == b'_') && rest.iter().all(follows),
        [] => false,
    };
    if identifier {
        0
    } else if std::str::from_utf8(name).is_ok() {
        1
    } else {
        2
    }
}

#[cfg(not(feature = "before"))]
pub const SIDES: &[(&str, Side)] = &[("proved", proved), ("Rust", rust)];
#[cfg(feature = "before")]
pub const SIDES: &[(&str, Side)] = &[("proved", proved), ("Rust", rust), ("before", before)];
