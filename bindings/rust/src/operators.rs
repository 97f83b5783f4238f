//! The operator list: document 01's own format, made and taken apart. All numbers are big-endian: four bytes that
//! count what follows, the version byte 1, then entries, each a two-byte length of its rest, a domain, and the
//! lowest and highest version in four bytes each.
use std::fmt;

/// A domain and the versions of it that the runtime has.
#[derive(Clone, Debug, PartialEq, Eq)]
pub struct Entry {
    pub domain: Vec<u8>,
    pub lowest: u32,
    pub highest: u32,
}

/// What keeps entries or bytes from being a list.
#[derive(Clone, Debug, PartialEq, Eq)]
pub enum ListFault {
    /// Fewer than five bytes.
    TooShort(usize),
    /// The first four bytes count this many, and that many follow.
    WrongCount(u32, usize),
    /// The version byte is not 1.
    WrongVersion(u8),
    /// The entry at this offset has a length that does not fit, or is under 8.
    BadLength(usize),
    /// A domain that an entry has no room for.
    DomainTooLong(usize),
    /// A lowest version of 0, or above the highest.
    BadVersions(String, u32, u32),
    /// A domain that stands twice; the empty one is `ai.onnx`.
    DomainTwice(String),
    /// More bytes than four can count.
    TooLong,
}

impl fmt::Display for ListFault {
    fn fmt(&self, f: &mut fmt::Formatter<'_>) -> fmt::Result {
        match self {
            Self::TooShort(n) => write!(f, "it has {n} bytes, and a list has at least 5"),
            Self::WrongCount(said, n) => write!(f, "its first four bytes count {said}, and {n} follow them"),
            Self::WrongVersion(v) => write!(f, "its version byte is {v}, and must be 1"),
            Self::BadLength(at) => write!(f, "the entry at byte {at} has a length that does not fit"),
            Self::DomainTooLong(n) => write!(f, "a domain has {n} bytes, and may have 65527"),
            Self::BadVersions(domain, 0, _) => write!(f, "{domain:?} starts at version 0, and the lowest is 1"),
            Self::BadVersions(domain, low, high) => write!(f, "{domain:?} has versions {low} to {high}, which are none"),
            Self::DomainTwice(domain) => write!(f, "{domain:?} stands twice (the empty domain is ai.onnx)"),
            Self::TooLong => write!(f, "the list is longer than its count can say"),
        }
    }
}

impl std::error::Error for ListFault {}

/// The empty domain and `ai.onnx` are one.
pub fn canonical(domain: &[u8]) -> &[u8] {
    match domain {
        b"" => b"ai.onnx",
        other => other,
    }
}

/// The bytes of the list that allows these versions of these domains.
pub fn write<D: AsRef<[u8]>>(entries: &[(D, u32, u32)]) -> Result<Vec<u8>, ListFault> {
    let entries: Vec<Entry> = entries
        .iter()
        .map(|(domain, lowest, highest)| Entry { domain: domain.as_ref().to_vec(), lowest: *lowest, highest: *highest })
        .collect();
    sensible(&entries)?;
    let mut rest = vec![1];
    for e in &entries {
        let length = u16::try_from(e.domain.len() + 8).map_err(|_| ListFault::DomainTooLong(e.domain.len()))?;
        rest.extend_from_slice(&length.to_be_bytes());
        rest.extend_from_slice(&e.domain);
        rest.extend_from_slice(&e.lowest.to_be_bytes());
        rest.extend_from_slice(&e.highest.to_be_bytes());
    }
    let count = u32::try_from(rest.len()).map_err(|_| ListFault::TooLong)?;
    Ok([&count.to_be_bytes()[..], &rest].concat())
}

/// The entries of a list, or why it has none. Whether a list is sound is the library's to say (`is_sound`).
pub fn read(list: &[u8]) -> Result<Vec<Entry>, ListFault> {
    if list.len() < 5 {
        return Err(ListFault::TooShort(list.len()));
    }
    let count = number(&list[..4]);
    if count as usize != list.len() - 4 {
        return Err(ListFault::WrongCount(count, list.len() - 4));
    }
    if list[4] != 1 {
        return Err(ListFault::WrongVersion(list[4]));
    }
    let mut entries = Vec::new();
    let mut at = 5;
    while at < list.len() {
        let (e, next) = entry(list, at).ok_or(ListFault::BadLength(at))?;
        entries.push(e);
        at = next;
    }
    sensible(&entries)?;
    Ok(entries)
}

/// Whether the proved library finds the list sound: it is asked about the empty model, which is never too large.
pub fn is_sound(list: &[u8]) -> bool {
    !matches!(crate::check_with(&[], list, &mut []), Err(r) if r.number == 8)
}

fn number(four: &[u8]) -> u32 {
    four.iter().fold(0, |n, b| n << 8 | u32::from(*b))
}

/// The entry at `at`, and where the next one is.
fn entry(list: &[u8], at: usize) -> Option<(Entry, usize)> {
    let length = list.get(at..at + 2)?.iter().fold(0, |n, b| n << 8 | usize::from(*b));
    let rest = list.get(at + 2..at + 2 + length)?;
    let domain = rest.len().checked_sub(8)?;
    let e = Entry {
        domain: rest[..domain].to_vec(),
        lowest: number(&rest[domain..domain + 4]),
        highest: number(&rest[domain + 4..]),
    };
    Some((e, at + 2 + length))
}

/// The rules between entries and in them.
fn sensible(entries: &[Entry]) -> Result<(), ListFault> {
    let mut met = std::collections::HashSet::new();
    for e in entries {
        let shown = || String::from_utf8_lossy(&e.domain).into_owned();
        if e.lowest == 0 || e.lowest > e.highest {
            return Err(ListFault::BadVersions(shown(), e.lowest, e.highest));
        }
        if !met.insert(canonical(&e.domain)) {
            return Err(ListFault::DomainTwice(shown()));
        }
    }
    Ok(())
}
