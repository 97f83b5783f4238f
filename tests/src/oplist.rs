//! The operator list of document 01: our own format, all numbers big-endian.

use std::collections::HashMap;

/// The versions of a domain that the list allows.
#[derive(Clone, Copy, Debug)]
pub struct Versions {
    pub lowest: u32,
    pub highest: u32,
}

pub type OperatorList<'l> = HashMap<&'l [u8], Versions>;

/// The empty domain and `ai.onnx` are one domain, in lists and in models.
pub fn domain(bytes: &[u8]) -> &[u8] {
    if bytes == b"ai.onnx" {
        b""
    } else {
        bytes
    }
}

/// The list read whole, or None where it is unsound.
pub fn read(list: &[u8]) -> Option<OperatorList<'_>> {
    let (count, rest) = take_u32(list)?;
    if count as usize != rest.len() {
        return None;
    }
    let (&version, mut rest) = rest.split_first()?;
    if version != 1 {
        return None;
    }
    let mut found = HashMap::new();
    while !rest.is_empty() {
        let (name, versions, after) = entry(rest)?;
        if found.insert(domain(name), versions).is_some() {
            return None;
        }
        rest = after;
    }
    Some(found)
}

/// One entry: a two-byte length of the rest of it, domain bytes, lowest and highest version.
fn entry(bytes: &[u8]) -> Option<(&[u8], Versions, &[u8])> {
    let (head, rest) = split(bytes, 2)?;
    let length = usize::from(u16::from_be_bytes([head[0], head[1]]));
    let (body, after) = split(rest, length)?;
    let (name, numbers) = split(body, length.checked_sub(8)?)?;
    let (lowest, numbers) = take_u32(numbers)?;
    let (highest, _) = take_u32(numbers)?;
    if lowest < 1 || lowest > highest {
        return None;
    }
    Some((name, Versions { lowest, highest }, after))
}

fn take_u32(bytes: &[u8]) -> Option<(u32, &[u8])> {
    let (head, rest) = split(bytes, 4)?;
    Some((u32::from_be_bytes([head[0], head[1], head[2], head[3]]), rest))
}

fn split(bytes: &[u8], at: usize) -> Option<(&[u8], &[u8])> {
    if at <= bytes.len() {
        Some(bytes.split_at(at))
    } else {
        None
    }
}
