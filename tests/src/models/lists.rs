//! Operator lists, sound and unsound.

use crate::rng::Rng;

#[derive(Clone, Debug)]
pub struct Entry {
    pub domain: Vec<u8>,
    pub lowest: u32,
    pub highest: u32,
}

/// List L of document 01: the default domain, 7 to 21.
pub const L: [u8; 15] = [0, 0, 0, 0x0B, 1, 0, 8, 0, 0, 0, 7, 0, 0, 0, 0x15];

pub fn encode(entries: &[Entry]) -> Vec<u8> {
    let mut body = vec![1];
    for entry in entries {
        body.extend_from_slice(&((entry.domain.len() + 8) as u16).to_be_bytes());
        body.extend_from_slice(&entry.domain);
        body.extend_from_slice(&entry.lowest.to_be_bytes());
        body.extend_from_slice(&entry.highest.to_be_bytes());
    }
    with_count(body)
}

fn with_count(body: Vec<u8>) -> Vec<u8> {
    let mut list = (body.len() as u32).to_be_bytes().to_vec();
    list.extend(body);
    list
}

/// Domains are free bytes. Some are prefixes of others, two only look like the default domain, and one has a length of two bytes.
const DOMAINS: [&[u8]; 10] =
    [b"", b"ai.onnx.ml", b"ai.onnx", b"ai.onn", b"com.x", b"com.xy", b"\xff\x00", b"AI.ONNX", b"ai.oXnx", &[b'd'; 300]];

/// A sound list with at least one entry.
pub fn sound(rng: &mut Rng) -> Vec<Entry> {
    let count = 1 + rng.below(4);
    let mut entries: Vec<Entry> = Vec::new();
    for place in 0..count {
        let domain = if place == 0 { *rng.pick(&DOMAINS[..3]) } else { *rng.pick(&DOMAINS) };
        let same = |entry: &Entry| crate::oplist::domain(&entry.domain) == crate::oplist::domain(domain);
        if !entries.iter().any(same) {
            let (lowest, highest) = versions(rng);
            entries.push(Entry { domain: domain.to_vec(), lowest, highest });
        }
    }
    entries
}

fn versions(rng: &mut Rng) -> (u32, u32) {
    match rng.below(8) {
        0 => (1, u32::MAX),
        1 => (u32::MAX, u32::MAX),
        2 => (1, 1),
        3 => {
            let (one, other) = (wide_version(rng), wide_version(rng));
            (one.min(other), one.max(other))
        }
        4 => {
            let lowest = wide_version(rng);
            (lowest, lowest.saturating_add(one_in_a_byte(rng)))
        }
        _ => {
            let lowest = 1 + rng.below(20) as u32;
            (lowest, lowest + rng.below(20) as u32)
        }
    }
}

/// A version whose four bytes are drawn each by itself, so that a comparison has to look at all of them.
fn wide_version(rng: &mut Rng) -> u32 {
    let bytes = [(); 4].map(|()| *rng.pick(&[0, 0, 1, 2, 0x7f, 0x80, 0xff]));
    u32::from_be_bytes(bytes).max(1)
}

/// 1 in one of the four bytes of a version.
pub fn one_in_a_byte(rng: &mut Rng) -> u32 {
    1 << (8 * rng.below(4))
}

/// Some version that the entry allows.
pub fn between(rng: &mut Rng, entry: &Entry) -> u32 {
    entry.lowest + rng.below((entry.highest - entry.lowest) as usize + 1) as u32
}

/// An unsound list, made from a sound one. A few ways happen to leave a list sound, which does no harm.
pub fn unsound(rng: &mut Rng, good: &[Entry]) -> Vec<u8> {
    let mut entries = good.to_vec();
    let at = rng.below(entries.len());
    let list = encode(good);
    match rng.below(14) {
        0 => Vec::new(),
        1 => list[..rng.below(list.len())].to_vec(),
        2 => [list, rng.bytes(1)].concat(),
        3 => with_wrong_count(rng, list),
        4 => with_byte(list, 4, rng.word() as u8 & 0xfe),
        5 => with_lowest(entries, at, 0),
        6 => with_lowest(entries, at, good[at].highest.wrapping_add(one_in_a_byte(rng))),
        7 => [&[0, 0, 0, 0][..], &list[4..]].concat(),
        8 => {
            let twin = Entry { domain: alias(&entries[at].domain), lowest: 1, highest: 9 };
            entries.push(twin);
            encode(&entries)
        }
        9 => {
            let twin = entries[at].clone();
            entries.insert(rng.below(entries.len() + 1), twin);
            encode(&entries)
        }
        10 => short_entry(rng, list),
        11 => with_byte(list, 5, rng.word() as u8),
        12 => with_byte(list, 6, rng.word() as u8),
        _ => {
            let count = rng.below(24);
            rng.bytes(count)
        }
    }
}

fn with_lowest(mut entries: Vec<Entry>, at: usize, lowest: u32) -> Vec<u8> {
    entries[at].lowest = lowest;
    if lowest == 0 {
        entries[at].highest = 5;
    }
    encode(&entries)
}

fn with_byte(mut list: Vec<u8>, at: usize, byte: u8) -> Vec<u8> {
    list[at] = byte;
    list
}

fn with_wrong_count(rng: &mut Rng, mut list: Vec<u8>) -> Vec<u8> {
    let at = rng.below(4);
    list[at] = list[at].wrapping_add(1 + rng.below(255) as u8);
    list
}

/// A last entry whose own length is under 8, or runs past the list.
fn short_entry(rng: &mut Rng, list: Vec<u8>) -> Vec<u8> {
    let mut body = list[4..].to_vec();
    let length = rng.below(8);
    body.extend_from_slice(&[0, length as u8]);
    let given = if rng.chance(1, 2) { length } else { rng.below(9) };
    body.extend(std::iter::repeat_n(1, given));
    with_count(body)
}

/// The other name of the default domain, any other domain as it is.
pub fn alias(domain: &[u8]) -> Vec<u8> {
    match domain {
        b"" => b"ai.onnx".to_vec(),
        b"ai.onnx" => Vec::new(),
        other => other.to_vec(),
    }
}
