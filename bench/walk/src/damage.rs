//! Small models that are damaged, or made of any fields at all.

use crate::generate::{
    Message, Random, flat, functions, message, nested, nested_function, one_field, unknown,
};

/// Any fields at all, some twice; a number of 2^29 is too large.
fn anything(r: &mut Random, depth: u64) -> Message {
    message(|m| {
        for _ in 0..r.below(5) {
            let number = match r.below(64) {
                0 => (1 << 29) - r.below(2),
                _ => 1 + r.number(5),
            };
            let wire = r.below(8);
            for _ in 0..1 + r.below(2) {
                match wire {
                    0 | 1 => m.varint(number, r.number(64)),
                    2 => m.fixed(number, &[1; 8]),
                    3 => m.fixed(number, &[1; 4]),
                    _ if depth == 0 => m.bytes(number, b""),
                    _ => m.message(number, &anything(r, depth - 1)),
                }
            }
        }
    })
}

/// The fields that lead from the model to a message of each kind.
const PATHS: [&[u64]; 16] = [
    &[],
    &[8],
    &[7],
    &[7, 1],
    &[7, 1, 5],
    &[7, 5],
    &[7, 11],
    &[7, 11, 2],
    &[7, 11, 2, 1],
    &[7, 11, 2, 1, 2],
    &[7, 11, 2, 1, 2, 1],
    &[25],
    &[25, 7],
    &[25, 7, 5],
    &[25, 9],
    &[25, 11],
];

/// A model with anything in a message of any kind.
fn anywhere(r: &mut Random) -> Message {
    let path = PATHS[r.below(PATHS.len() as u64) as usize];
    path.iter().rev().fold(anything(r, 2), |inner, &number| {
        message(|m| m.message(number, &inner))
    })
}

/// Lengthens the varint that may end at `at` by up to nine bytes.
fn pad(r: &mut Random, bytes: &mut Vec<u8>, at: usize) {
    bytes[at] |= 0x80;
    let mut needless = vec![0x80; r.below(9) as usize];
    needless.push(0);
    bytes.splice(at + 1..at + 1, needless);
}

/// A small model, with up to four places changed.
pub fn damaged(r: &mut Random) -> Vec<u8> {
    let mut bytes = match r.below(10) {
        0 => flat(r, 60),
        1 => unknown(r, 60),
        2 => {
            let deepest = 2 + r.below(8);
            nested(r, 1, deepest)
        }
        3 => one_field(20),
        4 => functions(r, 60),
        5 => {
            let deepest = 2 + r.below(8);
            nested_function(r, deepest)
        }
        _ => anywhere(r),
    }
    .bytes;
    for _ in 0..r.below(5) {
        let at = r.below(bytes.len() as u64 + 1) as usize;
        match r.below(6) {
            0 => bytes.truncate(at),
            1 => bytes.insert(at, r.next() as u8),
            2 => bytes.insert(at, 0x80 | r.next() as u8),
            _ if at == bytes.len() => {}
            3 => bytes[at] = r.next() as u8,
            4 => pad(r, &mut bytes, at),
            _ => bytes[at] ^= 1 << r.below(8),
        }
    }
    bytes
}
