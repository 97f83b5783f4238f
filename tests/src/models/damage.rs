//! Damage to the bytes of sound models.

use crate::rng::Rng;

/// Changes `model` in one way: flip, cut, insert, repeat, splice.
pub fn damage(rng: &mut Rng, model: &mut Vec<u8>, other: &[u8]) {
    if model.is_empty() {
        return;
    }
    let at = rng.below(model.len());
    let any = rng.word() as u8;
    match rng.below(9) {
        0 => model[at] ^= 1 << rng.below(8),
        1 => model[at] = any,
        2 => model[at] = model[at].wrapping_add(1),
        3 => model[at] = model[at].wrapping_sub(1),
        4 => model.truncate(at),
        5 => {
            model.drain(at..part_end(rng, at, model.len()));
        }
        6 => {
            let byte = *rng.pick(&[0, 1, 0x7f, 0x80, 0xff, 0x0a, 0x12, any]);
            model.insert(at, byte);
        }
        7 => {
            let part = model[at..part_end(rng, at, model.len())].to_vec();
            let place = rng.below(model.len() + 1);
            model.splice(place..place, part);
        }
        _ => {
            let from = rng.below(other.len());
            let part = other[from..part_end(rng, from, other.len())].to_vec();
            let end = (at + part.len()).min(model.len());
            model.splice(at..end, part);
        }
    }
}

fn part_end(rng: &mut Rng, at: usize, length: usize) -> usize {
    (at + 1 + rng.below(12)).min(length)
}

/// Bytes that often read as tags and short lengths: tags of the first fields and of a function's, small numbers, letters.
pub fn likely_bytes(rng: &mut Rng, count: usize) -> Vec<u8> {
    const LIKELY: &[u8] =
        b"\x08\x0a\x10\x12\x1a\x22\x2a\x32\x3a\x42\x4a\x52\x5a\x62\x6a\xca\x00\x01\x02\x03\x04\x05\x07\x0d\x80\xff\xc3\xa9agw";
    (0..count).map(|_| *rng.pick(LIKELY)).collect()
}
