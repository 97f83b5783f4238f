//! Well-formed UTF-8, by the table of RFC 3629, section 4.

pub fn well_formed(bytes: &[u8]) -> bool {
    let mut rest = bytes;
    while let Some(after) = behind_char(rest) {
        rest = after;
    }
    rest.is_empty()
}

/// What stands behind the first character, where there is a whole one: a row of the table for each alternative of UTF8-char.
fn behind_char(bytes: &[u8]) -> Option<&[u8]> {
    match bytes {
        [0x00..=0x7F, rest @ ..]
        | [0xC2..=0xDF, 0x80..=0xBF, rest @ ..]
        | [0xE0, 0xA0..=0xBF, 0x80..=0xBF, rest @ ..]
        | [0xE1..=0xEC, 0x80..=0xBF, 0x80..=0xBF, rest @ ..]
        | [0xED, 0x80..=0x9F, 0x80..=0xBF, rest @ ..]
        | [0xEE..=0xEF, 0x80..=0xBF, 0x80..=0xBF, rest @ ..]
        | [0xF0, 0x90..=0xBF, 0x80..=0xBF, 0x80..=0xBF, rest @ ..]
        | [0xF1..=0xF3, 0x80..=0xBF, 0x80..=0xBF, 0x80..=0xBF, rest @ ..]
        | [0xF4, 0x80..=0x8F, 0x80..=0xBF, 0x80..=0xBF, rest @ ..] => Some(rest),
        _ => None,
    }
}

#[cfg(test)]
mod tests {
    use super::*;
    use crate::models::names::{malformed, some_name};
    use crate::rng::Rng;

    /// The standard library tells, and both answers are to be met.
    #[derive(Default)]
    struct Told([u64; 2]);

    impl Told {
        fn hold(&mut self, bytes: &[u8]) {
            let expected = std::str::from_utf8(bytes).is_ok();
            assert_eq!(well_formed(bytes), expected, "{bytes:02X?}");
            self.0[usize::from(expected)] += 1;
        }
    }

    /// Both ends of each range in the table, and the bytes beside them.
    const EDGES: [u8; 30] = [
        0x00, 0x41, 0x7E, 0x7F, 0x80, 0x81, 0x8F, 0x90, 0x9F, 0xA0, 0xBF, 0xC0, 0xC1, 0xC2, 0xC3, 0xDF, 0xE0, 0xE1,
        0xEC, 0xED, 0xEE, 0xEF, 0xF0, 0xF1, 0xF3, 0xF4, 0xF5, 0xF8, 0xFC, 0xFF,
    ];

    #[test]
    fn short_strings() {
        let mut told = Told::default();
        told.hold(&[]);
        for first in 0..=255u8 {
            told.hold(&[first]);
            (0..=255u8).for_each(|second| told.hold(&[first, second]));
        }
        for at in 0..EDGES.len().pow(4) {
            let four = [1, 30, 900, 27_000].map(|step| EDGES[at / step % 30]);
            told.hold(&four[..3]);
            told.hold(&four);
        }
        assert!(told.0.iter().all(|count| *count > 10_000), "{:?}", told.0);
    }

    /// Each lead byte with none to five tails, of the least and the greatest and of those at the ends of a shorter range.
    #[test]
    fn too_few_and_too_many_tails() {
        let mut told = Told::default();
        for lead in 0x80..=0xFFu8 {
            for second in [0x80, 0x8F, 0x90, 0x9F, 0xA0, 0xBF] {
                for tails in 0..=5 {
                    let name =
                        [&[b'a', lead, second][..2 + tails.min(1)], &[0xBF; 4][..tails.saturating_sub(1)]].concat();
                    told.hold(&name);
                    told.hold(&[&name[..], b"w"].concat());
                }
            }
        }
        assert!(told.0[1] > 500, "{:?}", told.0);
    }

    #[test]
    fn every_character() {
        let mut told = Told::default();
        for one in '\0'..=char::MAX {
            let mut bytes = [0; 5];
            let length = one.encode_utf8(&mut bytes).len();
            told.hold(&bytes[..length]);
            told.hold(&bytes[..length - 1]);
            bytes[length] = 0x80;
            told.hold(&bytes[..=length]);
        }
        assert!(told.0[1] > 0x10FFFF - 0x800, "{:?}", told.0);
    }

    #[test]
    fn random_strings() {
        let (mut told, mut rng) = (Told::default(), Rng::new(3629));
        for _ in 0..200_000 {
            let mut name = some_name(&mut rng);
            told.hold(&name);
            told.hold(&malformed(&mut rng));
            let at = rng.below(name.len());
            name[at] = *rng.pick(&EDGES);
            told.hold(&name);
            let count = rng.below(6);
            told.hold(&rng.bytes(count));
        }
        assert!(told.0.iter().all(|count| *count > 200_000), "{:?}", told.0);
    }
}
