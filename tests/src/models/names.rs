//! Names for the models: identifiers, others that are UTF-8, and bytes that are not.

use crate::rng::Rng;

/// Mostly short ones of few letters, so that names meet again in sibling bodies and are prefixes of each other. A third are no
/// identifiers; all are UTF-8.
pub fn some_name(rng: &mut Rng) -> Vec<u8> {
    match rng.below(30) {
        0 => b"int".to_vec(),
        1 => long_name(rng),
        2..=10 => odd_name(rng),
        _ => {
            let mut name = vec![*rng.pick(b"aw_Z")];
            for _ in 0..rng.below(3) {
                name.push(*rng.pick(b"w1_9Z"));
            }
            name
        }
    }
}

/// What makes a name odd: what exporters write, the neighbours of letters and digits, and characters at both ends of each range of UTF-8.
#[rustfmt::skip]
const ODD: [&str; 24] = [
    "/", "/", "-", ".", "9", ":", "@", "[", "`", "{", " ", "\0", "\x7f", "é", "è", "\u{80}", "\u{7ff}", "\u{800}",
    "\u{d7ff}", "\u{e000}", "\u{feff}", "\u{ffff}", "\u{10000}", "\u{10ffff}",
];

fn odd_name(rng: &mut Rng) -> Vec<u8> {
    let before = *rng.pick(&["", "", "a", "w_"]);
    let behind = if rng.chance(1, 4) { *rng.pick(&ODD) } else { *rng.pick(&["", "", "w", "1"]) };
    [before, *rng.pick(&ODD), behind].concat().into_bytes()
}

/// Of one kind of character, and odd at the end or not. Its length takes two bytes on the wire, or nearly; a few take three.
fn long_name(rng: &mut Rng) -> Vec<u8> {
    let bytes = if rng.chance(1, 50) { 16_380 } else { 122 } + rng.below(8);
    let unit = *rng.pick(&["n", "n", "/", "é", "€", "\u{10ffff}"]);
    let last = *rng.pick(&["", "", "-", "é"]);
    [&unit.repeat(bytes / unit.len()), last].concat().into_bytes()
}

/// Lone tails, longer forms of what has a shorter one, surrogates, what is above 10FFFF, bytes that UTF-8 has not, characters that are cut.
#[rustfmt::skip]
const MALFORMED: [&[u8]; 24] = [
    b"\x80", b"\xbf", b"\xc3\xa9\x80", b"\xc0\x80", b"\xc1\xbf", b"\xe0\x80\x80", b"\xe0\x9f\xbf", b"\xf0\x80\x80\x80",
    b"\xf0\x8f\xbf\xbf", b"\xed\xa0\x80", b"\xed\xbf\xbf", b"\xed\xa0\xbd\xed\xb8\x80", b"\xf4\x90\x80\x80", b"\xf5\x80\x80\x80",
    b"\xf8\x88\x80\x80\x80", b"\xfe", b"\xff", b"\xc3", b"\xe2", b"\xe2\x82", b"\xf0\x9f\x98", b"\xf4\x8f\xbf", b"caf\xe9", b"\xe9t\xe9",
];

/// Bytes that are no UTF-8, wherever in the name.
pub fn malformed(rng: &mut Rng) -> Vec<u8> {
    let before = if rng.chance(1, 2) { some_name(rng) } else { Vec::new() };
    let behind = *rng.pick(&["", "", "w", "/é"]);
    [&before, *rng.pick(&MALFORMED), behind.as_bytes()].concat()
}
