//! Document 01's samples through the library, and the parts that are Rust's own.
use super::operators::{self, ListFault};
use super::*;

mod functions;

fn list() -> Vec<u8> {
    operators::write(&[("", 7, 21)]).unwrap()
}

fn refused(number: u64, place: usize) -> Refusal {
    Refusal { number, place, first: None }
}

fn bytes(hex: &str) -> Vec<u8> {
    hex.split_whitespace().map(|b| u8::from_str_radix(b, 16).unwrap()).collect()
}

/// The line for a model, given as hex: that of the plain check, and of the indexed one under each seed.
fn line(hex: &str, count: usize) -> String {
    let model = bytes(hex);
    let mut cells = vec![0xDEAD_BEEF; count];
    let answer = check_with(&model, &list(), &mut cells);
    assert!(cells.iter().all(|c| *c == 0), "cells are zero after every answer");
    for seed in [0, 1, 0x0123_4567_89AB_CDEF, u64::MAX] {
        for more in [0, 1, 2, 6, 1000] {
            assert_eq!(indexed(&model, count, 4 * count + more, seed), answer, "{more} more, seed {seed}");
        }
    }
    answer.map_or_else(|r| r.to_string(), |a| a.to_string())
}

/// A field of bytes.
pub fn field_of(number: u64, contents: &[u8]) -> Vec<u8> {
    [&varint_of(number << 3 | 2)[..], &varint_of(contents.len() as u64), contents].concat()
}

/// In its shortest form: another one is refused.
fn varint_of(mut value: u64) -> Vec<u8> {
    let mut out = Vec::new();
    while value >= 0x80 {
        out.push(value as u8 | 0x80);
        value >>= 7;
    }
    out.push(value as u8);
    out
}

/// Each example as it is, and so many times with some bytes changed, the same ones in every run.
pub fn damaged(times: usize) -> impl Iterator<Item = Vec<u8>> {
    let mut state = 1u64;
    let mut below = move |n: usize| {
        state = state.wrapping_mul(6364136223846793005).wrapping_add(1442695040888963407);
        (state >> 33) as usize % n
    };
    let files = std::fs::read_dir(concat!(env!("CARGO_MANIFEST_DIR"), "/../../examples")).unwrap();
    let mut paths: Vec<_> = files.map(|file| file.unwrap().path()).collect();
    paths.sort();
    let rounds = paths.into_iter().flat_map(move |path| (0..=times).map(move |round| (path.clone(), round)));
    rounds.map(move |(path, round)| {
        let mut model = std::fs::read(path).unwrap();
        for _ in 0..round.min(1 + round % 3) {
            let at = below(model.len() + 1);
            model.get_mut(at).into_iter().for_each(|byte| *byte = below(256) as u8);
        }
        model
    })
}

/// The indexed check in cells that are not zero.
fn indexed(model: &[u8], count: usize, extra: usize, seed: u64) -> Result<Accepted, Refusal> {
    let (mut cells, mut extra) = (vec![0xDEAD_BEEF; count], vec![0xFFFF_FFFF; extra]);
    let answer = check_indexed(model, &list(), &mut cells, &mut extra, seed);
    assert!(cells.iter().chain(&extra).all(|c| *c == 0), "all are zero after every answer");
    answer
}

#[test]
fn samples_of_document_01() {
    let m1 = "08 08 42 02 10 0D 3A 0B 12 01 67 0A 06 12 01 61 22 01 58";
    assert_eq!(line("", 0), "refused 10 at 0");
    assert_eq!(line("08", 0), "refused 1 at 0");
    assert_eq!(line("00", 0), "refused 3 at 0");
    assert_eq!(line("0A", 0), "refused 4 at 0");
    assert_eq!(line("08 08 08 08", 0), "refused 5 at 2");
    assert_eq!(line("08 08 42 02 10 0D 3A 03 12 01 67", 0), "accepted nodes 0 names 0 odd 0");
    for cells in [2, 3, 9] {
        assert_eq!(line(m1, cells), "accepted nodes 1 names 1 odd 0");
    }
    let reader = "08 08 42 02 10 0D 3A 0E 12 01 67 0A 09 0A 01 61 12 01 61 22 01 58";
    let twice = "08 08 42 02 10 0D 3A 0E 12 01 67 0A 09 12 01 61 12 01 61 22 01 58";
    for cells in [0, 1] {
        assert_eq!(line(m1, cells), "refused 40 at 13");
        assert_eq!(line(twice, cells), "refused 40 at 13");
        assert_eq!(line(reader, cells), "refused 30 at 13");
    }
    for cells in [2, 3] {
        assert_eq!(line(twice, cells), "refused 23 at 16 first 13");
    }
}

/// Versions 3 to 11; at 3 an initializer is the default of an input of its own graph, and later a body has none.
#[test]
fn ir_versions() {
    let m0 = |version: u8| line(&format!("08 {version:02X} 42 02 10 0D 3A 03 12 01 67"), 0);
    for version in 0..=20 {
        let expected = if (3..=11).contains(&version) { "accepted nodes 0 names 0 odd 0" } else { "refused 10 at 0" };
        assert_eq!(m0(version), expected, "{version}");
    }
    let tensor = "2A 05 42 01 69 10 01";
    let graph = |input: &str| format!("12 01 67 {input} {tensor}");
    let (typed, in_body) = ("5A 0B 0A 01 69 12 06 0A 04 08 01 12 00", "5A 03 0A 01 69");
    let body = |node, attribute, g, inner: &str| {
        format!("12 01 67 0A {node} 12 00 22 01 58 2A {attribute} 0A 01 6B A0 01 05 32 {g} {inner}")
    };
    let (own, default) = (body("19", "12", "0A", &graph("")), body("1E", "17", "0F", &graph(in_body)));
    for (graph, length, cells, at_3, later) in [
        (graph(""), "0A", 2, "refused 43 at 13", "accepted nodes 0 names 1 odd 0"),
        (graph(""), "0A", 1, "refused 43 at 13", "refused 40 at 13"),
        (graph(typed), "17", 2, "accepted nodes 0 names 1 odd 0", "accepted nodes 0 names 1 odd 0"),
        (own, "1E", 2, "refused 43 at 33", "accepted nodes 1 names 1 odd 0"),
        (default, "23", 2, "accepted nodes 1 names 1 odd 0", "refused 23 at 38 first 33"),
    ] {
        let model = |version: &str| line(&format!("08 {version} 42 02 10 0D 3A {length} {graph}"), cells);
        assert_eq!((model("03"), model("04"), model("0B")), (at_3.into(), later.into(), later.into()), "{graph}");
    }
}

/// Both places of a name that is defined twice: what is visible, in the order in which fields are judged.
#[test]
fn both_definitions() {
    let model = |fields: &[&[u8]]| {
        [&b"\x08\x08\x42\x02\x10\x0D"[..], &field_of(7, &[b"\x12\x01g", &fields.concat()[..]].concat())].concat()
    };
    let input = field_of(11, b"\x0A\x01w\x12\x06\x0A\x04\x08\x01\x12\x00");
    let default = field_of(5, b"\x42\x01w\x10\x01");
    let node = |output: &[u8], more: &[u8]| field_of(1, &[&field_of(2, output), &b"\x22\x01X"[..], more].concat());
    let body = |graph: &[u8]| field_of(5, &[b"\x0A\x01k", &field_of(6, graph)[..], b"\xA0\x01\x05"].concat());
    let (inner, twice) = (node(b"b", b""), node(b"w", b""));
    let outer = node(b"a", &body(&[b"\x12\x01h", &inner[..]].concat()));
    for (what, fields, place, first) in [
        ("two initializers", vec![&default[..], &default], 20, 13),
        ("a second default", vec![&input, &default, &default], 33, 13),
        ("a second default before its input", vec![&default, &default, &input], 20, 27),
        ("an output before its input", vec![&twice, &input], 13, 21),
        ("what a body bound has vanished", vec![&outer, &inner, &inner], 50, 42),
        ("in a body what is outside", vec![&inner, &outer], 39, 13),
    ] {
        let model = model(&fields);
        let expected = Err(Refusal { number: 23, place, first: Some(first) });
        for cells in [4, 5, 100] {
            assert_eq!(check_with(&model, &list(), &mut vec![7; cells]), expected, "{what}");
            assert_eq!(indexed(&model, cells, 4 * cells, 3), expected, "{what}");
        }
        assert_eq!(check(&model, &list()), expected, "{what}");
    }
    assert_eq!(check(&model(&[&default, &input]), &list()), Ok(Accepted { nodes: 0, names: 1, odd: 0 }));
    assert_eq!(check(&model(&[&outer, &inner]), &list()), Ok(Accepted { nodes: 3, names: 2, odd: 0 }));
}

/// Names that are no identifiers are counted where they stand, and only bytes that are no UTF-8 are refused.
#[test]
fn odd_names() {
    let graph = |length: &str, more: &str| line(&format!("08 08 42 02 10 0D 3A {length} 12 01 67 {more}"), 4);
    let output = |name: &str| graph("0B", &format!("0A 06 12 01 {name} 22 01 58"));
    for name in ["39", "2F", "2D", "00", "7F"] {
        assert_eq!(output(name), "accepted nodes 1 names 1 odd 1", "{name}");
    }
    for name in ["5F", "41", "7A"] {
        assert_eq!(output(name), "accepted nodes 1 names 1 odd 0", "{name}");
    }
    for name in ["80", "BF", "C3", "F5", "FF"] {
        assert_eq!(output(name), "refused 21 at 13", "{name}");
    }
    let exported = "0A 06 12 01 2F 22 01 58 0A 08 0A 01 2F 12 00 22 01 58";
    assert_eq!(graph("15", exported), "accepted nodes 2 names 1 odd 2", "a read counts too");
    let dim = "5A 10 0A 01 77 12 0B 0A 09 08 01 12 05 0A 03 12 01 2D";
    assert_eq!(graph("15", dim), "accepted nodes 0 names 1 odd 1");
    assert_eq!(graph("14", "5A 0F 0A 01 77 12 0A 0A 08 08 01 12 04 0A 02 12 00"), "refused 21 at 26");
    assert_eq!(graph("0C", "0A 07 12 02 C3 A9 22 01 58"), "accepted nodes 1 names 1 odd 1", "é");
    assert_eq!(graph("0C", "0A 07 12 02 C0 AF 22 01 58"), "refused 21 at 13", "a longer form of a slash");
}

/// A second place is told with 23 alone, whatever the other numbers are.
#[test]
fn first_is_of_23() {
    for number in (1..=100).chain([u64::MAX]) {
        let told = Answer { refusal: number, place: 5, nodes: 0, names: 0, first: 7, odd: 0 }.told();
        assert_eq!(told, Err(Refusal { number, place: 5, first: Some(7).filter(|_| number == 23) }));
    }
    let strange = Answer { refusal: 23, place: u64::MAX, nodes: 1, names: 2, first: 0, odd: 3 }.told().unwrap_err();
    assert_eq!(strange.to_string(), format!("refused 23 at {} first 0", usize::MAX));
    let accepted = Answer { refusal: 0, place: 1, nodes: 2, names: 3, first: 4, odd: 5 }.told();
    assert_eq!(accepted, Ok(Accepted { nodes: 2, names: 3, odd: 5 }));
}

/// A tag, a value and a length, in a message that is opened and of unknown fields; behind each the same in its shortest form.
#[test]
fn padded_varints() {
    let (header, graph) = ("08 08 42 02 10 0D", "3A 03 12 01 67");
    let sound = |more: &str| format!("{header} {graph} {more}");
    for (padded, place, shortest) in [
        (format!("88 00 08 42 02 10 0D {graph}"), 0, sound("")),
        (format!("08 88 00 42 02 10 0D {graph}"), 0, sound("")),
        (format!("08 08 42 82 00 10 0D {graph}"), 2, sound("")),
        (format!("08 08 42 03 10 8D 00 {graph}"), 4, sound("")),
        (sound("98 86 00 00"), 11, sound("98 06 00")),
        (sound("98 06 80 00"), 11, sound("98 06 00")),
        (sound("9A 06 80 00"), 11, sound("9A 06 00")),
        (sound("9D 86 80 00 01 02 03 04"), 11, sound("9D 06 01 02 03 04")),
        (sound("98 06 FF FF FF FF FF FF FF FF FF 00"), 11, sound("98 06 FF FF FF FF FF FF FF FF 7F")),
    ] {
        assert_eq!(line(&padded, 0), format!("refused 9 at {place}"), "{padded}");
        assert_eq!(line(&shortest, 0), "accepted nodes 0 names 0 odd 0", "{shortest}");
    }
    let longest = sound("98 06 FF FF FF FF FF FF FF FF FF 01");
    assert_eq!(line(&longest, 0), "accepted nodes 0 names 0 odd 0", "ten bytes that are needed");
}

/// After 1 and 2 of the same varint and before the field's next rule.
#[test]
fn padding_and_another_fault() {
    for (model, number, place) in [
        ("88", 1, 0),
        ("08 80", 1, 0),
        ("08 80 80 80 80 80 80 80 80 80 02", 2, 0),
        ("08 80 80 80 80 80 80 80 80 80 00", 9, 0),
        ("88 00", 9, 0),
        ("80 00 00", 9, 0),
        ("8B 00", 9, 0),
        ("88 80 80 80 80 01", 3, 0),
        ("88 80 80 80 80 81 00", 9, 0),
        ("8A 00 00", 9, 0),
        ("0A 80 00", 4, 0),
        ("08 08 88 00 08", 9, 2),
        ("08 08 08 88 00", 5, 2),
        ("3A 81 00", 9, 0),
        ("3A 01", 1, 0),
    ] {
        assert_eq!(line(model, 0), format!("refused {number} at {place}"), "{model}");
    }
}

#[test]
fn too_large_comes_first() {
    let model = vec![0; LARGEST_MODEL + 1];
    assert_eq!(check_with(&model, &[], &mut []), Err(refused(7, 0)));
    assert_eq!(check_with(&model[1..], &[], &mut []), Err(refused(8, 0)));
    assert_eq!(check(&model, &[]), Err(refused(7, 0)));
    assert_eq!(check(&model[1..], &[]), Err(refused(8, 0)));
    assert_eq!(check(&model[1..], &list()), Err(refused(3, 0)));
}

#[test]
fn too_few_extra_cells_come_before_all() {
    let too_few = Err(refused(65, 0));
    let m1 = bytes("08 08 42 02 10 0D 3A 0B 12 01 67 0A 06 12 01 61 22 01 58");
    for count in [2, 3, 9] {
        assert_eq!(indexed(&m1, count, 4 * count - 1, 7), too_few);
        assert_eq!(indexed(&m1, count, 4 * count, 7), Ok(Accepted { nodes: 1, names: 1, odd: 0 }));
    }
    assert_eq!((indexed(&m1, 1, 3, 7), indexed(&m1, 1, 4, 7)), (too_few, Err(refused(40, 13))));
    assert_eq!(indexed(&m1, 3, 0, 7), too_few);
    assert_eq!(indexed(&vec![0; LARGEST_MODEL + 1], 1, 3, 7), too_few);
}

#[test]
fn names_are_shown() {
    assert_eq!(show_name(b"model", 1, 3), b"ode");
    assert_eq!(show_name(b"model", 5, 0), b"");
    assert_eq!(show_name(b"model", 1, 5), b"");
    assert_eq!(show_name(b"model", usize::MAX, 2), b"");
}

#[test]
fn every_rule_is_said() {
    let numbers: Vec<u64> = RULES.iter().map(|r| r.number).collect();
    let documents = [1..=14, 16..=16, 20..=35, 37..=38, 40..=43, 65..=65];
    assert_eq!(numbers, documents.into_iter().flatten().collect::<Vec<u64>>());
    assert!(RULES.iter().all(|r| !r.name.is_empty() && !r.explanation.is_empty() && !r.explanation.contains('\n')));
    let refusal: Box<dyn std::error::Error> = Box::new(refused(30, 13));
    assert_eq!(refusal.to_string(), "refused 30 at 13");
    assert_eq!(refused(99, 0).name(), "unknown");
}

#[test]
fn lists_are_written_and_read() {
    assert_eq!(list(), [0, 0, 0, 0x0B, 1, 0, 8, 0, 0, 0, 7, 0, 0, 0, 0x15]);
    let two = operators::write(&[("ai.onnx", 7, 21), ("ai.onnx.ml", 1, 5)]).unwrap();
    assert!(operators::is_sound(&two));
    let read = operators::read(&two).unwrap();
    assert_eq!((read[1].domain.as_slice(), read[1].lowest, read[1].highest), (&b"ai.onnx.ml"[..], 1, 5));
    assert_eq!(operators::write::<&str>(&[]).unwrap(), [0, 0, 0, 1, 1]);
}

#[test]
fn bad_lists_are_told() {
    assert_eq!(operators::write(&[("a", 0, 1)]), Err(ListFault::BadVersions("a".into(), 0, 1)));
    assert_eq!(operators::write(&[("a", 2, 1)]), Err(ListFault::BadVersions("a".into(), 2, 1)));
    assert_eq!(operators::write(&[("", 1, 1), ("ai.onnx", 1, 1)]), Err(ListFault::DomainTwice("ai.onnx".into())));
    assert_eq!(operators::write(&[(vec![b'x'; 65528], 1, 1)]), Err(ListFault::DomainTooLong(65528)));
}

/// The reader of lists and the library agree on what a list is, for every change of one byte and every length.
#[test]
fn reader_and_library_agree() {
    let whole = operators::write(&[("a", 1, 5), ("ai.onnx", 7, 21)]).unwrap();
    for cut in 0..=whole.len() {
        assert_eq!(operators::read(&whole[..cut]).is_ok(), operators::is_sound(&whole[..cut]));
    }
    for at in 0..whole.len() {
        for byte in 0..=255 {
            let mut changed = whole.clone();
            changed[at] = byte;
            assert_eq!(operators::read(&changed).is_ok(), operators::is_sound(&changed), "{changed:?}");
        }
    }
}
