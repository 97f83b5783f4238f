use super::*;
use crate::samples::{bytes, part, Random};

mod functions;

const READER: &str = "08 08 42 02 10 0D 3A 0E 12 01 67 0A 09 0A 01 61 12 01 61 22 01 58";

/// A function with an attribute, a default, an import, an input, a node that refers to the attribute, and an output.
const FUNCTION: &str = "08 08 42 02 10 0D 3A 03 12 01 67 CA 01 34 0A 01 71 32 01 6B 5A 08 0A 01 6D 18 01 A0 01 02 4A 02
    10 0D 22 01 69 3A 18 0A 01 69 12 01 6F 1A 01 6E 22 01 58 2A 0A 0A 01 6B A0 01 02 AA 01 01 6B 2A 01 6F";

fn explained(model: &[u8], number: u64, place: usize) -> Explanation<'_> {
    explained_both(model, number, place, None)
}

fn explained_both(model: &[u8], number: u64, place: usize, first: Option<usize>) -> Explanation<'_> {
    found(&Given { model, operators: &[0, 0, 0, 1, 1], cells: 3 }, Refusal { number, place, first })
}

#[test]
fn a_name_that_is_read_too_early() {
    let model = bytes(READER);
    let e = explained(&model, 30, 13);
    assert_eq!(e.path.as_deref(), Some("graph > node[0] (X) > input[0]"));
    assert_eq!(e.name, Some(&b"a"[..]));
    assert_eq!(e.notes, ["defined at graph > node[0] (X) > output[0]"]);
    assert_eq!(e.window.unwrap(), Window { start: 9, bytes: &model[9..], field: 13..16 });
}

/// The earlier place is the library's, and nothing is sought for it: not even where the name is another one.
#[test]
fn a_name_that_is_defined_twice() {
    let model = bytes("08 08 42 02 10 0D 3A 0E 12 01 67 0A 09 12 01 61 12 01 61 22 01 58");
    let e = explained_both(&model, 23, 16, Some(13));
    assert_eq!((e.path.as_deref(), e.name), (Some("graph > node[0] (X) > output[1]"), Some(&b"a"[..])));
    assert_eq!(e.notes, ["defined first at 13, graph > node[0] (X) > output[0]"]);
    let behind = explained_both(&model, 23, 13, Some(16)).notes;
    assert_eq!(behind, ["defined first at 16, graph > node[0] (X) > output[1]"]);
    assert_eq!(explained_both(&model, 23, 16, Some(8)).notes, ["defined first at 8, graph > name"]);
    assert!(explained(&model, 23, 16).notes.is_empty());
    assert_eq!(explained_both(&model, 23, 16, Some(usize::MAX)).notes.len(), 1);
}

#[test]
fn an_initializer_that_is_no_default() {
    let input = |name: &str| part(11, &part(1, name.as_bytes()));
    let default = |name: &str| part(5, &part(8, name.as_bytes()));
    let inputs = |names: &[&str]| names.iter().flat_map(|name| input(name)).collect::<Vec<u8>>();
    for (names, note) in [
        (&[][..], "its graph has no inputs"),
        (&["x"], r#"the input of its graph is "x""#),
        (&["x", "y", "w1"], r#"the inputs of its graph are "x", "y", "w1""#),
        (&["x", "y", "z", "i", "j"], r#"the inputs of its graph are "x", "y", "z" and 2 more"#),
    ] {
        let model = part(7, &[default("w"), inputs(names)].concat());
        let e = explained(&model, 43, 4);
        assert_eq!((e.path.as_deref(), e.name), (Some(r#"graph > initializer[0] "w" > name"#), Some(&b"w"[..])));
        assert_eq!((e.notes, e.window.unwrap().field), (vec![note.to_string()], 4..7));
    }
    let body = |graph: &[u8]| part(1, &part(5, &part(6, graph)));
    let model = part(7, &[input("w"), default("w"), body(&[input("i"), default("w")].concat())].concat());
    let e = explained(&model, 43, model.len() - 3);
    let path = r#"graph > node[0] > attribute[0] > g > initializer[0] "w" > name"#;
    let outer =
        ["graph > input[0] \"w\"", "graph > initializer[0] \"w\""].map(|at| format!("the name is also that of {at}"));
    assert_eq!(e.path.as_deref(), Some(path));
    assert_eq!(e.notes, [&["the input of its graph is \"i\"".to_string()][..], &outer].concat());
    // what no library would say
    assert!(explained(&model, 43, 2).notes.is_empty());
}

#[test]
fn what_is_padded() {
    let graph = "3A 05 12 83 00 61 62 63";
    for (hex, place, path, note, field) in [
        ("88 00 08", 0, "ir_version", "its tag, at 0, takes 2 bytes and needs 1", 0..3),
        ("08 88 80 00", 0, "ir_version", "its value, at 1, takes 3 bytes and needs 1", 0..4),
        (graph, 2, "graph > name", "its length, at 3, takes 2 bytes and needs 1", 2..7),
        // and too long
        ("3A 81 80 00", 0, "graph", "its length, at 1, takes 3 bytes and needs 1", 0..4),
        // both, of which the tag comes first; and fields that onnx.proto does not have
        ("BA 80 00 80 00", 0, "graph", "its tag, at 0, takes 3 bytes and needs 1", 0..5),
        ("9D 86 00 01 02 03 04", 0, "field 99", "its tag, at 0, takes 3 bytes and needs 2", 0..7),
        ("9A 06 81 00 07", 0, "field 99", "its length, at 2, takes 2 bytes and needs 1", 0..5),
        // no tag besides: field 0, wire type 3, and above 2^32 - 1
        ("80 00 01 02", 0, "model > (unreadable tag)", "its tag, at 0, takes 2 bytes and needs 1", 0..2),
        ("8B 00 01 02", 0, "model > (unreadable tag)", "its tag, at 0, takes 2 bytes and needs 1", 0..2),
        ("88 80 80 80 90 00 08", 0, "model > (unreadable tag)", "its tag, at 0, takes 6 bytes and needs 5", 0..6),
    ] {
        let model = bytes(hex);
        let e = explained(&model, 9, place);
        assert_eq!((e.path.as_deref(), e.name, e.window.unwrap().field), (Some(path), None, field), "{hex}");
        assert_eq!(e.notes, [note], "{hex}");
    }
}

#[test]
fn what_is_not_text() {
    for (hex, at, why) in [
        ("80", 0, "a tail with no lead before it"),
        ("61 C3 A9 BF", 3, "a tail with no lead before it"),
        ("C3 A9 A9", 2, "a tail with no lead before it"),
        ("C0 80", 0, "an overlong form"),
        ("C1 BF", 0, "an overlong form"),
        ("E0 9F BF", 0, "an overlong form"),
        ("F0 8F BF BF", 0, "an overlong form"),
        ("ED A0 80", 0, "a surrogate"),
        ("2F ED BF BF", 1, "a surrogate"),
        ("F4 90 80 80", 0, "above U+10FFFF"),
        ("F5 80 80 80", 0, "above U+10FFFF"),
        ("FD", 0, "above U+10FFFF"),
        ("61 FF", 1, "a byte that no character has"),
        ("61 62 C3", 2, "a character that is cut off"),
        ("C3 28", 0, "a character that is cut off"),
        ("E2 89", 0, "a character that is cut off"),
        ("E0 A0", 0, "a character that is cut off"),
        ("E0 2F", 0, "a character that is cut off"),
        ("F0 90 80 2F", 0, "a character that is cut off"),
    ] {
        let model = part(7, &part(2, &bytes(hex)));
        let e = explained(&model, 21, 2);
        assert_eq!((e.path.as_deref(), e.name), (Some("graph > name"), Some(&model[4..])), "{hex}");
        assert_eq!(e.notes, [format!("not UTF-8 at {}, offset {at} in the name: {why}", 4 + at)], "{hex}");
    }
    assert!(explained(&part(7, &part(2, "é".as_bytes())), 21, 2).notes.is_empty());
}

#[test]
fn an_empty_dim_param() {
    let shape = part(2, &part(1, &part(2, b"")));
    let input = part(11, &[part(1, b"x"), part(2, &part(1, &shape))].concat());
    let model = part(7, &input);
    let e = explained(&model, 21, model.len() - 2);
    let path = r#"graph > input[0] "x" > type > tensor_type > shape > dim[0] > dim_param"#;
    assert_eq!((e.path.as_deref(), e.notes), (Some(path), vec!["the dim_param is empty".into()]));
}

#[test]
fn what_the_model_lacks() {
    assert_eq!(explained(&[], 10, 0).path.as_deref(), Some("model"));
    let model = bytes("42 02 10 0D");
    let e = explained(&model, 10, 0);
    assert_eq!((e.path.as_deref(), e.window.unwrap().field), (Some("model"), 0..0));
    assert_eq!(e.notes, ["ir_version is absent"]);
    assert!([7, 8, 65].iter().all(|number| explained(&model, *number, 0).path.is_none()));
}

#[test]
fn nothing_that_fails_here_goes_further() {
    assert_eq!(guarded(ROOM, || 7), Ok(7));
    assert_eq!(guarded(isize::MAX as usize, || 7), Err("there is no memory for one"));
    assert_eq!(guarded::<()>(ROOM, || panic!("as a test")), Err("a mistake in this command"));
}

/// Any number at any place of any bytes: an explanation never fails.
#[test]
fn any_bytes_at_any_place() {
    let mut r = Random(5);
    let sound = bytes(READER);
    // two functions of one name
    let functions = [bytes(FUNCTION), bytes(FUNCTION)[11..].to_vec()].concat();
    for round in 0..40_000 {
        let mut model = if round % 4 < 2 { sound.clone() } else { functions.clone() };
        for _ in 0..=r.below(4) {
            let at = r.below(model.len() as u64) as usize;
            model[at] = if round % 2 == 0 { r.below(256) } else { r.below(64) } as u8;
        }
        model.truncate(r.below(model.len() as u64 + 1) as usize);
        let place = r.below(model.len() as u64 + 3) as usize;
        let first = Some(r.below(model.len() as u64 + 3) as usize).filter(|_| round % 3 == 0);
        explained_both(&model, r.below(44), place, first);
    }
    explained(&model_of_nested_bytes(), 30, 5_000);
    explained(&sound, 30, usize::MAX);
}

/// Damaged examples, judged by the library: the field that a refusal names is always found.
#[test]
fn every_place_is_found() {
    let list = onnx_gate::operators::write(&crate::args::DEFAULT).unwrap();
    let mut r = Random(11);
    let mut met = std::collections::BTreeSet::new();
    for file in std::fs::read_dir(concat!(env!("CARGO_MANIFEST_DIR"), "/../examples")).unwrap() {
        let sound = std::fs::read(file.unwrap().path()).unwrap();
        for round in 0..2_000 {
            let mut model = sound.clone();
            for _ in 0..round.min(1 + round % 3) {
                let at = r.below(model.len() as u64 + 1) as usize;
                model.get_mut(at).into_iter().for_each(|b| *b = r.below(256) as u8);
            }
            let Err(refusal) = onnx_gate::check_with(&model, &list, &mut [0; 16]) else { continue };
            met.insert(refusal.number);
            let path = path::find(&model, refusal.place);
            let known = path.exact || path.unreadable || lacks_a_field(&model, refusal.number, &path);
            assert!(known, "{refusal} of {model:02x?}");
            let notes = found(&Given { model: &model, operators: &list, cells: 16 }, refusal).notes;
            let told = match refusal.number {
                9 | 21 | 23 | 33 | 42 => notes.len() == 1,
                41 | 43 => !notes.is_empty(),
                _ => true,
            };
            assert!(told, "{refusal} of {model:02x?}: {notes:?}");
            let first = refusal.first.map(|first| path::find(&model, first));
            assert!(first.is_none_or(|path| path.exact), "{refusal} of {model:02x?}");
        }
    }
    assert!(met.len() >= 30, "{met:?}");
}

/// Messages in messages, deeper than any that the library opens. Some lengths are padded, and read all the same.
fn model_of_nested_bytes() -> Vec<u8> {
    let put = |tag: u8, inner: Vec<u8>| {
        let length = [(inner.len() & 0x7F) as u8 | 0x80, (inner.len() >> 7) as u8 & 0x7F];
        [&[tag][..], &length, &inner].concat()
    };
    let body = (0..1_000).fold(Vec::new(), |inner, _| put(0x0A, put(0x2A, put(0x32, inner))));
    put(0x3A, body)
}
