//! Refusals in functions: their paths, their names, and what is said of them.
use super::*;

const START: &[u8] = b"\x42\x02\x10\x0D\x3A\x03\x12\x01g";

/// A model at this IR version with these functions: the first is at 11, and its contents at 14.
fn model(version: u8, functions: &[&[u8]]) -> Vec<u8> {
    let functions: Vec<u8> = functions.iter().flat_map(|function| part(25, function)).collect();
    [&[8, version], START, &functions].concat()
}

/// A function f with an import and what is given, which stands at 21 in the first.
fn f(more: &[u8]) -> Vec<u8> {
    [b"\x0A\x01f\x4A\x02\x10\x0D", more].concat()
}

fn node(contents: &[u8]) -> Vec<u8> {
    part(7, &[b"\x12\x01y\x22\x01X", contents].concat())
}

/// Path, name and notes.
fn told(model: &[u8], number: u64, place: usize) -> (String, Option<Vec<u8>>, Vec<String>) {
    let e = explained(model, number, place);
    (e.path.unwrap(), e.name.map(<[u8]>::to_vec), e.notes)
}

fn expect(model: &[u8], number: u64, place: usize, path: &str, name: &str, notes: &[&str]) {
    let name = Some(name.as_bytes().to_vec()).filter(|name| !name.is_empty());
    let notes = notes.iter().map(|note| note.to_string()).collect();
    assert_eq!(told(model, number, place), (path.to_string(), name, notes), "{number} at {place}");
}

#[test]
fn defined_twice() {
    let (plain, domain, alias, overload) = (f(b""), f(b"\x52\x01d"), f(b"\x52\x07ai.onnx"), f(b"\x6A\x01v"));
    let first = r#"first at 11, functions[0] "f""#;
    expect(&model(8, &[&plain, &plain]), 41, 21, r#"functions[1] "f""#, "f", &[first]);
    let second = r#"first at 24, functions[1] "f""#;
    expect(&model(8, &[&domain, &plain, &alias]), 41, 34, r#"functions[2] "f""#, "f", &[second]);
    expect(&model(10, &[&overload, &plain, &plain]), 41, 34, r#"functions[2] "f""#, "f", &[second]);
    let apart = "an overload tells functions apart from IR version 10 on, and ir_version is 9";
    expect(&model(9, &[&overload, &plain]), 41, 24, r#"functions[1] "f""#, "f", &[first, apart]);
    // what no library would say
    expect(&model(8, &[&plain, &domain]), 41, 21, r#"functions[1] "f""#, "f", &[]);
}

#[test]
fn attributes_named_twice() {
    let default = part(11, b"\x0A\x01a\x18\x01\xA0\x01\x02");
    let of = |parts: &[&[u8]]| model(8, &[&f(&parts.concat())]);
    let (plain, path) = (b"\x32\x01a", r#"functions[0] "f" > attribute"#);
    let first = |place: usize, rest: &str| format!("first at {place}, {path}{rest}");
    expect(&of(&[plain, plain]), 42, 24, &format!("{path}[1]"), "a", &[&first(21, "[0]")]);
    let proto = |at: usize| format!(r#"{path}_proto[{at}] "a" > name"#);
    expect(&of(&[&default, &default]), 42, 33, &proto(1), "a", &[&first(21, r#"_proto[0] "a""#)]);
    // the one without a default is judged first, though it stands behind
    expect(&of(&[&default, plain]), 42, 23, &proto(0), "a", &[&first(31, "[0]")]);
    expect(&of(&[&default]), 42, 23, &proto(0), "a", &[]);
}

#[test]
fn references() {
    let attribute = |number, to: &[u8]| part(number, &[&b"\x0A\x01k\xA0\x01\x02"[..], &part(21, to)].concat());
    let of = |more: &[u8]| model(8, &[&f(&[&node(&attribute(5, b"m")), more].concat())]);
    let path = r#"functions[0] "f" > node[0] (X) > attribute[0] "k""#;
    for (more, note) in [
        (&b""[..], r#"it refers to "m"; its function has no attributes"#),
        (b"\x32\x01a", r#"it refers to "m"; the attribute of its function is "a""#),
        (b"\x32\x01a\x5A\x03\x0A\x01b", r#"it refers to "m"; the attributes of its function are "a", "b""#),
        (
            b"\x32\x01a\x32\x01b\x32\x01c\x32\x01d\x32\x01e",
            r#"it refers to "m"; the attributes of its function are "a", "b", "c" and 2 more"#,
        ),
    ] {
        expect(&of(more), 33, 29, path, "k", &[note]);
    }
    let default = model(8, &[&f(&attribute(11, b"\x1B[2J"))]);
    let note = r#"it refers to "\u{1b}[2J", and a default may not be a reference"#;
    expect(&default, 33, 21, r#"functions[0] "f" > attribute_proto[0] "k""#, "k", &[note]);
    let main = part(7, &part(1, &attribute(5, b"m")));
    let note = r#"it refers to "m", and stands in no function"#;
    expect(&main, 33, 4, r#"graph > node[0] > attribute[0] "k""#, "k", &[note]);
    let held = r#"type is 2; the attribute holds nothing, and refers to "m""#;
    expect(&of(b"\x32\x01m"), 32, 29, path, "k", &[held]);
    let graph = model(8, &[&f(&part(11, b"\x0A\x01k\x32\x00\xA0\x01\x05"))]);
    let path = r#"functions[0] "f" > attribute_proto[0] "k""#;
    expect(&graph, 32, 21, path, "k", &["type is 5; the attribute holds g"]);
}

#[test]
fn imports() {
    let none = "the imports of the model do not serve a function";
    expect(&model(8, &[b"\x0A\x01f"]), 12, 11, r#"functions[0] "f""#, "f", &[none]);
    let behind = [&part(25, b"\x0A\x01f")[..], &[8, 8], START].concat();
    expect(&behind, 12, 0, r#"functions[0] "f""#, "f", &[none]);
    expect(&[&part(25, &f(b""))[..], b"\x08\x08\x3A\x03\x12\x01g"].concat(), 12, 0, "model", "", &[]);
    let twice = model(8, &[&f(b"\x4A\x0B\x0A\x07ai.onnx\x10\x0D")]);
    let path = r#"functions[0] "f" > opset_import[1] "ai.onnx""#;
    expect(&twice, 13, 21, path, "ai.onnx", &["ai.onnx version 13, imported before"]);
    let path = r#"functions[0] "f" > opset_import[0]"#;
    expect(&twice, 14, 17, path, "f", &["ai.onnx version 13; the list does not have this domain"]);
    let of_node = model(8, &[&f(&[&b"\x4A\x05\x0A\x01e\x10\x01"[..], &node(b"\x3A\x01d")].concat())]);
    let note = "the node's domain is d; its function imports ai.onnx, e; the imports of the model do not serve it";
    expect(&of_node, 28, 36, r#"functions[0] "f" > node[0] (X) > domain"#, "d", &[note]);
}

#[test]
fn names() {
    expect(&model(8, &[b"\x4A\x02\x10\x0D"]), 22, 11, "functions[0]", "", &[]);
    expect(&model(8, &[b"\x0A\x00\x4A\x02\x10\x0D"]), 22, 14, "functions[0] > name", "", &[]);
    expect(&model(8, &[&f(b"\x22\x01x\x22\x00")]), 22, 24, r#"functions[0] "f" > input[1]"#, "", &[]);
    expect(&model(8, &[&f(b"\x5A\x03\xA0\x01\x01")]), 22, 21, r#"functions[0] "f" > attribute_proto[0]"#, "f", &[]);
    let (path, name, notes) = explained_name(&model(8, &[&f(b"\x2A\x02a\x80")]));
    assert_eq!((path.as_str(), name), (r#"functions[0] "f" > output[0]"#, b"a\x80".to_vec()));
    assert_eq!(notes, ["not UTF-8 at 24, offset 1 in the name: a tail with no lead before it"]);
    let twice = model(8, &[&f(b"\x22\x01x\x22\x01x")]);
    let e = explained_both(&twice, 23, 24, Some(21));
    assert_eq!(e.notes, [r#"defined first at 21, functions[0] "f" > input[0]"#]);
}

/// Of a 21 at the first field behind name and import.
fn explained_name(model: &[u8]) -> (String, Vec<u8>, Vec<String>) {
    let (path, name, notes) = told(model, 21, 21);
    (path, name.unwrap(), notes)
}

/// A name of the main graph or of another function is defined, and not for this one.
#[test]
fn names_from_outside() {
    let (reader, outside) = (f(&node(b"\x0A\x01x")), "a function sees no name from outside it");
    let path = r#"functions[0] "f" > node[0] (X) > input[0]"#;
    let with = |functions: &[&[u8]]| model(8, functions);
    expect(&with(&[&reader]), 30, 29, path, "x", &[r#"nothing in the model defines "x""#]);
    let other = r#"defined at functions[1] "f" > input[0]"#;
    expect(&with(&[&reader, &f(b"\x22\x01x")]), 30, 29, path, "x", &[other, outside]);
    let later = f(&[node(b"\x0A\x01x"), part(7, b"\x12\x01x\x22\x01X")].concat());
    let own = r#"defined at functions[0] "f" > node[1] (X) > output[0]"#;
    expect(&with(&[&later]), 30, 29, path, "x", &[own]);
    let mut main = part(7, &part(1, b"\x12\x01x\x22\x01X"));
    main.extend(part(25, &f(b"\x2A\x01x")));
    let place = main.len() - 3;
    let note = "defined at graph > node[0] (X) > output[0]";
    expect(&main, 35, place, r#"functions[0] "f" > output[0]"#, "x", &[note, outside]);
}
