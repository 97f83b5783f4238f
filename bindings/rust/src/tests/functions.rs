//! Functions: their order, their places, and what they see. All stand behind M0, whose main graph has no names.
use super::*;

/// M0 at this IR version with these functions, the first of them at 11 and its contents at 14.
fn model(version: u8, functions: &[&[u8]]) -> Vec<u8> {
    let functions: Vec<u8> = functions.iter().flat_map(|function| field_of(25, function)).collect();
    [&[8, version], &b"\x42\x02\x10\x0D\x3A\x03\x12\x01g"[..], &functions].concat()
}

/// The answer in so many cells, by every check.
fn answer(model: &[u8], cells: usize) -> String {
    let hex: String = model.iter().map(|byte| format!("{byte:02X} ")).collect();
    line(&hex, cells)
}

/// A function f with an import and what is given, which stands at 21 in the first.
fn f(more: &[u8]) -> Vec<u8> {
    [b"\x0A\x01f\x4A\x02\x10\x0D", more].concat()
}

fn attribute(name: &[u8], more: &[u8]) -> Vec<u8> {
    [&field_of(1, name), more].concat()
}

/// A node with no inputs and one output.
fn node(output: &[u8], more: &[u8]) -> Vec<u8> {
    field_of(7, &[&field_of(2, output)[..], b"\x22\x01X", more].concat())
}

const INT: &[u8] = b"\x18\x01\xA0\x01\x02";
const ACCEPTED: &str = "accepted nodes 0 names 0 odd 0";

#[test]
fn names() {
    for (functions, expected) in [
        (vec![f(b"")], ACCEPTED),
        (vec![b"\x4A\x02\x10\x0D".to_vec()], "refused 22 at 11"),
        (vec![b"\x0A\x00\x4A\x02\x10\x0D".to_vec()], "refused 22 at 14"),
        (vec![b"\x0A\x01\x80\x4A\x02\x10\x0D".to_vec()], "refused 21 at 14"),
        (vec![b"\x0A\x01/\x4A\x02\x10\x0D".to_vec()], "accepted nodes 0 names 0 odd 1"),
        (vec![f(b""), f(b"")], "refused 41 at 21"),
        (vec![f(b""), f(b"\x52\x01d")], ACCEPTED),
        (vec![f(b""), f(b"\x52\x07ai.onnx")], "refused 41 at 21"),
        // whatever the earlier one holds, and before anything else of the later one
        (vec![f(b"\x32\x01a"), b"\x0A\x01f".to_vec()], "refused 41 at 24"),
    ] {
        let functions: Vec<&[u8]> = functions.iter().map(Vec::as_slice).collect();
        assert_eq!(answer(&model(8, &functions), 0), expected, "{functions:x?}");
    }
}

#[test]
fn overloads() {
    for (version, expected) in [(3, "refused 41 at 21"), (9, "refused 41 at 21"), (10, ACCEPTED), (11, ACCEPTED)] {
        assert_eq!(answer(&model(version, &[&f(b""), &f(b"\x6A\x01v")]), 0), expected, "{version}");
        assert_eq!(answer(&model(version, &[&f(b""), &f(b"\x6A\x00")]), 0), "refused 41 at 21", "{version}");
    }
}

#[test]
fn attributes() {
    let default = |name: &[u8], more: &[u8]| field_of(11, &attribute(name, more));
    let (a, b) = (default(b"a", INT), default(b"b", INT));
    for (more, expected) in [
        ([b"\x32\x01a\x32\x01b", &default(b"c", INT)[..]].concat(), ACCEPTED),
        (b"\x32\x00".to_vec(), "refused 22 at 21"),
        (b"\x32\x01\x80".to_vec(), "refused 21 at 21"),
        (b"\x32\x01/".to_vec(), "accepted nodes 0 names 0 odd 1"),
        (b"\x32\x01a\x32\x01a".to_vec(), "refused 42 at 24"),
        ([&a[..], &b, &a].concat(), "refused 42 at 43"),
        ([&a[..], b"\x32\x01a"].concat(), "refused 42 at 23"),
        (field_of(11, INT), "refused 22 at 21"),
        (default(b"", INT), "refused 22 at 23"),
        // a graph, graphs, a reference, with and without a value
        (default(b"a", b"\x32\x03\x12\x01g\xA0\x01\x05"), "refused 32 at 21"),
        (default(b"a", b"\xA0\x01\x0A"), "refused 32 at 21"),
        (default(b"a", b"\xA0\x01\x01"), ACCEPTED),
        (default(b"a", b"\xA0\x01\x04"), "refused 32 at 21"),
        (default(b"a", b"\xAA\x01\x01a\xA0\x01\x01"), "refused 33 at 21"),
        (default(b"a", b"\xAA\x01\x00\xA0\x01\x01"), ACCEPTED),
    ] {
        assert_eq!(answer(&model(8, &[&f(&more)]), 0), expected, "{more:x?}");
    }
}

#[test]
fn imports() {
    let with = |imports: &[u8]| model(8, &[&[b"\x0A\x01f", imports].concat()]);
    assert_eq!(answer(&with(b""), 0), "refused 12 at 11");
    assert_eq!(answer(&with(b"\x4A\x02\x10\x07"), 0), ACCEPTED, "another version than the model's");
    assert_eq!(answer(&with(b"\x4A\x02\x10\x16"), 0), "refused 14 at 17");
    assert_eq!(answer(&with(b"\x4A\x02\x10\x0D\x4A\x0B\x0A\x07ai.onnx\x10\x0D"), 0), "refused 13 at 21");
    let node = node(b"y", b"");
    let foreign = [&b"\x0A\x01f\x4A\x05\x0A\x01d\x10\x01"[..], &node].concat();
    let list = operators::write(&[("", 7, 21), ("d", 1, 1)]).unwrap();
    let found = check_with(&model(8, &[&foreign]), &list, &mut [0; 2]);
    assert_eq!(found, Err(refused(28, 24)), "the model's imports serve no function");
}

#[test]
fn bodies() {
    for (more, cells, expected) in [
        (b"\x22\x01x\x2A\x01x".to_vec(), 2, "accepted nodes 0 names 1 odd 0"),
        (b"\x22\x01x\x2A\x01x".to_vec(), 1, "refused 40 at 21"),
        (b"\x2A\x01x\x2A\x01x\x22\x01x".to_vec(), 2, "accepted nodes 0 names 1 odd 0"),
        (b"\x22\x00".to_vec(), 2, "refused 22 at 21"),
        (b"\x2A\x00".to_vec(), 2, "refused 22 at 21"),
        (b"\x22\x01x\x22\x01x".to_vec(), 2, "refused 23 at 24 first 21"),
        (b"\x2A\x01x".to_vec(), 2, "refused 35 at 21"),
        ([&node(b"x", b"")[..], b"\x22\x01x"].concat(), 2, "refused 23 at 23 first 29"),
        ([node(b"x", b"\x1A\x01n"), node(b"y", b"\x1A\x01n")].concat(), 4, "refused 29 at 40"),
        (node(b"y", b"\x0A\x01z"), 2, "refused 30 at 29"),
    ] {
        assert_eq!(answer(&model(8, &[&f(&more)]), cells), expected, "{more:x?}");
    }
    // each function starts from none
    let (one, two) =
        (f(b"\x22\x01x\x22\x01y"), [&b"\x0A\x01h\x4A\x02\x10\x0D\x22\x01x"[..], &node(b"z", b"")].concat());
    assert_eq!(answer(&model(8, &[&one, &two]), 4), "accepted nodes 1 names 2 odd 0");
}

#[test]
fn references() {
    let reads = |more: &[u8]| node(b"y", &field_of(5, &attribute(b"k", more)));
    let nested = |more: &[u8]| {
        let inner = field_of(1, &[&b"\x12\x01z\x22\x01X"[..], &field_of(5, &attribute(b"k", more))].concat());
        let graph = field_of(6, &[&b"\x12\x01h"[..], &inner].concat());
        node(b"y", &field_of(5, &attribute(b"k", &[&graph[..], b"\xA0\x01\x05"].concat())))
    };
    let default = field_of(11, &attribute(b"a", INT));
    let to_a = b"\xAA\x01\x01a\xA0\x01\x02";
    for (more, expected) in [
        ([&reads(to_a)[..], b"\x32\x01a"].concat(), "accepted nodes 1 names 1 odd 0"),
        ([&reads(to_a)[..], &default].concat(), "accepted nodes 1 names 1 odd 0"),
        ([&nested(to_a)[..], b"\x32\x01a"].concat(), "accepted nodes 2 names 1 odd 0"),
        ([&reads(to_a)[..], b"\x32\x01b"].concat(), "refused 33 at 29"),
        (nested(to_a), "refused 33 at 47"),
        ([&reads(b"\xAA\x01\x01a\xA0\x01\x05")[..], b"\x32\x01a"].concat(), "accepted nodes 1 names 1 odd 0"),
        ([&reads(b"\xAA\x01\x01a\xA0\x01\x0F")[..], b"\x32\x01a"].concat(), "refused 32 at 29"),
        ([&reads(b"\xAA\x01\x01a\x18\x01\xA0\x01\x02")[..], b"\x32\x01a"].concat(), "refused 32 at 29"),
    ] {
        assert_eq!(answer(&model(8, &[&f(&more)]), 2), expected, "{more:x?}");
    }
    let other = [b"\x0A\x01h\x4A\x02\x10\x0D", &reads(to_a)[..]].concat();
    assert_eq!(answer(&model(8, &[&f(b"\x32\x01a"), &other]), 2), "refused 33 at 42", "another function's");
}

/// The first walk opens a function: its faults come before those of the header, and its graphs are at depth 2.
#[test]
fn on_the_wire() {
    let no_version = |function: &[u8]| answer(&field_of(25, function), 0);
    assert_eq!(no_version(&f(b"")), "refused 10 at 0");
    assert_eq!(no_version(&f(b"\x0A\x01g")), "refused 5 at 10");
    assert_eq!(no_version(&f(b"\x20\x01")), "refused 4 at 10");
    assert_eq!(no_version(&f(b"\x82\x00\x00")), "refused 9 at 10");
    assert_eq!(no_version(&f(b"\x42\x01")), "refused 1 at 10");
    // deprecated fields and those that only people read may stand again, and be anything
    for unknown in
        [b"\x10\x01\x10\x01", b"\x18\x01\x18\x01", b"\x42\x00\x42\x00", b"\x62\x00\x62\x00", b"\x72\x00\x72\x00"]
    {
        assert_eq!(answer(&model(8, &[&f(unknown)]), 0), ACCEPTED, "{unknown:x?}");
    }
    let deep = |graphs: usize| (0..graphs).fold(vec![], |inner, _| field_of(1, &field_of(5, &field_of(6, &inner))));
    for (graphs, refused) in [(6, "refused 10 at 0"), (7, "refused 6 at ")] {
        let (body, default) = (field_of(6, &deep(graphs)), field_of(11, &field_of(6, &deep(graphs))));
        assert!(no_version(&field_of(7, &field_of(5, &body))).starts_with(refused), "{graphs}");
        assert!(no_version(&default).starts_with(refused), "{graphs}, in a default");
    }
}
