use super::*;
use crate::tests::{damaged, field_of};
use crate::{check_with, operators};

fn need(names: usize, bound: usize, free: usize) -> Need {
    Need { names, bound, free, ..Need::default() }
}

fn imports(imports: usize) -> Need {
    Need { imports, ..Need::default() }
}

const IMPORT: &[u8] = b"\x0A\x01d\x10\x01";
const INITIALIZER: &[u8] = b"\x10\x01\x42\x01w";
const ATTRIBUTE: &[u8] = b"\x0A\x01a\xA0\x01\x01";

/// A graph with an input, an initializer, and a node with two outputs, an empty one, a name and the attribute given.
fn graph(attribute: &[u8]) -> Vec<u8> {
    let outputs = [field_of(2, b"a"), field_of(2, b"b"), field_of(2, b"")].concat();
    let node = [field_of(1, b"i"), outputs, field_of(3, b"n"), field_of(4, b"X"), field_of(5, attribute)].concat();
    let values = [field_of(5, INITIALIZER), field_of(11, b"\x0A\x01i"), field_of(12, b"")].concat();
    [field_of(2, b"g"), values, field_of(1, &node)].concat()
}

/// A node with a name, the attributes given, and the output given.
fn node(attributes: &[u8], output: &[u8]) -> Vec<u8> {
    field_of(1, &[field_of(2, output), field_of(3, b"n"), field_of(4, b"X"), attributes.to_vec()].concat())
}

#[test]
fn what_is_counted() {
    let graph_field = field_of(7, &graph(ATTRIBUTE));
    let model = [vec![0x08, 0x08], field_of(8, b"\x10\x01"), field_of(8, IMPORT), graph_field].concat();
    assert_eq!(skim(&model), Need { imports: 1, ..need(4, 1, 1) });
    let unnamed = field_of(7, &field_of(1, &[field_of(3, b""), field_of(2, b"a"), field_of(4, b"X")].concat()));
    assert_eq!(skim(&unnamed), need(1, 0, 0));
    let fixed = vec![0x79, 1, 2, 3, 4, 5, 6, 7, 8, 0x7D, 1, 2, 3, 4];
    let unknown = [field_of(99, &graph(ATTRIBUTE)), fixed, field_of(8, IMPORT)].concat();
    assert_eq!(skim(&unknown), imports(1), "unknown ones");
    let padded = [&[0x08][..], &[0xFF; 9], &[1, 0xC2, 0x80, 0x80, 0x80, 0, 0x85, 0x80, 0], IMPORT].concat();
    assert_eq!(skim(&padded), imports(1), "varints of ten bytes, and padded ones of five and three");
}

/// What is too short to be kept is a name at most.
#[test]
fn what_cannot_be_kept() {
    for bytes in 0..=4 {
        let nodes = field_of(1, &field_of(5, &vec![0x78; bytes])).repeat(9);
        let initializers = field_of(5, &[0x78; 4][..bytes]).repeat(9);
        let graph_field = field_of(7, &[nodes, initializers].concat());
        let found = skim(&[field_of(8, &vec![0x78; bytes]).repeat(9), graph_field].concat());
        assert_eq!((found.imports, found.bound, found.free), (0, 0, 0), "{bytes}");
    }
    assert_eq!(skim(&field_of(7, &field_of(1, b"\x1A\x01n").repeat(9))), need(0, 0, 0));
}

/// Lists of different nodes are not open together, nor those of nodes and of initializers; what is open around them is.
#[test]
fn lists_that_are_open_at_once() {
    let attributes = |count| field_of(5, ATTRIBUTE).repeat(count);
    let model = |nodes: &[Vec<u8>]| field_of(7, &nodes.concat());
    assert_eq!(skim(&model(&[node(&attributes(9), b"a"), node(&attributes(7), b"b")])), need(2, 2, 9));
    // the output is left out
    assert_eq!(skim(&model(&[node(&attributes(9), b""), node(&attributes(9), b"")])), need(0, 0, 10));
    assert_eq!(skim(&model(&vec![node(&[], b""); 50])), need(0, 0, 50));
    let initializers = field_of(5, INITIALIZER).repeat(5);
    assert_eq!(skim(&model(&[initializers, node(&[], b"a").repeat(3)])), need(8, 5, 0));
    let inner = [node(&attributes(3), b"c"), node(&attributes(1), b"d"), field_of(5, INITIALIZER).repeat(9)].concat();
    let holder = [attributes(4), field_of(5, &field_of(6, &inner)), attributes(2)].concat();
    let nested = model(&[node(&[], b"a"), node(&holder, b"b"), node(&[], b"e")]);
    // the nine are open with the node before their own
    assert_eq!(skim(&nested), need(14, 10, 7));
    let few = [field_of(5, INITIALIZER), node(&[], b"c").repeat(4)].concat();
    let holder = node(&field_of(5, &field_of(6, &few)), b"b");
    assert_eq!(skim(&model(&[node(&[], b"a").repeat(2), holder])), need(8, 6, 1));
}

/// The initializers of siblings are not open together, nor those of a graph and of one in it; what a version allows is not asked.
#[test]
fn initializers_of_nested_graphs() {
    let holder = |bodies: &[&[u8]]| {
        let attributes = bodies.iter().flat_map(|body| field_of(5, &field_of(6, body))).collect::<Vec<u8>>();
        field_of(1, &[&b"\x22\x01X"[..], &attributes].concat())
    };
    let initializers = |count| field_of(5, INITIALIZER).repeat(count);
    for ir_version in [3, 4, 11] {
        let model = |graph: &[u8]| [&[0x08, ir_version][..], &field_of(7, graph)].concat();
        assert_eq!(skim(&model(&holder(&[&initializers(9)]))).bound, 9);
        assert_eq!(skim(&model(&holder(&[&initializers(9), &initializers(7)]))).bound, 9);
        let inner = [initializers(5), holder(&[&initializers(4)])].concat();
        assert_eq!(skim(&model(&holder(&[&inner]))).bound, 5);
        let inner = [node(&[], b"b").repeat(2), holder(&[&initializers(4)])].concat();
        let named = [node(&[], b"a").repeat(3), holder(&[&inner])].concat();
        assert_eq!(skim(&model(&named)).bound, 3 + 2 + 4);
    }
}

/// A function of the model with the fields given.
fn function(fields: &[Vec<u8>]) -> Vec<u8> {
    field_of(25, &fields.concat())
}

/// A named node of a function.
fn node_of_function(attributes: &[u8], output: &[u8]) -> Vec<u8> {
    let mut node = node(attributes, output);
    node[0] = 7 << 3 | 2;
    node
}

/// Of a function its name, attributes and imports, wherever they stand; but nothing in a default.
#[test]
fn lists_of_a_function() {
    let name = field_of(1, b"f");
    let nodes = [node_of_function(&field_of(5, ATTRIBUTE).repeat(3), b"a"), node_of_function(&[], b"b")].concat();
    let attributes = [field_of(6, b"k"), field_of(6, b""), field_of(11, ATTRIBUTE), field_of(11, b"")].concat();
    let imports = [field_of(9, IMPORT), field_of(9, IMPORT), field_of(9, b"\x10\x01")].concat();
    let values = [field_of(4, b"i"), field_of(4, b""), field_of(5, b"a")].concat();
    let parts = [name, nodes, attributes, imports, values];
    let expected = Need { functions: 1, own_imports: 2, ..need(3, 2, 2 + 3) };
    assert_eq!(skim(&function(&parts)), expected);
    let reversed: Vec<Vec<u8>> = parts.into_iter().rev().collect();
    assert_eq!(skim(&function(&reversed)), expected);
    let default = field_of(11, &field_of(6, &graph(ATTRIBUTE)));
    assert_eq!(skim(&function(&[default])), Need { functions: 1, ..need(0, 0, 1) });
    let short = function(&[field_of(1, b"f")]);
    assert_eq!(skim(&short.repeat(9)), need(0, 0, 0), "refused for what they lack");
}

/// The main graph and the functions begin with no names, and with no lists but those of the model; functions are all counted.
#[test]
fn functions_one_by_one() {
    let body = |names, attributes| [field_of(4, b"i").repeat(names), field_of(6, b"k").repeat(attributes)];
    let few = function(&body(2, 3));
    let functions = |functions, names, free| Need { functions, ..need(names, 0, free) };
    assert_eq!(skim(&few), functions(1, 2, 3));
    assert_eq!(skim(&few.repeat(5)), functions(5, 2, 3));
    assert_eq!(skim(&[function(&body(1, 9)), few.repeat(5)].concat()), functions(6, 2, 9));
    let imports = function(&[field_of(9, IMPORT).repeat(4)]);
    let model = [field_of(8, IMPORT), imports, function(&[field_of(9, IMPORT)]), field_of(8, IMPORT)].concat();
    assert_eq!(skim(&model), Need { imports: 2, own_imports: 4, ..functions(2, 0, 0) });
    let main = field_of(7, &graph(&[&field_of(6, &graph(ATTRIBUTE)), ATTRIBUTE].concat()));
    for model in [[&main[..], &few].concat(), [&few[..], &main].concat()] {
        assert_eq!(skim(&model), Need { functions: 1, ..need(8, 1, 3) });
    }
}

/// A function is at depth 1, as the main graph is.
#[test]
fn graphs_in_functions() {
    let mut inner = graph(ATTRIBUTE);
    for depth in 2..=20 {
        let holder = field_of(5, &[&field_of(6, &inner), ATTRIBUTE].concat());
        let found = skim(&function(&[node_of_function(&holder, b"y")]));
        assert_eq!(found, Need { functions: 1, ..need(1 + 4 * (depth - 1).min(7), 1, 1) }, "depth {depth}");
        inner = graph(&[&field_of(6, &inner), ATTRIBUTE].concat());
    }
}

#[test]
fn what_names_bound() {
    let need = Need { names: 9, functions: 1000, imports: 2, own_imports: 3, bound: 50, free: 300 };
    assert_eq!((need.lists(0), need.lists(7), need.lists(1000)), (1305, 1312, 1355));
}

#[test]
fn graphs_in_graphs() {
    let mut inner = graph(ATTRIBUTE);
    for depth in 2..=40 {
        inner = graph(&[&field_of(if depth % 2 == 0 { 6 } else { 11 }, &inner), ATTRIBUTE].concat());
        // a node is listed when its attributes are not open any more, and so is an attribute
        assert_eq!(skim(&field_of(7, &inner)), need(4 * depth.min(8), 1, 1), "depth {depth}");
    }
}

/// Two thousand graphs in graphs are no deeper for the stack than eight.
#[test]
fn nesting_without_end() {
    let inner = (0..2_000).fold(Vec::new(), |inner, _| field_of(1, &field_of(5, &field_of(6, &inner))));
    assert_eq!(skim(&field_of(7, &inner)), need(0, 0, 1));
}

#[test]
fn lengths_that_make_no_sense() {
    let sound = field_of(8, IMPORT);
    for bad in [
        &b"\x3A\xFF\xFF\xFF\xFF\xFF\xFF\xFF\xFF\xFF\x01"[..],
        b"\x3A\xFF\xFF\xFF\xFF\xFF\xFF\xFF\xFF\xFF\xFF\xFF",
        b"\x3A\x80",
        b"\x3A\x7F",
        b"\x3A",
        b"\x08",
        b"\x09\x01",
        b"\x0D\x01\x02\x03",
        b"\x0B",
        b"\x0C",
        b"\x0E",
        b"\x0F",
        b"\x00\x00",
        b"\xBA\x80\x80\x80\x80\x01\x00",
        b"\xFF\xFF\xFF\xFF\xFF\xFF\xFF\xFF\xFF\xFF",
    ] {
        assert_eq!(skim(bad), imports(0), "{bad:x?}");
        assert_eq!(skim(&[&sound, bad].concat()), imports(1), "{bad:x?}");
    }
    assert_eq!(skim(&[field_of(7, b"\x0A\x05"), sound].concat()), imports(0), "nothing is counted after it");
}

/// Whatever the bytes, no more is counted than they have room for; where the library accepts, no less than it needs.
#[test]
fn bounds_hold() {
    let list = operators::write(&[("ai.onnx", 7, 21), ("ai.onnx.ml", 1, 5)]).unwrap();
    let mut accepted = 0;
    for model in damaged(300) {
        let found = skim(&model);
        assert!(found.names + found.lists(usize::MAX) <= model.len());
        if let Ok(counts) = check_with(&model, &list, &mut [0; 256]) {
            accepted += 1;
            assert!(counts.names as usize <= found.names, "{counts} and {found:?}");
        }
    }
    assert!(accepted > 100, "{accepted}");
}
