//! Rows for what may stand in a name: each field that the second walk tests for 21, and some that it does not, in the main graph and in
//! bodies, with identifiers, with other names, and with bytes that are no UTF-8.

use super::{at_depth, refused, row, with_odd, Row};
use crate::models::lists::{encode, Entry, L};
use crate::models::proto::Tree;
use crate::schema::Message;

const IDENTIFIERS: [&[u8]; 5] = [b"a", b"_", b"Z_9", b"int", &[b'n'; 130]];

/// Bytes beside letters and digits, what exporters write, and the ends of each range of RFC 3629.
#[rustfmt::skip]
const ODD: [&[u8]; 32] = [
    b"9", b"9a", b"/", b"a:", b"@", b"a[", b"^a", b"`", b"a{", b"a b", b"a-b", b"a.b", b"a/",
    b"/encoder/MatMul_output_0", b"\x00", b"a\x00", b"\x7f", b"\xc2\x80", b"caf\xc3\xa9", b"\xdf\xbf", b"\xe0\xa0\x80",
    b"\xe1\x80\x80", b"\xec\xbf\xbf", b"\xed\x80\x80", b"\xed\x9f\xbf", b"\xee\x80\x80", b"\xef\xbb\xbfa",
    b"\xef\xbf\xbf", b"\xf0\x90\x80\x80", b"\xf1\x80\x80\x80", b"\xf3\xbf\xbf\xbf", b"\xf4\x8f\xbf\xbf",
];

/// Tails with no lead, longer forms, surrogates, what is above 10FFFF, bytes that are never UTF-8, and characters with a tail too few or too many.
#[rustfmt::skip]
const MALFORMED: [&[u8]; 36] = [
    b"\x80", b"\xbf", b"a\x80", b"\x80a", b"\xc0\x80", b"\xc0\xaf", b"\xc1\xbf", b"\xe0\x80\x80", b"\xe0\x9f\xbf",
    b"\xf0\x80\x80\x80", b"\xf0\x8f\xbf\xbf", b"\xed\xa0\x80", b"\xed\xbf\xbf", b"\xed\xa0\xbd\xed\xb8\x80",
    b"\xf4\x90\x80\x80", b"\xf5\x80\x80\x80", b"\xf7\xbf\xbf\xbf", b"\xf8\x88\x80\x80\x80", b"\xfc\x84\x80\x80\x80\x80",
    b"\xfe", b"\xff", b"\xc3", b"\xc3a", b"\xc3\xc3\xa9", b"caf\xe9", b"\xe2\x82", b"\xe2\x82a", b"\xe2a\xac",
    b"\xf0\x9f\x98", b"\xf0\x9f\x98a", b"\xf4\x8f\xbf", b"\xc3\xa9\x80", b"\xe2\x82\xac\x80", b"\xf0\x9f\x98\x80\x80",
    b"\xef\xbb", b"\xef\xbb\xbf\xff",
];

/// A graph with a name in one field.
type Made = fn(&[u8]) -> Tree;

/// A tested field, its number, and what a name that is UTF-8 gives in the main graph: (0, nodes, names), or the refusal of one that is not bound.
type Tested = (&'static str, u32, Made, (u64, u64, u64));

#[rustfmt::skip]
const TESTED: [Tested; 9] = [
    ("a graph's name", 2, |name| Tree::new(Message::Graph).text(2, name), (0, 0, 0)),
    ("an input", 1, |name| graph().tree(11, value(name, b"n")), (0, 0, 1)),
    ("an initializer", 8, |name| graph().tree(5, tensor(name)), (0, 0, 1)),
    ("an op_type", 4, |name| graph().tree(1, Tree::new(Message::Node).text(2, b"").text(4, name)), (0, 1, 0)),
    ("a node's name", 3, |name| graph().tree(1, node().text(3, name)), (0, 1, 0)),
    ("a node's input", 1, |name| graph().tree(1, node().text(1, name)), (30, 0, 0)),
    ("a node's output", 2, |name| graph().tree(1, node().text(2, name)), (0, 1, 1)),
    ("an attribute's name", 1, |name| graph().tree(1, node().tree(5, attribute(2).text(1, name))), (0, 1, 0)),
    ("a graph's output", 1, |name| graph().tree(12, value(name, b"n")), (35, 0, 0)),
];

/// In the main graph they are tested, in a body not.
const DIMS: [(&str, Made); 2] = [
    ("a dim_param of an input", |name| graph().tree(11, value(b"w", name))),
    ("a dim_param of an output", |name| graph().tree(5, tensor(b"w")).tree(12, value(b"w", name))),
];

/// Tested nowhere, with the nodes that there are.
#[rustfmt::skip]
const UNTESTED: [(&str, Made, u64); 5] = [
    ("a value_info", |name| graph().tree(13, value(name, name)), 0),
    ("an attribute's tensor", |name| graph().tree(1, node().tree(5, attribute(4).text(1, b"k").tree(5, tensor(name)))), 1),
    ("an attribute's tensors", |name| graph().tree(1, node().tree(5, attribute(9).text(1, b"k").tree(10, tensor(name)))), 1),
    ("an attribute's strings", |name| graph().tree(1, node().tree(5, attribute(8).text(1, b"k").text(9, name))), 1),
    ("doc_strings", |name| graph().text(10, name).tree(1, node().text(6, name)), 1),
];

const DEPTHS: [usize; 3] = [1, 2, 8];

fn graph() -> Tree {
    Tree::new(Message::Graph).text(2, b"g")
}

/// With its one output left out.
fn node() -> Tree {
    Tree::new(Message::Node).text(2, b"").text(4, b"X")
}

fn tensor(name: &[u8]) -> Tree {
    Tree::new(Message::Tensor).text(8, name).number(2, 1)
}

/// Of this type, with no value yet.
fn attribute(kind: u64) -> Tree {
    Tree::new(Message::Attribute).number(20, kind)
}

fn value(name: &[u8], dim_param: &[u8]) -> Tree {
    let shape = Tree::new(Message::Shape).tree(1, Tree::new(Message::Dimension).text(2, dim_param));
    let tensor = Tree::new(Message::TypeTensor).number(1, 1).tree(2, shape);
    Tree::new(Message::ValueInfo).text(1, name).tree(2, Tree::new(Message::Type).tree(1, tensor))
}

/// How a name is to be taken: one that is UTF-8 counts so many times as odd.
#[derive(Clone, Copy)]
pub(super) enum Taken {
    Utf8(u64),
    Malformed,
}

pub(super) fn all() -> impl Iterator<Item = (&'static [u8], Taken)> {
    let identifiers = IDENTIFIERS.into_iter().map(|name| (name, Taken::Utf8(0)));
    let odd = ODD.into_iter().map(|name| (name, Taken::Utf8(1)));
    identifiers.chain(odd).chain(MALFORMED.into_iter().map(|name| (name, Taken::Malformed)))
}

/// Where this field stands first.
pub(super) fn place_of(model: &[u8], number: u32, name: &[u8]) -> u64 {
    let field = Tree::new(Message::Node).text(number, name).encode();
    model.windows(field.len()).position(|part| part == field).expect("the field is there") as u64
}

pub fn names() -> Vec<Row> {
    let mut rows = Vec::new();
    for (name, taken) in all() {
        for depth in DEPTHS {
            rows.extend(TESTED.iter().map(|field| tested(field, name, taken, depth)));
            rows.extend(DIMS.iter().map(|(what, made)| dim(what, *made, name, taken, depth)));
            rows.extend(UNTESTED.iter().map(|(what, made, nodes)| {
                let nodes = nodes + depth as u64 - 1;
                row(&told(what, name, depth), at_depth(depth, made(name)), &L, 0, with_odd(nodes, 0, 0))
            }));
        }
        rows.push(domain(name));
    }
    rows
}

fn told(what: &str, name: &[u8], depth: usize) -> String {
    format!("{what}, {}, at depth {depth}", name.escape_ascii())
}

fn tested((what, number, made, (refusal, nodes, names)): &Tested, name: &[u8], taken: Taken, depth: usize) -> Row {
    let model = at_depth(depth, made(name));
    let place = place_of(&model, *number, name);
    let answer = match taken {
        Taken::Malformed => refused(21, place),
        Taken::Utf8(_) if *refusal > 0 => refused(*refusal, place),
        Taken::Utf8(odd) => with_odd(nodes + depth as u64 - 1, *names, odd),
    };
    row(&told(what, name, depth), model, &L, 2, answer)
}

fn dim(what: &str, made: Made, name: &[u8], taken: Taken, depth: usize) -> Row {
    let model = at_depth(depth, made(name));
    let answer = match taken {
        Taken::Malformed if depth == 1 => refused(21, place_of(&model, 2, name)),
        Taken::Utf8(odd) if depth == 1 => with_odd(0, 1, odd),
        _ => with_odd(depth as u64 - 1, 1, 0),
    };
    row(&told(what, name, depth), model, &L, 2, answer)
}

/// A domain is free bytes, in an import, in a node and in the list.
fn domain(name: &[u8]) -> Row {
    let import = Tree::new(Message::OperatorSetId).text(1, name).number(2, 13);
    let model = Tree::new(Message::Model).number(1, 8).tree(8, import).tree(7, graph().tree(1, node().text(7, name)));
    let list = encode(&[Entry { domain: name.to_vec(), lowest: 7, highest: 21 }]);
    row(&format!("a domain, {}", name.escape_ascii()), model.encode(), &list, 0, with_odd(1, 0, 0))
}
