//! Each field of a function that is tested for 21, and some that are not, with each kind of name.

use super::{hex, refused, row, Row, L, M0};
use crate::models::proto::Tree;
use crate::rows::names::{all, place_of, Taken};
use crate::rows::{holder, with_odd};
use crate::schema::Message;

/// A function with a name in one field.
type Made = fn(&[u8]) -> Tree;

/// A tested field, its number, and what a name that is UTF-8 gives: (0, nodes, names), or the refusal of one that is not bound.
type Tested = (&'static str, u32, Made, (u64, u64, u64));

#[rustfmt::skip]
const TESTED: [Tested; 13] = [
    ("a function's name", 1, |name| import(Tree::new(Message::Function).text(1, name)), (0, 0, 0)),
    ("a function's input", 4, |name| f().text(4, name), (0, 0, 1)),
    ("a function's output", 5, |name| f().text(5, name), (35, 0, 0)),
    ("a function's attribute", 6, |name| f().text(6, name), (0, 0, 0)),
    ("a function's default", 1, |name| f().tree(11, attribute(2).text(1, name)), (0, 0, 0)),
    ("an op_type in a function", 4, |name| f().tree(7, Tree::new(Message::Node).text(2, b"").text(4, name)), (0, 1, 0)),
    ("a node's name in a function", 3, |name| f().tree(7, node().text(3, name)), (0, 1, 0)),
    ("a node's input in a function", 1, |name| f().tree(7, node().text(1, name)), (30, 0, 0)),
    ("a node's output in a function", 2, |name| f().tree(7, node().text(2, name)), (0, 1, 1)),
    ("an attribute's name in a function", 1, |name| f().tree(7, node().tree(5, attribute(2).text(1, name))), (0, 1, 0)),
    ("a graph's name in a function", 2, |name| f().tree(7, holder(Tree::new(Message::Graph).text(2, name))), (0, 1, 0)),
    ("a graph's input in a function", 1, |name| f().tree(7, holder(graph().tree(11, value(name)))), (0, 1, 1)),
    ("a graph's output in a function", 1, |name| f().tree(7, holder(graph().tree(12, value(name)))), (35, 0, 0)),
];

/// Tested nowhere, with the nodes that there are.
#[rustfmt::skip]
const UNTESTED: [(&str, Made, u64); 6] = [
    ("a function's domain", |name| f().text(10, name), 0),
    ("a function's overload", |name| f().text(13, name), 0),
    ("a function's doc_string", |name| f().text(8, name), 0),
    ("a default's tensor", |name| f().tree(11, attribute(4).text(1, b"k").tree(5, Tree::new(Message::Tensor).text(8, name))), 0),
    ("a default's string", |name| f().tree(11, attribute(3).text(1, b"k").text(4, name)), 0),
    ("a value_info in a function's graph", |name| f().tree(7, holder(graph().tree(13, value(name)))), 1),
];

pub fn rows() -> Vec<Row> {
    let mut rows = Vec::new();
    for (name, taken) in all() {
        rows.extend(TESTED.iter().map(|field| tested(field, name, taken)));
        for (what, made, nodes) in UNTESTED {
            rows.push(row(&told(what, name), model(made(name)), &L, 0, with_odd(nodes, 0, 0)));
        }
        rows.push(reference(name, taken));
    }
    rows
}

fn tested((what, number, made, (refusal, nodes, names)): &Tested, name: &[u8], taken: Taken) -> Row {
    let model = model(made(name));
    let place = hex(M0).len() as u64 + place_of(&model[hex(M0).len()..], *number, name);
    let answer = match taken {
        Taken::Malformed => refused(21, place),
        Taken::Utf8(_) if *refusal > 0 => refused(*refusal, place),
        Taken::Utf8(odd) => with_odd(*nodes, *names, odd),
    };
    row(&told(what, name), model, &L, 2, answer)
}

/// The attribute of that name is tested, and what refers to it is not.
fn reference(name: &[u8], taken: Taken) -> Row {
    let refers = f().text(6, name).tree(7, node().tree(5, attribute(2).text(1, b"k").text(21, name)));
    let answer = match taken {
        Taken::Malformed => refused(21, 21),
        Taken::Utf8(odd) => with_odd(1, 0, odd),
    };
    row(&told("an attribute and a reference to it", name), model(refers), &L, 0, answer)
}

fn told(what: &str, name: &[u8]) -> String {
    format!("{what}, {}", name.escape_ascii())
}

fn model(function: Tree) -> Vec<u8> {
    [hex(M0), Tree::new(Message::Model).tree(25, function).encode()].concat()
}

fn import(function: Tree) -> Tree {
    function.tree(9, Tree::new(Message::OperatorSetId).number(2, 13))
}

fn f() -> Tree {
    import(Tree::new(Message::Function).text(1, b"f"))
}

fn graph() -> Tree {
    Tree::new(Message::Graph).text(2, b"g")
}

/// With its one output left out.
fn node() -> Tree {
    Tree::new(Message::Node).text(2, b"").text(4, b"X")
}

/// Of this type, with no value yet.
fn attribute(kind: u64) -> Tree {
    Tree::new(Message::Attribute).number(20, kind)
}

fn value(name: &[u8]) -> Tree {
    Tree::new(Message::ValueInfo).text(1, name)
}
