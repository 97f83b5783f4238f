//! Types and carriers of attributes in functions: each type and each carrier, as a default, as a reference and as a value of a node.

use super::{hex, refused, row, Row, L, M0};
use crate::checker::Verdict;
use crate::models::proto::{Tree, Value};
use crate::rows::accepted;
use crate::schema::Message;

/// The types 1 to 14 with their carriers, as document 01 lists them.
#[rustfmt::skip]
const CARRIERS: [(u64, u32); 14] = [
    (1, 2), (2, 3), (3, 4), (4, 5), (5, 6), (6, 7), (7, 8), (8, 9), (9, 10), (10, 11), (11, 22), (12, 23), (13, 14), (14, 15),
];

/// Outside of 1 to 14, some of them not in their low bits.
const OTHERS: [u64; 6] = [0, 15, 16, 1 << 32 | 1, 1 << 63 | 2, u64::MAX];

pub fn rows() -> Vec<Row> {
    let kinds = CARRIERS.iter().map(|(kind, _)| Some(*kind)).chain(OTHERS.map(Some)).chain([None]);
    kinds.flat_map(|kind| carriers().flat_map(move |carrier| of(kind, carrier))).collect()
}

fn carriers() -> impl Iterator<Item = Option<u32>> {
    CARRIERS.iter().map(|(_, carrier)| Some(*carrier)).chain([None])
}

/// Is it the type of a graph or of graphs?
fn is_graph(kind: u64) -> bool {
    matches!(kind, 5 | 10)
}

/// "32 when type is outside 1..14, another carrier occurs, or types 4, 5, 11 or 13 lack theirs"
fn fits(kind: Option<u64>, carrier: Option<u32>) -> bool {
    let Some((kind, own)) = CARRIERS.iter().find(|(known, _)| Some(*known) == kind) else {
        return false;
    };
    match carrier {
        Some(carrier) => carrier == *own,
        None => !matches!(kind, 4 | 5 | 11 | 13),
    }
}

/// Behind the name and import of `f` a default is at 21. A node there has its attribute at 28; behind the function's attribute `r` it is at 31,
/// and one in the node's graph at 51.
fn of(kind: Option<u64>, carrier: Option<u32>) -> [Row; 4] {
    let default = fits(kind, carrier) && !kind.is_some_and(is_graph);
    let reference = kind.is_some_and(|kind| (1..=14).contains(&kind)) && carrier.is_none();
    let answer = |passes: bool, nodes: u64, place: u64| if passes { accepted(nodes, 0) } else { refused(32, place) };
    let named = |what: &str| format!("{what} of type {kind:?} with the carrier {carrier:?}");
    let own = || attribute(kind, carrier);
    let refers = || node(own().text(21, "r"));
    [
        made(&named("a default"), f().tree(11, own()), answer(default, 0, 21)),
        made(&named("a value"), f().tree(7, node(own())), answer(fits(kind, carrier), 1, 28)),
        made(&named("a reference"), f().text(6, "r").tree(7, refers()), answer(reference, 1, 31)),
        made(&named("a reference inside"), f().text(6, "r").tree(7, around(refers())), answer(reference, 2, 51)),
    ]
}

fn f() -> Tree {
    Tree::new(Message::Function).text(1, "f").tree(9, Tree::new(Message::OperatorSetId).number(2, 13))
}

fn node(attribute: Tree) -> Tree {
    Tree::new(Message::Node).text(2, "").text(4, "X").tree(5, attribute)
}

/// A node with a graph of one node.
fn around(inner: Tree) -> Tree {
    let graph = Tree::new(Message::Graph).text(2, "g").tree(1, inner);
    node(Tree::new(Message::Attribute).text(1, "b").number(20, 5).tree(6, graph))
}

fn attribute(kind: Option<u64>, carrier: Option<u32>) -> Tree {
    let mut attribute = Tree::new(Message::Attribute).text(1, "k");
    kind.into_iter().for_each(|kind| attribute.push(20, Value::Varint(kind)));
    carrier.into_iter().for_each(|carrier| attribute.push(carrier, value(carrier)));
    attribute
}

fn value(carrier: u32) -> Value {
    match carrier {
        2 | 7 => Value::Four([0; 4]),
        3 | 8 => Value::Varint(0),
        5 | 10 => Value::Tree(Tree::new(Message::Tensor)),
        6 | 11 => Value::Tree(Tree::new(Message::Graph).text(2, "g")),
        _ => Value::Bytes(Vec::new()),
    }
}

fn made(name: &str, function: Tree, answer: Verdict) -> Row {
    let model = [hex(M0), Tree::new(Message::Model).tree(25, function).encode()].concat();
    row(name, model, &L, 0, answer)
}
