//! Initializers at IR version 3, each the default of an input of its own graph: in the main graph, and in bodies under other lists, which
//! are open then, and behind lists that were closed.

use super::defaults::{behind_imports, given};
use super::parts::*;
use super::{accepted, defined, refused, AGAIN, MANY};
use crate::models::proto::Tree;
use crate::rows::Row;

pub fn rows() -> Vec<Row> {
    let many: Vec<Row> = AROUND.iter().flat_map(many).collect();
    let crowded = many.iter().cloned().map(behind_imports).collect();
    [few(), outer(), lists_apart(), deep(), many, crowded].concat()
}

/// What stands around a graph: how many nodes and visible names that adds, and how many more fields hold the name of an input before
/// the graph's own: initializers, and fields with an input's tag.
struct Around {
    name: &'static str,
    with: fn(Tree) -> Tree,
    nodes: usize,
    names: usize,
    tensors: usize,
    listed: usize,
}

const ALONE: Around =
    Around { name: "in the main graph", with: |inner| inner, nodes: 0, names: 0, tensors: 0, listed: 0 };

#[rustfmt::skip]
const AROUND: [Around; 7] = [
    ALONE,
    Around { name: "in a body", with: |inner| graph([holder([inner])]), nodes: 1, ..ALONE },
    Around { name: "behind visible names", with: |inner| graph(binds(&names('t', MANY)).chain([holder([inner])])), nodes: MANY + 1, names: MANY, ..ALONE },
    Around { name: "behind named nodes", with: |inner| graph(names('x', MANY).iter().map(|name| named(name)).chain([holder([inner])])), nodes: MANY + 1, ..ALONE },
    Around { name: "behind attributes", with: |inner| graph([attributes(inner)]), nodes: 1, listed: 1, ..ALONE },
    Around { name: "behind a sibling with the same", with: |inner| graph([holder([all_given(), inner])]), nodes: 1, tensors: 1, listed: 1, ..ALONE },
    Around { name: "at depth 8", with: |inner| (1..8).fold(inner, |inner, _| graph([holder([inner])])), nodes: 7, ..ALONE },
];

/// A node with attributes that bear the inputs' names, and then the body.
fn attributes(inner: Tree) -> Tree {
    let node = names('x', MANY).iter().fold(node(&[], &[]), |node, name| node.tree(5, attribute(name)));
    node.tree(5, body("b", inner))
}

fn all_given() -> Tree {
    given(&names('x', MANY), &names('x', MANY))
}

fn many(around: &Around) -> Vec<Row> {
    let inputs = names('x', MANY);
    let backwards: Vec<String> = inputs.iter().rev().cloned().collect();
    let of = |tensors: &[String]| model_at(3, (around.with)(given(&inputs, tensors)));
    let named = |what: &str| format!("{what}, {}", around.name);
    let passes =
        |what: &str, tensors: &[String]| accepted(&named(what), of(tensors), around.nodes, around.names + MANY);
    let mut rows = vec![
        passes("many defaults", &inputs),
        passes("many defaults in reverse", &backwards),
        passes("many inputs, few defaults", &inputs[9..11]),
    ];
    for at in AGAIN {
        let name = inputs[at].as_str();
        for order in [&inputs, &backwards] {
            let again = [&order[..], &inputs[at..=at]].concat();
            let (field, first) = ((TENSOR_NAME, name, around.tensors + 1), (LISTED, name, around.listed));
            rows.push(defined(&named("one of many again"), of(&again), field, first));
            let with_another = [&order[..at], &["w".to_string()], &order[at..]].concat();
            rows.push(refused(&named("another name"), of(&with_another), 43, (TENSOR_NAME, "w", 0)));
        }
    }
    rows
}

fn list(names: &[&str]) -> Vec<String> {
    names.iter().map(|name| name.to_string()).collect()
}

fn few() -> Vec<Row> {
    let inner = |inputs: &[&str], tensors: &[&str]| given(&list(inputs), &list(tensors));
    let in_body = |inner: Tree| model_at(3, graph([holder([inner])]));
    let first = graph([read("x")]).tree(5, tensor("x")).tree(11, value("x"));
    let bound = inner(&["x"], &["x"]).tree(1, bind("x"));
    let (tensor_again, input) = ((TENSOR_NAME, "x", 1), (LISTED, "x", 0));
    vec![
        accepted("a body's default", in_body(inner(&["x"], &["x"])), 1, 1),
        accepted("a body's default, read", in_body(first), 2, 1),
        accepted("defaults in another order", in_body(inner(&["x", "y", "z"], &["z", "x", "y"])), 1, 3),
        refused("another name first", in_body(inner(&["x"], &["w", "x"])), 43, (TENSOR_NAME, "w", 0)),
        refused("no input", in_body(inner(&[], &["w"])), 43, (TENSOR_NAME, "w", 0)),
        defined("two defaults", in_body(inner(&["x"], &["x", "x"])), tensor_again, input),
        defined("two with another between", in_body(inner(&["x", "y"], &["x", "y", "x"])), tensor_again, input),
        defined("a default's name bound", in_body(bound), (BOUND, "x", 0), input),
    ]
}

/// A body's initializer bears a name that is visible and not its own graph's: one of many, the first and the last among them.
fn outer() -> Vec<Row> {
    let (outer, own) = (names('t', MANY), names('x', MANY));
    let mut rows = Vec::new();
    for at in AGAIN {
        let name = outer[at].as_str();
        let field = (TENSOR_NAME, name, 0);
        let tensors = [&own[..], &outer[at..=at]].concat();
        let bound = graph(binds(&outer).chain([holder([given(&own, &tensors)])]));
        rows.push(refused("the name of an outer node's output", model_at(3, bound), 43, field));
        let inputs = given(&outer, &[]).tree(1, holder([given(&own, &tensors)]));
        rows.push(refused("the name of an outer input", model_at(3, inputs), 43, field));
        let defaults = given(&outer, &outer).tree(1, holder([given(&own[..2], &outer[at..=at])]));
        rows.push(refused("the name of an outer default", model_at(3, defaults), 43, (TENSOR_NAME, name, 1)));
        let sibling = graph([holder([given(&outer, &outer), given(&own, &tensors)])]);
        rows.push(refused("the name of a sibling's default", model_at(3, sibling), 43, (TENSOR_NAME, name, 1)));
    }
    rows
}

/// The list of a graph's initializers is closed before its nodes are judged: their names, and those of attributes, may be the same.
fn lists_apart() -> Vec<Row> {
    let inputs = names('x', MANY);
    let node_names = || inputs.iter().map(|name| named(name));
    let inside = node_names().fold(all_given(), |graph, node| graph.tree(1, node)).tree(1, attributes(graph([])));
    let before = graph(node_names().chain([holder([all_given()]), bind("y")]));
    let twice = graph(node_names().chain([holder([all_given()])]).chain([named("x7")]));
    let stale = graph([holder([all_given()]), read("x7")]);
    vec![
        accepted("nodes and attributes named as defaults", model_at(3, graph([holder([inside])])), MANY + 2, MANY),
        accepted("nodes named so before the body", model_at(3, before), MANY + 2, MANY),
        refused("a node's name again behind the body", model_at(3, twice), 29, (NODE_NAME, "x7", 1)),
        refused("a default read behind its body", model_at(3, stale), 30, (READ, "x7", 1)),
    ]
}

/// Each depth has an input with a default before the next one, and the deepest may give one to the input around it.
fn deep() -> Vec<Row> {
    fn level(depth: usize, last: &str) -> Tree {
        let own = format!("d{depth}");
        let tensor = if depth == 8 { last } else { &own };
        let graph = given(&[own.clone()], &[tensor.to_string()]);
        if depth == 8 {
            return graph;
        }
        graph.tree(1, holder([level(depth + 1, last)])).tree(1, read(&own))
    }
    vec![
        accepted("defaults of eight depths", model_at(3, level(1, "d8")), 14, 8),
        refused("that of depth 7 again at depth 8", model_at(3, level(1, "d7")), 43, (TENSOR_NAME, "d7", 1)),
        refused("that of the main graph at depth 8", model_at(3, level(1, "d1")), 43, (TENSOR_NAME, "d1", 1)),
    ]
}
