//! References to the attributes of a function, from its own nodes and from nested graphs, above lists that are open and behind those that
//! were closed.

use super::function_attributes::with;
use super::parts::*;
use super::{accepted, place_of_bytes, AGAIN, MANY};
use crate::checker::{Verdict, CELLS_PER_NAME};
use crate::models::lists::L;
use crate::models::proto::Tree;
use crate::rows::Row;

pub fn rows() -> Vec<Row> {
    let many: Vec<Row> = AROUND.iter().flat_map(many).collect();
    [few(), many, of_others()].concat()
}

/// 33 at the first attribute `k` that refers to `of`.
fn unknown(name: &str, model: Vec<u8>, of: &str) -> Row {
    let answer = Verdict::refused(33, place_of_bytes(&model, ATTRIBUTE, &reference("k", of).encode(), 0));
    Row { name: name.into(), model, list: L.to_vec(), cells: CELLS_PER_NAME * 3 * MANY, answer }
}

fn model_of(functions: impl IntoIterator<Item = Tree>) -> Vec<u8> {
    with_functions(8, graph([]), functions).encode()
}

/// A node that refers to each of these.
fn refers(names: &[String]) -> Tree {
    let numbered = names.iter().enumerate();
    numbered.fold(node(&[], &[]), |node, (at, of)| node.tree(5, reference(&format!("k{at}"), of)))
}

fn refers_to(of: &str) -> Tree {
    node(&[], &[]).tree(5, reference("k", of))
}

/// What stands around the nodes that refer: how many nodes and visible names that adds.
struct Around {
    name: &'static str,
    with: fn(Vec<Tree>) -> Vec<Tree>,
    nodes: usize,
    names: usize,
}

#[rustfmt::skip]
const AROUND: [Around; 6] = [
    Around { name: "in the body", with: |nodes| nodes, nodes: 0, names: 0 },
    Around { name: "in a nested graph", with: |nodes| vec![holder([graph(nodes)])], nodes: 1, names: 0 },
    Around { name: "behind named nodes", with: |nodes| names('a', MANY).iter().map(|name| named(name)).chain([holder([graph(nodes)])]).collect(), nodes: MANY + 1, names: 0 },
    Around { name: "behind attributes of the node", with: |nodes| vec![attributes(graph(nodes))], nodes: 1, names: 0 },
    Around { name: "behind visible names", with: |nodes| binds(&names('a', MANY)).chain(nodes).collect(), nodes: MANY, names: MANY },
    Around { name: "at depth 8", with: |nodes| (2..=8).fold(nodes, |nodes, _| vec![holder([graph(nodes)])]), nodes: 7, names: 0 },
];

/// A node with attributes that bear the names of the function's, and then a graph.
fn attributes(inner: Tree) -> Tree {
    let node = names('a', MANY).iter().fold(node(&[], &[]), |node, name| node.tree(5, attribute(name)));
    node.tree(5, body("b", inner))
}

/// Half of the function's attributes are names, half defaults.
fn many(around: &Around) -> Vec<Row> {
    let names = names('a', MANY);
    let (first, second) = names.split_at(MANY / 2);
    let of = |attributes: &[String], defaults: &[String], nodes: Vec<Tree>| {
        let function = with(function("f"), attributes, defaults);
        model_of([(around.with)(nodes).into_iter().fold(function, |function, node| function.tree(7, node))])
    };
    let named = |what: &str| format!("{what}, {}", around.name);
    let each = || vec![refers(&names), refers(&names)];
    let mut rows =
        vec![accepted(&named("references to many"), of(first, second, each()), around.nodes + 2, around.names)];
    for at in AGAIN {
        let others: Vec<String> = names.iter().filter(|name| **name != names[at]).cloned().collect();
        let (before, after) = others.split_at(MANY / 2);
        let nodes = vec![refers(&others), refers_to(&names[at])];
        rows.push(unknown(
            &named("a reference to the one of many that is not there"),
            of(before, after, nodes),
            &names[at],
        ));
        let longer = format!("{}_", names[at]);
        let nodes = vec![refers(&names), refers_to(&longer)];
        rows.push(unknown(&named("a reference to a longer name"), of(first, second, nodes), &longer));
    }
    rows
}

fn few() -> Vec<Row> {
    let of = |attributes: &[&str], nodes: Vec<Tree>| {
        let function = attributes.iter().fold(function("f"), |function, name| function.text(6, name));
        model_of([nodes.into_iter().fold(function, |function, node| function.tree(7, node))])
    };
    let behind_body = || vec![holder([graph([named("r").tree(5, attribute("r"))])]), refers_to("r")];
    let by_its_node = vec![named("r").tree(5, attribute("r")).tree(5, reference("k", "r"))];
    let bound = vec![bind("r"), node(&["r"], &[]).tree(5, reference("k", "r"))];
    vec![
        accepted("behind a body that has the name", of(&["r"], behind_body()), 3, 0),
        unknown("the name of an ended body's node and attribute", of(&["s"], behind_body()), "r"),
        unknown("the name of its node and of an attribute there", of(&[], by_its_node), "r"),
        unknown("a visible name", of(&["s"], bound), "r"),
    ]
}

/// Attributes of the functions before and behind do not serve; those of its own do, whatever the others have.
fn of_others() -> Vec<Row> {
    let (own, other) = (names('a', MANY), names('b', MANY));
    let f = |name: &str, attributes: &[String], nodes: Vec<Tree>| {
        nodes.into_iter().fold(with(function(name), attributes, &[]), |function, node| function.tree(7, node))
    };
    let apart = [f("f", &other, vec![refers(&other)]), f("g", &own, vec![refers(&own)])];
    let mut rows = vec![accepted("two functions that refer to many", model_of(apart), 2, 0)];
    for at in AGAIN {
        let before = [f("f", &other, vec![refers(&other)]), f("g", &own, vec![refers_to(&other[at])])];
        rows.push(unknown("one of the function before", model_of(before), &other[at]));
        let behind = [f("f", &own, vec![refers_to(&other[at])]), f("g", &other, vec![])];
        rows.push(unknown("one of the function behind", model_of(behind), &other[at]));
        let main = with_functions(8, graph([refers_to(&other[at])]), [f("f", &other, vec![])]);
        rows.push(unknown("one of a function, in the main graph", main.encode(), &other[at]));
    }
    rows
}
