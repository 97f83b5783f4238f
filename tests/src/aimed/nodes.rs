//! Names of nodes: once in a graph, and as often as one likes in others.

use super::parts::*;
use super::{accepted, refused, AGAIN, MANY};
use crate::models::proto::Tree;
use crate::rows::Row;

pub fn rows() -> Vec<Row> {
    [few(), few_twice(), many(), nested_between(), nested_below()].concat()
}

fn all_named(names: &[String]) -> impl Iterator<Item = Tree> + '_ {
    names.iter().map(|name| named(name))
}

fn few() -> Vec<Row> {
    let n = || graph([named("n")]);
    let around = named("n").tree(5, body("b", n()));
    let empty = || node(&[], &[]).text(3, "");
    vec![
        accepted("a node and one in its body", model(graph([around])), 2, 0),
        accepted("nodes of siblings", model(graph([holder([n(), n()])])), 3, 0),
        accepted("a node after one in a body", model(graph([holder([n()]), named("n")])), 3, 0),
        accepted("a node of an ended body", model(graph([named("m"), holder([n()]), named("n")])), 4, 0),
        accepted("empty names", model(graph([empty(), named("n"), empty()])), 3, 0),
    ]
}

fn few_twice() -> Vec<Row> {
    let twice =
        |name: &str, nodes: Vec<Tree>, nth: usize| refused(name, model(graph(nodes)), 29, (NODE_NAME, "n", nth));
    let between = || holder([graph([named("n"), named("m")])]);
    let in_body = |nodes: Vec<Tree>| vec![holder([graph(nodes)])];
    let around = named("n").tree(5, body("b", graph([named("n"), named("n")])));
    vec![
        twice("with unnamed ones between", vec![named("n"), bind("x"), read("x"), named("n")], 1),
        twice("with a body between", vec![named("n"), between(), named("n")], 2),
        twice("with two bodies between", vec![named("n"), between(), named("k"), between(), named("n")], 3),
        twice("in a body", in_body(vec![named("n"), named("n")]), 1),
        twice("in a body, with a body between", in_body(vec![named("n"), between(), named("n")]), 2),
        twice("in its own node's body", vec![around], 2),
        twice("after a body that has it", vec![between(), named("n"), named("n")], 2),
    ]
}

fn many() -> Vec<Row> {
    let names = names('n', MANY);
    let mut rows = vec![accepted("many names of nodes", model(graph(all_named(&names))), MANY, 0)];
    for at in AGAIN {
        let again = all_named(&names).chain([named(&names[at])]);
        rows.push(refused("one of many again", model(graph(again)), 29, (NODE_NAME, &names[at], 1)));
    }
    rows
}

/// Half of the names, a body that has all of them, the other half: none of the body's is in the way.
fn nested_between() -> Vec<Row> {
    let names = names('n', MANY);
    let (first, second) = names.split_at(MANY / 2);
    let inner = || holder([graph(all_named(&names))]);
    let nodes = || all_named(first).chain([inner()]).chain(all_named(second));
    let mut rows = vec![accepted("a body's many between", model(graph(nodes())), 2 * MANY + 1, 0)];
    for at in AGAIN {
        let again = nodes().chain([named(&names[at])]);
        rows.push(refused("a body's many between, one again", model(graph(again)), 29, (NODE_NAME, &names[at], 2)));
    }
    rows
}

/// Many names in the graph around it: those of the body come after them, and are the first to find no room.
fn nested_below() -> Vec<Row> {
    let names = names('n', MANY);
    let mut rows = Vec::new();
    for at in AGAIN {
        let inner = graph(all_named(&names).chain([named(&names[at])]));
        let nodes = all_named(&names[..9]).chain([holder([inner])]);
        let nth = if at < 9 { 2 } else { 1 };
        rows.push(refused("one of many again in a body", model(graph(nodes)), 29, (NODE_NAME, &names[at], nth)));
    }
    rows
}
