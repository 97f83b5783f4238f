//! Initializers of the main graph: names of their own, or defaults of inputs, each once. Those of IR version 3: `nested_defaults.rs`.

use super::imports::{self, import};
use super::parts::*;
use super::{accepted, defined, twice, AGAIN, MANY};
use crate::checker::Verdict;
use crate::models::proto::Tree;
use crate::rows::Row;
use crate::schema::Message;

pub fn rows() -> Vec<Row> {
    let crowded = [many(), many_between()].concat().into_iter().map(behind_imports).collect();
    [few(), few_twice(), nested(), many(), many_between(), crowded].concat()
}

/// Behind many imports, which are remembered first: each input takes two cells, and with these come extra cells enough for its default.
pub(super) fn behind_imports(row: Row) -> Row {
    let domains = names('d', MANY);
    let imports = domains.iter().fold(Tree::new(Message::Model), |model, domain| model.tree(8, import(domain, 13)));
    let imports = imports.encode();
    let moved = |place: u64| place + imports.len() as u64;
    let answer = match row.answer {
        Verdict::Refused { number: 23, place, first } => Verdict::twice(moved(place), moved(first)),
        Verdict::Refused { number, place, .. } => Verdict::refused(number, moved(place)),
        accepted => accepted,
    };
    let name = format!("{}, behind many imports", row.name);
    Row { name, model: [&imports[..], &row.model].concat(), list: imports::list(), answer, ..row }
}

/// A graph with these inputs and initializers, in this order on the wire.
pub(super) fn given(inputs: &[String], tensors: &[String]) -> Tree {
    let graph = inputs.iter().fold(graph([]), |graph, name| graph.tree(11, value(name)));
    tensors.iter().fold(graph, |graph, name| graph.tree(5, tensor(name)))
}

fn list(names: &[&str]) -> Vec<String> {
    names.iter().map(|name| name.to_string()).collect()
}

fn of(inputs: &[&str], tensors: &[&str]) -> Vec<u8> {
    model(given(&list(inputs), &list(tensors)))
}

fn few() -> Vec<Row> {
    let first = graph([read("x")]).tree(5, tensor("x")).tree(5, tensor("w")).tree(11, value("x"));
    vec![
        accepted("a default", of(&["x"], &["x"]), 0, 1),
        accepted("defaults in another order", of(&["x", "y", "z"], &["z", "x", "y"]), 0, 3),
        accepted("a default between others", of(&["x"], &["v", "x", "w"]), 0, 3),
        accepted("a default before its input on the wire", model(first), 1, 2),
    ]
}

fn few_twice() -> Vec<Row> {
    let again = |name: &str, model: Vec<u8>| defined(name, model, (TENSOR_NAME, "x", 1), (LISTED, "x", 0));
    let bound = graph([bind("x")]).tree(11, value("x")).tree(5, tensor("x"));
    vec![
        again("two defaults", of(&["x"], &["x", "x"])),
        again("two defaults with others between", of(&["x", "y"], &["v", "x", "y", "x"])),
        again("three defaults", of(&["y", "x"], &["x", "y", "x", "x"])),
        twice("two initializers", of(&["y"], &["x", "y", "x"]), (TENSOR_NAME, "x", 1), 0),
        twice("two inputs", of(&["x", "y", "x"], &["x"]), (LISTED, "x", 1), 0),
        defined("a default's name bound", model(bound), (BOUND, "x", 0), (LISTED, "x", 0)),
    ]
}

/// A nested graph gives no defaults, from version 4 on.
fn nested() -> Vec<Row> {
    let within = |graph_: Tree| model(graph([holder([graph_])]).tree(11, value("x")).tree(5, tensor("x")));
    let own = graph([]).tree(11, value("y")).tree(5, tensor("y"));
    vec![
        defined(
            "of the main graph's input",
            within(graph([]).tree(5, tensor("x"))),
            (TENSOR_NAME, "x", 0),
            (LISTED, "x", 0),
        ),
        defined("of its own input", within(own), (TENSOR_NAME, "y", 0), (LISTED, "y", 0)),
    ]
}

fn many() -> Vec<Row> {
    let inputs = names('x', MANY);
    let backwards: Vec<String> = inputs.iter().rev().cloned().collect();
    let mut rows = vec![
        accepted("many defaults", model(given(&inputs, &inputs)), 0, MANY),
        accepted("many defaults in reverse", model(given(&inputs, &backwards)), 0, MANY),
        accepted("many inputs, few defaults", model(given(&inputs, &inputs[9..11])), 0, MANY),
    ];
    for at in AGAIN {
        for order in [&inputs, &backwards] {
            let again = [&order[..], &inputs[at..=at]].concat();
            let (field, first) = ((TENSOR_NAME, inputs[at].as_str(), 1), (LISTED, inputs[at].as_str(), 0));
            rows.push(defined("one of many again", model(given(&inputs, &again)), field, first));
        }
    }
    rows
}

/// Defaults and names of their own by turns, and one of either again.
fn many_between() -> Vec<Row> {
    let (inputs, own) = (names('x', MANY), names('w', MANY));
    let mixed: Vec<String> = inputs.iter().zip(&own).flat_map(|(x, w)| [w.clone(), x.clone()]).collect();
    let mut rows = vec![accepted("by turns", model(given(&inputs, &mixed)), 0, 2 * MANY)];
    for at in AGAIN {
        for (name, tag) in [(&inputs[at], LISTED), (&own[at], TENSOR_NAME)] {
            let again = [&mixed[..], std::slice::from_ref(name)].concat();
            let (field, first) = ((TENSOR_NAME, name.as_str(), 1), (tag, name.as_str(), 0));
            rows.push(defined("by turns, one again", model(given(&inputs, &again)), field, first));
        }
    }
    rows
}
