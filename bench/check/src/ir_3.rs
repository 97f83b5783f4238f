//! Models of IR version 3, where each initializer is the default of an input of its own graph: lists of them, in the main graph and in
//! bodies.

use gate_tests::models::proto::{Tree, Value};
use gate_tests::schema::Message;

use crate::searches::{self, CUSTOM};
use crate::workloads::{at_version, model_with, node, value_info, weights, FLOAT, GRAPH};

/// Inputs of the main graph that each have a default.
pub fn main_defaults(count: usize, seed: u64) -> Vec<u8> {
    at_version(3, searches::defaults(count, seed))
}

/// A node with a body that has these inputs, each with a default, and binds a name.
fn run(output: &str, inputs: impl Iterator<Item = String>, inner: &str) -> Tree {
    let mut body = Tree::new(Message::Graph).text(2, "body").tree(1, node("Relu", &["x"], inner));
    for name in inputs {
        body.push(11, Value::Tree(value_info(&name, FLOAT, &[1])));
        body.push(5, Value::Tree(weights(&name, &[1])));
    }
    let body = body.tree(12, value_info(inner, FLOAT, &[1]));
    let attribute = Tree::new(Message::Attribute).text(1, "body").tree(6, body).number(20, GRAPH);
    node("Run", &["x"], output).text(7, CUSTOM[0]).tree(5, attribute)
}

fn of_nodes(nodes: impl Iterator<Item = Tree>, last: &str) -> Vec<u8> {
    let graph = Tree::new(Message::Graph).text(2, "defaults").tree(11, value_info("x", FLOAT, &[1]));
    let graph = nodes.fold(graph, |graph, node| graph.tree(1, node));
    at_version(3, model_with(&CUSTOM[..1], graph.tree(12, value_info(last, FLOAT, &[1]))))
}

/// Inputs of one body that each have a default.
pub fn body_defaults(count: usize, _: u64) -> Vec<u8> {
    let inputs = (0..count).map(|at| format!("input_{at}"));
    of_nodes(std::iter::once(run("y", inputs, "inner")), "y")
}

/// Nodes that each bind a name and have a body with one input and its default, so that the last body is under as many outer names.
pub fn bodies(count: usize, _: u64) -> Vec<u8> {
    let one = |at: usize| run(&format!("value_{at}"), std::iter::once(format!("input_{at}")), &format!("inner_{at}"));
    of_nodes((0..count).map(one), &format!("value_{}", count - 1))
}
