//! Models with functions: many of them, many attributes and references to these, long bodies, many imports.

use gate_tests::models::proto::{Tree, Value};
use gate_tests::schema::Message;

use crate::searches::CUSTOM;
use crate::workloads::{at_version, import, importing, int_attribute, node, value_info, FLOAT, INT};

/// So many domains one function imports beside the default one. The operator list has them too, and is read again for each.
const IMPORTS: usize = 400;

/// A main graph of one node, and these functions.
fn model(functions: impl Iterator<Item = Tree>) -> Vec<u8> {
    let graph = Tree::new(Message::Graph).text(2, "main").tree(1, node("Relu", &["x"], "y"));
    let graph = graph.tree(11, value_info("x", FLOAT, &[1])).tree(12, value_info("y", FLOAT, &[1]));
    functions.fold(importing(&CUSTOM[..1]).tree(7, graph), |model, function| model.tree(25, function)).encode()
}

/// With two imports, the default domain's and the first custom one's.
fn function(name: &str, domain: &str) -> Tree {
    let function = Tree::new(Message::Function).text(1, name).text(10, domain);
    function.tree(9, import("")).tree(9, import(CUSTOM[0]))
}

/// A function of one input whose nodes each read the output before; `made` makes the node of a number.
fn chain(function: Tree, nodes: usize, made: impl Fn(usize, &str, &str) -> Tree) -> Tree {
    let (mut function, mut last) = (function.text(4, "x"), "x".to_string());
    for at in 0..nodes {
        let output = format!("value_{at}");
        function.push(7, Value::Tree(made(at, &last, &output)));
        last = output;
    }
    function.text(5, last)
}

fn relu(_: usize, input: &str, output: &str) -> Tree {
    node("Relu", &[input], output)
}

/// Functions of ever new names.
pub fn names(count: usize, _: u64) -> Vec<u8> {
    model((0..count).map(|at| function(&format!("function_{at}"), CUSTOM[0])))
}

/// Functions of one name, and ever new domains.
pub fn domains(count: usize, _: u64) -> Vec<u8> {
    model((0..count).map(|at| function("function", &format!("com.example.{at}"))))
}

/// Functions of one name and one domain, and ever new overloads.
pub fn overloads(count: usize, _: u64) -> Vec<u8> {
    let one = |at| function("function", CUSTOM[0]).text(13, format!("overload_{at}"));
    at_version(10, model((0..count).map(one)))
}

/// One function with attributes, every other of them with a default.
fn with_attributes(count: usize) -> Tree {
    let mut function = function("function", CUSTOM[0]);
    for at in 0..count {
        let name = format!("attribute_{at}");
        function = if at % 2 == 0 { function.text(6, name) } else { function.tree(11, int_attribute(&name, 1)) };
    }
    function
}

pub fn attributes(count: usize, _: u64) -> Vec<u8> {
    model(std::iter::once(with_attributes(count)))
}

/// The same, and as many nodes, each of which refers to another attribute.
pub fn references(count: usize, _: u64) -> Vec<u8> {
    let refers = |at: usize, input: &str, output: &str| {
        let attribute = Tree::new(Message::Attribute).text(1, "value").text(21, format!("attribute_{at}"));
        node("Use", &[input], output).text(7, CUSTOM[0]).tree(5, attribute.number(20, INT))
    };
    model(std::iter::once(chain(with_attributes(count), count, refers)))
}

/// One body of named nodes.
pub fn body(nodes: usize, _: u64) -> Vec<u8> {
    let named = |at: usize, input: &str, output: &str| relu(at, input, output).text(3, format!("node_{at}"));
    model(std::iter::once(chain(function("function", CUSTOM[0]), nodes, named)))
}

/// Functions of four nodes.
pub fn small(count: usize, _: u64) -> Vec<u8> {
    model((0..count).map(|at| chain(function(&format!("function_{at}"), CUSTOM[0]), 4, relu)))
}

/// Domains that a function imports and the main graph does not.
pub fn imported() -> impl Iterator<Item = String> {
    (0..IMPORTS).map(|at| format!("com.example.import_{at}"))
}

/// Nodes of one function that use its imports by turns.
pub fn imports(nodes: usize, _: u64) -> Vec<u8> {
    let domains: Vec<String> = imported().collect();
    let importing = |function: Tree, domain: &String| function.tree(9, import(domain));
    let function = domains.iter().fold(function("function", CUSTOM[0]), importing);
    let uses = |at: usize, input: &str, output: &str| relu(at, input, output).text(7, &domains[at % IMPORTS]);
    model(std::iter::once(chain(function, nodes, uses)))
}
