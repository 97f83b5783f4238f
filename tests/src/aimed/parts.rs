//! Parts of the models, in few words.

use crate::models::proto::Tree;
use crate::schema::Message;

/// Tags of the fields that are refused: a node's input, output and name, an attribute's name, an initializer's name, the
/// name of an input or output of a graph, a node's domain; an attribute of a node, and one of a function.
pub const READ: u8 = 0x0A;
pub const BOUND: u8 = 0x12;
pub const NODE_NAME: u8 = 0x1A;
pub const ATTRIBUTE_NAME: u8 = 0x0A;
pub const TENSOR_NAME: u8 = 0x42;
pub const LISTED: u8 = 0x0A;
pub const DOMAIN: u8 = 0x3A;
pub const ATTRIBUTE: u8 = 0x2A;
pub const OF_FUNCTION: u8 = 0x32;

pub fn model(graph: Tree) -> Vec<u8> {
    model_at(8, graph)
}

/// A model of an IR version.
pub fn model_at(ir_version: u64, graph: Tree) -> Vec<u8> {
    with_functions(ir_version, graph, []).encode()
}

pub fn with_functions(ir_version: u64, graph: Tree, functions: impl IntoIterator<Item = Tree>) -> Tree {
    let model = Tree::new(Message::Model).number(1, ir_version).tree(8, default_import()).tree(7, graph);
    functions.into_iter().fold(model, |model, function| model.tree(25, function))
}

/// The default domain.
pub fn default_import() -> Tree {
    Tree::new(Message::OperatorSetId).number(2, 13)
}

/// A function with this name.
pub fn function(name: &str) -> Tree {
    Tree::new(Message::Function).text(1, name).tree(9, default_import())
}

/// An attribute with no value, which refers to one of the function's.
pub fn reference(name: &str, of: &str) -> Tree {
    attribute(name).text(21, of)
}

/// A graph of these nodes.
pub fn graph(nodes: impl IntoIterator<Item = Tree>) -> Tree {
    nodes.into_iter().fold(Tree::new(Message::Graph).text(2, "g"), |graph, node| graph.tree(1, node))
}

/// A node that reads and binds these names.
pub fn node(reads: &[&str], binds: &[&str]) -> Tree {
    let read = reads.iter().fold(Tree::new(Message::Node).text(4, "X"), |node, name| node.text(1, name));
    // A node has an output field, even where it binds nothing.
    let binds = if binds.is_empty() { &[""] } else { binds };
    binds.iter().fold(read, |node, name| node.text(2, name))
}

pub fn bind(name: &str) -> Tree {
    node(&[], &[name])
}

pub fn read(name: &str) -> Tree {
    node(&[name], &[])
}

/// A node with a name, and nothing bound.
pub fn named(name: &str) -> Tree {
    node(&[], &[]).text(3, name)
}

/// A node that binds nothing but has these bodies.
pub fn holder(bodies: impl IntoIterator<Item = Tree>) -> Tree {
    let bodies = bodies.into_iter().enumerate();
    bodies.fold(node(&[], &[]), |node, (at, graph)| node.tree(5, body(&format!("b{at}"), graph)))
}

/// An attribute that holds a graph, and one that holds nothing.
pub fn body(name: &str, graph: Tree) -> Tree {
    Tree::new(Message::Attribute).text(1, name).tree(6, graph).number(20, 5)
}

pub fn attribute(name: &str) -> Tree {
    Tree::new(Message::Attribute).text(1, name).number(20, 2)
}

/// An input or an output of the main graph.
pub fn value(name: &str) -> Tree {
    let tensor = Tree::new(Message::TypeTensor).number(1, 1).tree(2, Tree::new(Message::Shape));
    Tree::new(Message::ValueInfo).text(1, name).tree(2, Tree::new(Message::Type).tree(1, tensor))
}

pub fn tensor(name: &str) -> Tree {
    Tree::new(Message::Tensor).text(8, name).number(2, 1)
}

/// `t0`, `t1` and so on.
pub fn names(letter: char, count: usize) -> Vec<String> {
    (0..count).map(|at| format!("{letter}{at}")).collect()
}

pub fn binds(names: &[String]) -> impl Iterator<Item = Tree> + '_ {
    names.iter().map(|name| bind(name))
}

pub fn reads(names: &[String]) -> impl Iterator<Item = Tree> + '_ {
    names.iter().map(|name| read(name))
}
