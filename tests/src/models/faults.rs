//! Faults: small changes of a sound model, each aimed at one refusal number.
//! A fault may miss, where the model has no place for it or another rule speaks first. Two faults in one model
//! test the order of the rules.

mod bodies;
mod functions;
mod header;
mod initializers;
mod names;
mod padding;
mod rules;
mod wires;

pub use padding::pad;

use super::proto::{Item, Tree, Value};
use crate::rng::Rng;
use crate::schema::Message;

pub struct Fault {
    pub name: &'static str,
    /// The refusal number that it is aimed at, 0 where it is to pass.
    pub aims: u64,
    /// Changes the tree; false where the tree has no place for it.
    pub apply: fn(&mut Tree, &mut Rng) -> bool,
}

pub fn all() -> Vec<&'static Fault> {
    let of_graphs = [header::FAULTS, rules::FAULTS, names::FAULTS, initializers::FAULTS];
    let of_functions = [functions::FAULTS, bodies::FAULTS];
    [wires::FAULTS, padding::FAULTS].into_iter().chain(of_graphs).chain(of_functions).flatten().collect()
}

impl Fault {
    /// Is it aimed at a number of the first walk?
    pub fn of_the_wire(&self) -> bool {
        matches!(self.aims, 1..=6 | 9)
    }
}

/// Some field for which `wanted` holds, in some message that has one.
fn some_item<'t>(tree: &'t mut Tree, rng: &mut Rng, wanted: &dyn Fn(Message, &Item) -> bool) -> Option<&'t mut Item> {
    let inside = tree.pick_mut(rng, &|tree| tree.items.iter().any(|item| wanted(tree.message, item)))?;
    let message = inside.message;
    let count = inside.items.iter().filter(|item| wanted(message, item)).count();
    let at = rng.below(count);
    inside.items.iter_mut().filter(|item| wanted(message, item)).nth(at)
}

/// Some message of one kind.
fn some_message<'t>(tree: &'t mut Tree, rng: &mut Rng, message: Message) -> Option<&'t mut Tree> {
    tree.pick_mut(rng, &|tree| tree.message == message)
}

/// The main graph, where the model still has one.
fn main_graph(tree: &mut Tree) -> Option<&mut Tree> {
    tree.children_mut(7).next()
}

/// The number of the field that holds the nodes of a graph or a function.
fn nodes_of(tree: &Tree) -> Option<u32> {
    match tree.message {
        Message::Graph => Some(1),
        Message::Function => Some(7),
        _ => None,
    }
}

/// How many nodes a graph or a function has itself.
fn node_count(tree: &Tree) -> usize {
    nodes_of(tree).map_or(0, |number| tree.children(number).count())
}

/// Some node of some graph or function.
fn some_node<'t>(tree: &'t mut Tree, rng: &mut Rng) -> Option<&'t mut Tree> {
    let holder = tree.pick_mut(rng, &|tree| node_count(tree) > 0)?;
    let at = rng.below(node_count(holder));
    holder.children_mut(nodes_of(holder)?).nth(at)
}

/// Some field `number` of some graph: an input, an initializer or an output, which the second walk judges.
/// (`some_message` of the same kind may also be a value_info or an attribute's tensor, which it does not.)
fn some_part<'t>(tree: &'t mut Tree, rng: &mut Rng, number: u32) -> Option<&'t mut Tree> {
    let graph = tree.pick_mut(rng, &|tree| tree.message == Message::Graph && tree.children(number).next().is_some())?;
    let count = graph.children(number).count();
    let at = rng.below(count);
    graph.children_mut(number).nth(at)
}

/// Some input or output of the main graph: those whose types are judged.
fn some_main_info<'t>(tree: &'t mut Tree, rng: &mut Rng) -> Option<&'t mut Tree> {
    let graph = main_graph(tree)?;
    let is_info = |number: u32| number == 11 || number == 12;
    let count = graph.items.iter().filter(|item| is_info(item.number)).count();
    if count == 0 {
        return None;
    }
    let at = rng.below(count);
    let item = graph.items.iter_mut().filter(|item| is_info(item.number)).nth(at)?;
    match &mut item.value {
        Value::Tree(info) => Some(info),
        _ => None,
    }
}

/// The type.tensor of some input or output of the main graph.
fn some_main_tensor<'t>(tree: &'t mut Tree, rng: &mut Rng) -> Option<&'t mut Tree> {
    some_main_info(tree, rng)?.children_mut(2).next()?.children_mut(1).next()
}

/// Removes the field, or leaves it present and empty: both mean the empty bytes, with different places.
fn empty(tree: &mut Tree, rng: &mut Rng, number: u32) -> bool {
    if rng.chance(1, 2) {
        tree.remove(number);
    } else {
        tree.set(number, Value::Bytes(Vec::new()));
    }
    true
}

/// A node that keeps every rule but perhaps those of its names: it reads `input` and binds `output`.
fn plain_node(domain: Option<Vec<u8>>, input: Option<&[u8]>, output: &[u8]) -> Tree {
    let node = Tree::new(Message::Node).text(2, output).text(4, b"X");
    let node = match input {
        Some(name) => node.text(1, name),
        None => node,
    };
    match domain {
        Some(domain) => node.text(7, domain),
        None => node,
    }
}

/// The domain of the model's first import, for nodes that a fault adds.
fn some_domain(tree: &Tree) -> Option<Vec<u8>> {
    tree.children(8).next().and_then(|import| import.get_bytes(1)).map(<[u8]>::to_vec)
}
