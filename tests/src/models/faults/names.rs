//! Faults of value names: 23, 30, 35, and the shortcuts that document 01 warns of.

use super::{main_graph, node_count, nodes_of, plain_node, some_domain, some_message, some_node, Fault};
use crate::models::names::some_name;
use crate::models::proto::{Item, Tree, Value};
use crate::models::valid::good_type;
use crate::rng::Rng;
use crate::schema::Message;

pub const FAULTS: &[Fault] = &[
    Fault { name: "an input twice", aims: 23, apply: |t, r| same_again(t, r, 11) },
    Fault { name: "an initializer twice", aims: 23, apply: |t, r| same_again(t, r, 5) },
    Fault { name: "a default or two", aims: 23, apply: defaults },
    Fault { name: "an initializer that bears an input's name", aims: 23, apply: initializer_of_input },
    Fault { name: "a node twice", aims: 23, apply: node_again },
    Fault { name: "a node output that is visible", aims: 23, apply: output_again },
    Fault { name: "a body that binds an outer name", aims: 23, apply: outer_name_in_body },
    Fault { name: "a body that binds its node's output", aims: 0, apply: |t, r| body_and_node(t, r, false) },
    Fault { name: "a body that reads its node's output", aims: 30, apply: |t, r| body_and_node(t, r, true) },
    Fault { name: "a node that reads what its body binds", aims: 30, apply: body_name_outside },
    Fault { name: "a node that reads itself", aims: 30, apply: self_reader },
    Fault { name: "an input of some other name", aims: 30, apply: strange_input },
    Fault { name: "two nodes exchanged", aims: 30, apply: exchange },
    Fault { name: "a prefix or an extension read", aims: 30, apply: near_name },
    Fault { name: "an output of some other name", aims: 35, apply: strange_output },
    Fault { name: "an output that a body binds", aims: 35, apply: body_name_as_output },
    Fault { name: "an output listed twice", aims: 0, apply: |t, r| same_again(t, r, 12) },
];

/// One more field `number`, equal to one that some graph has.
fn same_again(tree: &mut Tree, rng: &mut Rng, number: u32) -> bool {
    let wanted = |tree: &Tree| tree.message == Message::Graph && tree.has(number);
    let Some(graph) = tree.pick_mut(rng, &wanted) else {
        return false;
    };
    let Some(twin) = graph.items.iter().find(|item| item.number == number).cloned() else {
        return false;
    };
    graph.insert(rng, twin);
    true
}

/// A node of a graph or a function once more, without its own name, which would be refused before its outputs.
fn node_again(tree: &mut Tree, rng: &mut Rng) -> bool {
    let Some(holder) = tree.pick_mut(rng, &|tree| node_count(tree) > 0) else {
        return false;
    };
    let Some(number) = nodes_of(holder) else {
        return false;
    };
    let Some(mut twin) = holder.children(number).next().cloned() else {
        return false;
    };
    twin.remove(3);
    holder.insert(rng, Item::new(number, Value::Tree(twin)));
    true
}

pub(super) fn tensor(name: &[u8], data_type: u64) -> Item {
    Item::new(5, Value::Tree(Tree::new(Message::Tensor).text(8, name).number(2, data_type)))
}

/// Up to two more initializers under the name of a main input: one default passes, a second is refused.
fn defaults(tree: &mut Tree, rng: &mut Rng) -> bool {
    let Some(graph) = main_graph(tree) else {
        return false;
    };
    let Some(name) = graph.children(11).next().and_then(|input| input.get_bytes(1)).map(<[u8]>::to_vec) else {
        return false;
    };
    for _ in 0..1 + rng.below(2) {
        let data_type = if rng.chance(1, 5) { 0 } else { 1 };
        graph.insert(rng, tensor(&name, data_type));
    }
    true
}

fn initializer_of_input(tree: &mut Tree, rng: &mut Rng) -> bool {
    let wanted = |tree: &Tree| tree.message == Message::Graph && tree.has(11);
    let Some(graph) = tree.pick_mut(rng, &wanted) else {
        return false;
    };
    let Some(name) = graph.children(11).last().and_then(|input| input.get_bytes(1)).map(<[u8]>::to_vec) else {
        return false;
    };
    graph.insert(rng, tensor(&name, 1));
    true
}

/// The names that a graph binds or reads, its bodies' too.
pub(super) fn names_of(graph: &Tree) -> Vec<Vec<u8>> {
    let mut names = Vec::new();
    for (number, held) in [(11, 1), (5, 8), (12, 1)] {
        names.extend(graph.children(number).filter_map(|part| part.get_bytes(held)).map(<[u8]>::to_vec));
    }
    for node in graph.children(1) {
        names.extend(node.all_bytes(1));
        names.extend(node.all_bytes(2));
        let bodies = node.children(5).flat_map(|attribute| attribute.children(6).chain(attribute.children(11)));
        bodies.for_each(|body| names.extend(names_of(body)));
    }
    names.retain(|name| !name.is_empty());
    names
}

/// Some name of the whole model, wherever it is bound or read.
fn some_name_of(tree: &mut Tree, rng: &mut Rng) -> Vec<u8> {
    let names = main_graph(tree).map(|graph| names_of(graph)).unwrap_or_default();
    if names.is_empty() {
        some_name(rng)
    } else {
        rng.pick(&names).clone()
    }
}

fn output_again(tree: &mut Tree, rng: &mut Rng) -> bool {
    let name = some_name_of(tree, rng);
    let Some(node) = some_node(tree, rng) else {
        return false;
    };
    node.insert(rng, Item::new(2, Value::Bytes(name)));
    true
}

pub(super) fn holds_body(node: &Tree) -> bool {
    node.message == Message::Node && node.children(5).any(|attribute| attribute.has(6) || attribute.has(11))
}

pub(super) fn body_mut<'t>(node: &'t mut Tree, rng: &mut Rng) -> Option<&'t mut Tree> {
    let own =
        node.items.iter_mut().filter_map(|item| if let Value::Tree(t) = &mut item.value { Some(t) } else { None });
    let mut bodies: Vec<&mut Tree> = own
        .flat_map(|attribute| attribute.items.iter_mut())
        .filter(|item| matches!(item.number, 6 | 11))
        .filter_map(|item| if let Value::Tree(t) = &mut item.value { Some(t) } else { None })
        .collect();
    let at = rng.below(bodies.len());
    if bodies.is_empty() {
        None
    } else {
        Some(bodies.swap_remove(at))
    }
}

/// Some body binds, as input, initializer or node output, a name from anywhere in the model.
fn outer_name_in_body(tree: &mut Tree, rng: &mut Rng) -> bool {
    let domain = some_domain(tree);
    let name = some_name_of(tree, rng);
    let Some(body) = tree.pick_mut(rng, &holds_body).and_then(|node| body_mut(node, rng)) else {
        return false;
    };
    let item = match rng.below(3) {
        0 => Item::new(11, Value::Tree(Tree::new(Message::ValueInfo).text(1, name))),
        1 => tensor(&name, 1),
        _ => Item::new(1, Value::Tree(plain_node(domain, None, &name))),
    };
    body.insert(rng, item);
    true
}

/// A body reads (30), or binds (passes, as a body's names vanish first), an output of its own node.
fn body_and_node(tree: &mut Tree, rng: &mut Rng, reads: bool) -> bool {
    let domain = some_domain(tree);
    let Some(node) = tree.pick_mut(rng, &holds_body) else {
        return false;
    };
    let Some(name) = node.all_bytes(2).into_iter().find(|name| !name.is_empty()) else {
        return false;
    };
    let Some(body) = body_mut(node, rng) else {
        return false;
    };
    let inner = if reads { plain_node(domain, Some(&name), b"") } else { plain_node(domain, None, &name) };
    body.insert(rng, Item::new(1, Value::Tree(inner)));
    true
}

/// A graph that holds bodies, and a name that one of them binds in some node.
fn body_name(tree: &mut Tree, rng: &mut Rng) -> Option<Vec<u8>> {
    let node = tree.pick_mut(rng, &holds_body)?;
    let body = body_mut(node, rng)?;
    let names: Vec<Vec<u8>> = body.children(1).flat_map(|inner| inner.all_bytes(2)).filter(|n| !n.is_empty()).collect();
    if names.is_empty() {
        None
    } else {
        Some(rng.pick(&names).clone())
    }
}

fn body_name_outside(tree: &mut Tree, rng: &mut Rng) -> bool {
    let Some(name) = body_name(tree, rng) else {
        return false;
    };
    let Some(node) = some_node(tree, rng) else {
        return false;
    };
    node.insert(rng, Item::new(1, Value::Bytes(name)));
    true
}

fn self_reader(tree: &mut Tree, rng: &mut Rng) -> bool {
    let Some(node) = some_node(tree, rng) else {
        return false;
    };
    let Some(name) = node.all_bytes(2).pop() else {
        return false;
    };
    node.insert(rng, Item::new(1, Value::Bytes(name)));
    true
}

fn strange_input(tree: &mut Tree, rng: &mut Rng) -> bool {
    let name = if rng.chance(1, 2) { some_name(rng) } else { some_name_of(tree, rng) };
    let Some(node) = some_node(tree, rng) else {
        return false;
    };
    node.insert(rng, Item::new(1, Value::Bytes(name)));
    true
}

fn exchange(tree: &mut Tree, rng: &mut Rng) -> bool {
    let Some(holder) = tree.pick_mut(rng, &|tree| node_count(tree) >= 2) else {
        return false;
    };
    let number = nodes_of(holder);
    let is_node = |place: &usize| Some(holder.items[*place].number) == number;
    let places: Vec<usize> = (0..holder.items.len()).filter(is_node).collect();
    let (one, other) = (*rng.pick(&places), *rng.pick(&places));
    holder.items.swap(one, other);
    true
}

/// A name of the model, one byte shorter or longer: names are one only when all their bytes agree.
fn near_name(tree: &mut Tree, rng: &mut Rng) -> bool {
    let mut name = some_name_of(tree, rng);
    if rng.chance(1, 2) && name.len() > 1 {
        name.pop();
    } else {
        name.push(b'1');
    }
    let Some(node) = some_node(tree, rng) else {
        return false;
    };
    node.insert(rng, Item::new(1, Value::Bytes(name)));
    true
}

fn add_output(graph: Option<&mut Tree>, rng: &mut Rng, name: Vec<u8>) -> bool {
    let Some(graph) = graph else {
        return false;
    };
    let info = Tree::new(Message::ValueInfo).text(1, name).tree(2, good_type(rng));
    graph.insert(rng, Item::new(12, Value::Tree(info)));
    true
}

fn strange_output(tree: &mut Tree, rng: &mut Rng) -> bool {
    let name = if rng.chance(1, 2) { some_name(rng) } else { some_name_of(tree, rng) };
    add_output(some_message(tree, rng, Message::Graph), rng, name)
}

fn body_name_as_output(tree: &mut Tree, rng: &mut Rng) -> bool {
    let Some(name) = body_name(tree, rng) else {
        return false;
    };
    add_output(main_graph(tree), rng, name)
}
