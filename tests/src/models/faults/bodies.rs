//! Faults of functions' bodies: what is visible there (23, 30, 35), imports (28), references (33, 32), depth (6).

use super::functions::{some_function, some_function_with};
use super::names::names_of;
use super::rules::of;
use super::{main_graph, node_count, some_domain, some_node, wires, Fault};
use crate::models::names::some_name;
use crate::models::proto::{Item, Tree, Value};
use crate::oplist;
use crate::rng::Rng;
use crate::schema::Message;

pub const FAULTS: &[Fault] = &[
    Fault { name: "a function's input without name", aims: 22, apply: |t, r| add(t, r, 4, no_name) },
    Fault { name: "a function's bad input", aims: 21, apply: |t, r| of(some_function(t, r)).bad_one_more(r, 4) },
    Fault { name: "a function's input twice", aims: 23, apply: |t, r| same_again(t, r, 4) },
    Fault { name: "an outer name as a function's input", aims: 0, apply: |t, r| add(t, r, 4, outer_name) },
    Fault { name: "a function's output without name", aims: 22, apply: |t, r| add(t, r, 5, no_name) },
    Fault { name: "a function's bad output", aims: 21, apply: |t, r| of(some_function(t, r)).bad_one_more(r, 5) },
    Fault { name: "a function's output of some name", aims: 35, apply: |t, r| add(t, r, 5, any_name) },
    Fault { name: "an outer name as a function's output", aims: 35, apply: |t, r| add(t, r, 5, outer_name) },
    Fault { name: "a function's output listed twice", aims: 0, apply: |t, r| same_again(t, r, 5) },
    Fault { name: "a function reads an outer name", aims: 30, apply: |t, r| node_with(t, r, 1, outer_name) },
    Fault { name: "a function binds an outer name", aims: 0, apply: |t, r| node_with(t, r, 2, outer_name) },
    Fault { name: "a function reads another's input", aims: 30, apply: |t, r| node_with(t, r, 1, any_input) },
    Fault { name: "a function binds its own input", aims: 23, apply: binds_its_input },
    Fault { name: "a domain that only the model imports", aims: 28, apply: models_import },
    Fault { name: "a reference to some name", aims: 33, apply: |t, r| refer(t, r, Within::Body, any_name) },
    Fault { name: "a nested reference to some name", aims: 33, apply: |t, r| refer(t, r, Within::Nested, any_name) },
    Fault { name: "a reference to any attribute", aims: 33, apply: |t, r| refer(t, r, Within::Body, any_attribute) },
    Fault {
        name: "a nested reference to any attribute",
        aims: 33,
        apply: |t, r| refer(t, r, Within::Nested, any_attribute),
    },
    Fault { name: "a reference in the main graph", aims: 33, apply: |t, r| refer(t, r, Within::Main, any_attribute) },
    Fault { name: "an attribute that is gone", aims: 33, apply: without_attributes },
    Fault { name: "a reference with a value", aims: 32, apply: reference_with_value },
    Fault { name: "a reference's type at an edge", aims: 32, apply: |t, r| of(some_reference(t, r)).edge(r, 20) },
    Fault { name: "a reference of another type", aims: 0, apply: reference_of_any_type },
    Fault { name: "graphs to depth 9 under a default", aims: 6, apply: |t, r| deep_default(t, r, 8) },
    Fault { name: "graphs to depth 8 under a default", aims: 32, apply: |t, r| deep_default(t, r, 7) },
];

/// A name for a fault, from the model.
type Naming = fn(&mut Tree, &mut Rng) -> Vec<u8>;

fn no_name(_: &mut Tree, _: &mut Rng) -> Vec<u8> {
    Vec::new()
}

fn any_name(_: &mut Tree, rng: &mut Rng) -> Vec<u8> {
    some_name(rng)
}

fn one_of(names: Vec<Vec<u8>>, rng: &mut Rng) -> Vec<u8> {
    if names.is_empty() {
        some_name(rng)
    } else {
        rng.pick(&names).clone()
    }
}

fn outer_name(model: &mut Tree, rng: &mut Rng) -> Vec<u8> {
    let names = main_graph(model).map(|graph| names_of(graph)).unwrap_or_default();
    one_of(names, rng)
}

fn any_input(model: &mut Tree, rng: &mut Rng) -> Vec<u8> {
    one_of(model.children(25).flat_map(|function| function.all_bytes(4)).collect(), rng)
}

/// An attribute of some function, which may be another one.
fn any_attribute(model: &mut Tree, rng: &mut Rng) -> Vec<u8> {
    let mut names = Vec::new();
    for function in model.children(25) {
        names.extend(function.all_bytes(6));
        names.extend(function.children(11).filter_map(|default| default.get_bytes(1)).map(<[u8]>::to_vec));
    }
    one_of(names, rng)
}

/// One more input or output of some function.
fn add(tree: &mut Tree, rng: &mut Rng, number: u32, name: Naming) -> bool {
    let name = name(tree, rng);
    let Some(function) = some_function(tree, rng) else {
        return false;
    };
    function.insert(rng, Item::new(number, Value::Bytes(name)));
    true
}

fn same_again(tree: &mut Tree, rng: &mut Rng, number: u32) -> bool {
    let Some(function) = some_function_with(tree, rng, number) else {
        return false;
    };
    let name = rng.pick(&function.all_bytes(number)).clone();
    function.insert(rng, Item::new(number, Value::Bytes(name)));
    true
}

/// One more input (1) or output (2) of some node in a function.
fn node_with(tree: &mut Tree, rng: &mut Rng, number: u32, name: Naming) -> bool {
    let name = name(tree, rng);
    let Some(node) = some_function_with(tree, rng, 7).and_then(|function| some_node(function, rng)) else {
        return false;
    };
    node.insert(rng, Item::new(number, Value::Bytes(name)));
    true
}

fn binds_its_input(tree: &mut Tree, rng: &mut Rng) -> bool {
    let Some(function) = some_function_with(tree, rng, 4) else {
        return false;
    };
    let name = rng.pick(&function.all_bytes(4)).clone();
    let Some(node) = some_node(function, rng) else {
        return false;
    };
    node.insert(rng, Item::new(2, Value::Bytes(name)));
    true
}

fn imported(tree: &Tree, number: u32) -> Vec<Vec<u8>> {
    let domain = |import: &Tree| oplist::domain(import.get_bytes(1).unwrap_or_default()).to_vec();
    tree.children(number).map(domain).collect()
}

fn models_import(tree: &mut Tree, rng: &mut Rng) -> bool {
    let mut domains = imported(tree, 8);
    let Some(function) = some_function_with(tree, rng, 7) else {
        return false;
    };
    let own = imported(function, 9);
    domains.retain(|domain| !own.contains(domain));
    let Some(node) = some_node(function, rng) else {
        return false;
    };
    if domains.is_empty() {
        return false;
    }
    let domain = rng.pick(&domains).clone();
    if domain.is_empty() && rng.chance(1, 2) {
        return of(Some(node)).without(7);
    }
    of(Some(node)).set(7, Value::Bytes(domain))
}

/// Where a node stands that refers to an attribute.
#[derive(Clone, Copy)]
enum Within {
    Main,
    Body,
    Nested,
}

fn node_within<'t>(tree: &'t mut Tree, rng: &mut Rng, within: Within) -> Option<&'t mut Tree> {
    match within {
        Within::Main => main_graph(tree).and_then(|graph| some_node(graph, rng)),
        Within::Body => some_function_with(tree, rng, 7)?.children_mut(7).next(),
        Within::Nested => {
            let function = some_function_with(tree, rng, 7)?;
            let graph = function.pick_mut(rng, &|tree| tree.message == Message::Graph && node_count(tree) > 0)?;
            some_node(graph, rng)
        }
    }
}

fn refer(tree: &mut Tree, rng: &mut Rng, within: Within, name: Naming) -> bool {
    let name = name(tree, rng);
    let Some(node) = node_within(tree, rng, within) else {
        return false;
    };
    let kind = 1 + rng.below(14) as u64;
    let attribute = Tree::new(Message::Attribute).text(1, b"refers").number(20, kind).text(21, name);
    node.insert(rng, Item::new(5, Value::Tree(attribute)));
    true
}

fn some_reference<'t>(tree: &'t mut Tree, rng: &mut Rng) -> Option<&'t mut Tree> {
    let refers = |tree: &Tree| tree.get_bytes(21).is_some_and(|name| !name.is_empty());
    tree.pick_mut(rng, &|tree| tree.message == Message::Attribute && refers(tree))
}

/// One of both lists is taken away, and what refers to it stays.
fn without_attributes(tree: &mut Tree, rng: &mut Rng) -> bool {
    let number = *rng.pick(&[6, 11]);
    of(some_function_with(tree, rng, number)).without(number)
}

fn reference_with_value(tree: &mut Tree, rng: &mut Rng) -> bool {
    let Some(reference) = some_reference(tree, rng) else {
        return false;
    };
    let (number, kind, value) = match rng.below(5) {
        0 => (3, 2, Value::Varint(7)),
        1 => (4, 3, Value::Bytes(Vec::new())),
        2 => (8, 7, Value::Bytes(Vec::new())),
        3 => (6, 5, Value::Tree(Tree::new(Message::Graph))),
        _ => (11, 10, Value::Tree(Tree::new(Message::Graph).text(2, b"g"))),
    };
    if rng.chance(1, 2) {
        reference.set(20, Value::Varint(kind));
    }
    reference.insert(rng, Item::new(number, value));
    true
}

fn reference_of_any_type(tree: &mut Tree, rng: &mut Rng) -> bool {
    let kind = 1 + rng.below(14) as u64;
    of(some_reference(tree, rng)).set(20, Value::Varint(kind))
}

fn deep_default(tree: &mut Tree, rng: &mut Rng, count: usize) -> bool {
    let domain = some_domain(tree);
    let carrier = *rng.pick(&[6, 11]);
    let default = wires::deep(domain, rng, count, |_| (), carrier);
    let Some(function) = some_function(tree, rng) else {
        return false;
    };
    function.insert(rng, Item::new(11, Value::Tree(default)));
    true
}
