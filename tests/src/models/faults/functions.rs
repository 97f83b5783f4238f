//! Faults of functions but for their bodies: names (22, 21), 41, attributes (22, 21, 42, 33, 32), imports (12, 13, 14).

use super::rules::of;
use super::{header, some_message, Fault};
use crate::models::lists::alias;
use crate::models::proto::{Item, Tree, Value};
use crate::rng::Rng;
use crate::schema::Message;

pub const FAULTS: &[Fault] = &[
    Fault { name: "a function without name", aims: 22, apply: |t, r| of(some_function(t, r)).empty(r, 1) },
    Fault { name: "a bad function name", aims: 21, apply: |t, r| of(some_function(t, r)).bad(r, 1) },
    Fault { name: "a function twice", aims: 41, apply: |t, r| again(t, r, |_, _| ()) },
    Fault { name: "a function twice, its domain's other name", aims: 41, apply: |t, r| again(t, r, other_domain_name) },
    Fault { name: "a function twice, without the rest", aims: 41, apply: |t, r| again(t, r, only_identity) },
    Fault { name: "another overload below IR 10", aims: 41, apply: |t, r| !from_10(t) && again(t, r, other_overload) },
    Fault { name: "another overload from IR 10 on", aims: 0, apply: |t, r| from_10(t) && again(t, r, other_overload) },
    Fault { name: "no overload from IR 10 on", aims: 41, apply: |t, _| from_10(t) && no_overloads(t) },
    Fault { name: "an IR version below 10", aims: 41, apply: |t, r| from_10(t) && of(Some(t)).set(1, below_10(r)) },
    Fault { name: "a function of another domain", aims: 0, apply: |t, r| again(t, r, other_domain) },
    Fault { name: "a function's attribute without name", aims: 22, apply: |t, r| one_more(t, r, 6, b"") },
    Fault { name: "a function's bad attribute", aims: 21, apply: |t, r| of(some_function(t, r)).bad_one_more(r, 6) },
    Fault { name: "a function's attribute twice", aims: 42, apply: attribute_twice },
    Fault { name: "an attribute and a default of one name", aims: 42, apply: in_both },
    Fault { name: "a default twice", aims: 42, apply: default_twice },
    Fault { name: "a default without name", aims: 22, apply: |t, r| of(some_default(t, r)).empty(r, 1) },
    Fault { name: "a bad default name", aims: 21, apply: |t, r| of(some_default(t, r)).bad(r, 1) },
    Fault { name: "a default that is a reference", aims: 33, apply: default_reference },
    Fault { name: "a graph as a default", aims: 32, apply: |t, r| default_graph(t, r, 5, 6) },
    Fault { name: "graphs as a default", aims: 32, apply: |t, r| default_graph(t, r, 10, 11) },
    Fault { name: "a default's type at an edge", aims: 32, apply: |t, r| of(some_default(t, r)).edge(r, 20) },
    Fault { name: "a default of no type", aims: 32, apply: |t, r| of(some_default(t, r)).without(20) },
    Fault { name: "a function without imports", aims: 12, apply: |t, r| of(some_function(t, r)).without(9) },
    Fault { name: "a function imports twice", aims: 13, apply: |t, r| imports(t, r, header::import_twice) },
    Fault { name: "a function's version beside", aims: 14, apply: |t, r| imports(t, r, header::version_beside) },
    Fault { name: "a byte of a function's version", aims: 14, apply: |t, r| imports(t, r, header::version_byte) },
    Fault { name: "a function's import of no version", aims: 14, apply: |t, r| imports(t, r, header::no_version) },
    Fault { name: "a function's strange domain", aims: 14, apply: |t, r| imports(t, r, header::strange_domain) },
];

pub(super) fn some_function<'t>(tree: &'t mut Tree, rng: &mut Rng) -> Option<&'t mut Tree> {
    some_message(tree, rng, Message::Function)
}

/// Some function with a field `number`.
pub(super) fn some_function_with<'t>(tree: &'t mut Tree, rng: &mut Rng, number: u32) -> Option<&'t mut Tree> {
    tree.pick_mut(rng, &|tree| tree.message == Message::Function && tree.has(number))
}

/// Some default of some function, which has one from then on.
fn some_default<'t>(tree: &'t mut Tree, rng: &mut Rng) -> Option<&'t mut Tree> {
    let function = some_function(tree, rng)?;
    if !function.has(11) {
        function.push(11, Value::Tree(default_named(b"some_default")));
    }
    let at = rng.below(function.children(11).count());
    function.children_mut(11).nth(at)
}

fn default_named(name: &[u8]) -> Tree {
    Tree::new(Message::Attribute).text(1, name).number(20, 2)
}

fn one_more(tree: &mut Tree, rng: &mut Rng, number: u32, name: &[u8]) -> bool {
    let Some(function) = some_function(tree, rng) else {
        return false;
    };
    function.insert(rng, Item::new(number, Value::Bytes(name.to_vec())));
    true
}

fn imports(tree: &mut Tree, rng: &mut Rng, fault: fn(&mut Tree, &mut Rng, u32) -> bool) -> bool {
    some_function(tree, rng).is_some_and(|function| fault(function, rng, 9))
}

fn from_10(model: &Tree) -> bool {
    model.items.iter().any(|item| item.number == 1 && matches!(item.value, Value::Varint(10..)))
}

fn below_10(rng: &mut Rng) -> Value {
    Value::Varint(*rng.pick(&[4, 8, 9]))
}

/// One more function of the model, made from one that it has.
fn again(tree: &mut Tree, rng: &mut Rng, change: fn(&mut Tree, &mut Rng)) -> bool {
    let Some(mut twin) = some_function(tree, rng).map(|function| function.clone()) else {
        return false;
    };
    change(&mut twin, rng);
    let last = rng.chance(1, 2);
    if last {
        tree.push(25, Value::Tree(twin));
    } else {
        tree.insert(rng, Item::new(25, Value::Tree(twin)));
    }
    true
}

/// The default domain by its other name, or by none; other domains have one name.
fn other_domain_name(function: &mut Tree, rng: &mut Rng) {
    let domain = function.get_bytes(10).unwrap_or_default().to_vec();
    let default = domain.is_empty() || domain == b"ai.onnx";
    if default && rng.chance(1, 3) {
        function.remove(10);
    } else if default {
        function.set(10, Value::Bytes(alias(&domain)));
    }
}

fn only_identity(function: &mut Tree, _: &mut Rng) {
    function.items.retain(|item| matches!(item.number, 1 | 10 | 13));
}

fn other_overload(function: &mut Tree, rng: &mut Rng) {
    let mut overload = function.get_bytes(13).unwrap_or_default().to_vec();
    overload.extend(*rng.pick(&[b"new", b"\xff\xff\xff"]));
    function.set(13, Value::Bytes(overload));
}

fn other_domain(function: &mut Tree, rng: &mut Rng) {
    let mut domain = function.get_bytes(10).unwrap_or_default().to_vec();
    domain.extend(*rng.pick(&[b"new", b"\xff\xff\xff"]));
    function.set(10, Value::Bytes(domain));
}

fn no_overloads(model: &mut Tree) -> bool {
    model.children_mut(25).for_each(|function| function.remove(13));
    true
}

fn attribute_twice(tree: &mut Tree, rng: &mut Rng) -> bool {
    let Some(function) = some_function_with(tree, rng, 6) else {
        return false;
    };
    let name = rng.pick(&function.all_bytes(6)).clone();
    function.insert(rng, Item::new(6, Value::Bytes(name)));
    true
}

/// A default named as an attribute, or an attribute named as a default: either may come first on the wire.
fn in_both(tree: &mut Tree, rng: &mut Rng) -> bool {
    let Some(function) = some_function_with(tree, rng, 6) else {
        return false;
    };
    let attribute = rng.pick(&function.all_bytes(6)).clone();
    let default = function.children(11).find_map(|default| default.get_bytes(1)).map(<[u8]>::to_vec);
    let item = match default {
        Some(name) if rng.chance(1, 2) => Item::new(6, Value::Bytes(name)),
        _ => Item::new(11, Value::Tree(default_named(&attribute))),
    };
    function.insert(rng, item);
    true
}

fn default_twice(tree: &mut Tree, rng: &mut Rng) -> bool {
    let Some(function) = some_function_with(tree, rng, 11) else {
        return false;
    };
    let Some(mut twin) = function.children(11).last().cloned() else {
        return false;
    };
    if rng.chance(1, 2) {
        twin = default_named(twin.get_bytes(1).unwrap_or_default());
    }
    function.insert(rng, Item::new(11, Value::Tree(twin)));
    true
}

fn default_reference(tree: &mut Tree, rng: &mut Rng) -> bool {
    let Some(function) = some_function_with(tree, rng, 11) else {
        return false;
    };
    let mut names = function.all_bytes(6);
    names.push(b"none".to_vec());
    let name = rng.pick(&names).clone();
    of(function.children_mut(11).next()).set(21, Value::Bytes(name))
}

/// A default of a type of graphs, with a graph that would be refused by itself, one that would not, or none.
fn default_graph(tree: &mut Tree, rng: &mut Rng, kind: u64, carrier: u32) -> bool {
    let Some(function) = some_function(tree, rng) else {
        return false;
    };
    let mut default = Tree::new(Message::Attribute).text(1, b"a_graph").number(20, kind);
    let graph = Tree::new(Message::Graph);
    match rng.below(3) {
        0 => default = default.tree(carrier, graph.text(2, b"g")),
        1 => default = default.tree(carrier, graph),
        _ => {}
    }
    function.insert(rng, Item::new(11, Value::Tree(default)));
    true
}

#[cfg(test)]
mod tests;
