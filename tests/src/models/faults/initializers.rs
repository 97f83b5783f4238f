//! Faults of initializers by IR version: 43 at version 3, and 23 of defaults that may not be, or not again.

use super::names::{body_mut, holds_body, names_of, tensor};
use super::{some_message, Fault};
use crate::models::names::some_name;
use crate::models::proto::{Tree, Value};
use crate::rng::Rng;
use crate::schema::Message;

pub const FAULTS: &[Fault] = &[
    Fault { name: "version 3 in place of a later one", aims: 43, apply: |t, _| !is_3(t) && set(t, 3) },
    Fault { name: "a later version in place of 3", aims: 23, apply: |t, r| is_3(t) && set(t, later(r)) },
    Fault { name: "an initializer of some name, IR 3", aims: 43, apply: |t, r| is_3(t) && of_some_name(t, r) },
    Fault { name: "an initializer of a near name, IR 3", aims: 43, apply: |t, r| is_3(t) && of_a_near_name(t, r) },
    Fault { name: "a default whose input is gone, IR 3", aims: 43, apply: |t, r| is_3(t) && without_input(t, r) },
    Fault {
        name: "an initializer of its own graph's output, IR 3",
        aims: 43,
        apply: |t, r| is_3(t) && of_an_output(t, r),
    },
    Fault {
        name: "a body's initializer of an outer input, IR 3",
        aims: 43,
        apply: |t, r| is_3(t) && of_an_outer_input(t, r),
    },
    Fault { name: "the same, a later version", aims: 23, apply: |t, r| !is_3(t) && of_an_outer_input(t, r) },
    Fault { name: "an initializer of a sibling's input, IR 3", aims: 43, apply: |t, r| is_3(t) && of_a_sibling(t, r) },
    Fault { name: "a body's default, IR 3", aims: 0, apply: |t, r| is_3(t) && defaults(t, r, false, 1) },
    Fault { name: "a body's default twice, IR 3", aims: 23, apply: |t, r| is_3(t) && defaults(t, r, false, 2) },
    Fault { name: "a body's default again, IR 3", aims: 23, apply: |t, r| is_3(t) && defaults(t, r, true, 1) },
    Fault { name: "a body's default, a later version", aims: 23, apply: |t, r| !is_3(t) && defaults(t, r, false, 1) },
];

fn is_3(model: &Tree) -> bool {
    model.items.iter().any(|item| item.number == 1 && matches!(item.value, Value::Varint(3)))
}

fn set(model: &mut Tree, version: u64) -> bool {
    model.set(1, Value::Varint(version));
    true
}

fn later(rng: &mut Rng) -> u64 {
    4 + rng.below(8) as u64
}

/// One more initializer, at times without the rest of what it needs.
fn add(graph: Option<&mut Tree>, rng: &mut Rng, name: &[u8]) -> bool {
    let Some(graph) = graph else {
        return false;
    };
    let data_type = if rng.chance(1, 4) { 0 } else { 1 };
    graph.insert(rng, tensor(name, data_type));
    true
}

fn inputs_of(graph: &Tree) -> Vec<Vec<u8>> {
    graph.children(11).filter_map(|input| input.get_bytes(1)).map(<[u8]>::to_vec).collect()
}

fn of_some_name(tree: &mut Tree, rng: &mut Rng) -> bool {
    let name = some_name(rng);
    add(some_message(tree, rng, Message::Graph), rng, &name)
}

/// A byte longer or shorter than an input's.
fn of_a_near_name(tree: &mut Tree, rng: &mut Rng) -> bool {
    let Some(graph) = tree.pick_mut(rng, &|tree| tree.message == Message::Graph && tree.has(11)) else {
        return false;
    };
    let mut name = rng.pick(&inputs_of(graph)).clone();
    if rng.chance(1, 2) && name.len() > 1 && name.is_ascii() {
        name.pop();
    } else {
        name.push(b'1');
    }
    add(Some(graph), rng, &name)
}

/// The input of some default is taken away.
fn without_input(tree: &mut Tree, rng: &mut Rng) -> bool {
    let wanted = |tree: &Tree| tree.message == Message::Graph && tree.has(5);
    let Some(graph) = tree.pick_mut(rng, &wanted) else {
        return false;
    };
    let Some(name) = graph.children(5).next().and_then(|tensor| tensor.get_bytes(8)).map(<[u8]>::to_vec) else {
        return false;
    };
    let is_it = |value: &Value| matches!(value, Value::Tree(input) if input.get_bytes(1) == Some(&name[..]));
    graph.items.retain(|item| item.number != 11 || !is_it(&item.value));
    true
}

/// The name of something in the graph that is no input of it.
fn of_an_output(tree: &mut Tree, rng: &mut Rng) -> bool {
    let wanted = |tree: &Tree| tree.message == Message::Graph && tree.has(1);
    let Some(graph) = tree.pick_mut(rng, &wanted) else {
        return false;
    };
    let inputs = inputs_of(graph);
    let others: Vec<Vec<u8>> = names_of(graph).into_iter().filter(|name| !inputs.contains(name)).collect();
    if others.is_empty() {
        return false;
    }
    let name = rng.pick(&others);
    add(Some(graph), rng, name)
}

/// A body gets an initializer with the name of an input of a graph around it.
fn of_an_outer_input(tree: &mut Tree, rng: &mut Rng) -> bool {
    let wanted = |tree: &Tree| tree.message == Message::Graph && tree.has(11) && tree.children(1).any(holds_body);
    let Some(graph) = tree.pick_mut(rng, &wanted) else {
        return false;
    };
    let name = rng.pick(&inputs_of(graph)).clone();
    let body = graph.pick_mut(rng, &holds_body).and_then(|node| body_mut(node, rng));
    add(body, rng, &name)
}

fn bodies(node: &Tree) -> impl Iterator<Item = &Tree> {
    node.children(5).flat_map(|attribute| attribute.children(6).chain(attribute.children(11)))
}

/// One body of a node gets an initializer with the name of another body's input.
fn of_a_sibling(tree: &mut Tree, rng: &mut Rng) -> bool {
    let wanted = |tree: &Tree| {
        tree.message == Message::Node && bodies(tree).count() > 1 && bodies(tree).any(|body| body.has(11))
    };
    let Some(node) = tree.pick_mut(rng, &wanted) else {
        return false;
    };
    let names: Vec<Vec<u8>> = bodies(node).flat_map(inputs_of).collect();
    let name = rng.pick(&names).clone();
    add(body_mut(node, rng), rng, &name)
}

/// So many more defaults for an input of some body, which has one already or none.
fn defaults(tree: &mut Tree, rng: &mut Rng, has_one: bool, more: usize) -> bool {
    let Some(body) = tree.pick_mut(rng, &holds_body).and_then(|node| body_mut(node, rng)) else {
        return false;
    };
    let given: Vec<Vec<u8>> = body.children(5).filter_map(|held| held.get_bytes(8)).map(<[u8]>::to_vec).collect();
    let names: Vec<Vec<u8>> = inputs_of(body).into_iter().filter(|name| given.contains(name) == has_one).collect();
    if names.is_empty() {
        return false;
    }
    let name = rng.pick(&names).clone();
    (0..more).for_each(|_| body.insert(rng, tensor(&name, 1)));
    true
}

#[cfg(test)]
mod tests {
    use crate::checker::{check, Verdict};
    use crate::models;
    use crate::wire::{fields, Field, BYTES};

    /// The depth of the innermost graph around a place, 0 in a function.
    fn depth_of(model: &[u8], place: usize) -> usize {
        let whole = Field { place: 0, number: 0, kind: BYTES, value: 0, start: 0, end: model.len() };
        let inside = |field: Field, numbers: &[u32]| {
            let around = |inner: &Field| numbers.contains(&inner.number) && (inner.start..inner.end).contains(&place);
            fields(model, field.start, field.end).find(around)
        };
        let mut graph = inside(whole, &[7]);
        let mut depth = 0;
        while let Some(found) = graph {
            depth += 1;
            let attribute = inside(found, &[1]).and_then(|node| inside(node, &[5]));
            graph = attribute.and_then(|attribute| inside(attribute, &[6, 11]));
        }
        depth
    }

    /// 43 is met in the main graph and in bodies, and so are both answers for an initializer's name that is visible.
    #[test]
    fn depths() {
        let (mut of_43, mut of_23) = ([0; 9], [0; 9]);
        for number in 0..40_000 {
            let case = models::case(5, number);
            match check(&case.model, &case.list, usize::MAX) {
                Verdict::Refused { number: 43, place, .. } => of_43[depth_of(&case.model, place as usize)] += 1,
                Verdict::Refused { number: 23, place, .. } if case.model[place as usize] == 0x42 => {
                    of_23[depth_of(&case.model, place as usize)] += 1;
                }
                _ => {}
            }
        }
        assert!(of_43[1..5].iter().chain(&of_23[1..4]).all(|count| *count > 20), "{of_43:?} {of_23:?}");
    }
}
