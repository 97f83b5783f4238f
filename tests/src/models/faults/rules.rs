//! Faults of graphs, nodes, attributes and types, all but those of value names: 16, 20 to 22, 24 to 29, 31 to 34, 37, 38.

use super::{empty, node_count, nodes_of, some_main_info, some_main_tensor, some_message, some_node, some_part, Fault};
use crate::models::names::malformed;
use crate::models::proto::{Item, Tree, Value};
use crate::models::valid::good_type;
use crate::models::wild::EDGES;
use crate::rng::Rng;
use crate::schema::Message;

pub const FAULTS: &[Fault] = &[
    Fault { name: "sparse_initializer", aims: 16, apply: sparse },
    Fault { name: "a graph without name", aims: 20, apply: |t, r| of(some_message(t, r, Message::Graph)).empty(r, 2) },
    Fault { name: "a bad graph name", aims: 21, apply: |t, r| of(some_message(t, r, Message::Graph)).bad(r, 2) },
    Fault { name: "a bad input name", aims: 21, apply: |t, r| of(some_part(t, r, 11)).bad(r, 1) },
    Fault { name: "a bad initializer name", aims: 21, apply: |t, r| of(some_part(t, r, 5)).bad(r, 8) },
    Fault { name: "a bad op_type", aims: 21, apply: |t, r| of(some_node(t, r)).bad(r, 4) },
    Fault { name: "a bad node name", aims: 21, apply: |t, r| of(some_node(t, r)).bad(r, 3) },
    Fault { name: "a bad node input", aims: 21, apply: |t, r| of(some_node(t, r)).bad_one_more(r, 1) },
    Fault { name: "a bad node output", aims: 21, apply: |t, r| of(some_node(t, r)).bad_one_more(r, 2) },
    Fault {
        name: "a bad attribute name",
        aims: 21,
        apply: |t, r| of(some_message(t, r, Message::Attribute)).bad(r, 1),
    },
    Fault { name: "a bad graph output name", aims: 21, apply: |t, r| of(some_part(t, r, 12)).bad(r, 1) },
    Fault { name: "a bad dim_param", aims: 21, apply: bad_dim_param },
    Fault { name: "an input without name", aims: 22, apply: |t, r| of(some_part(t, r, 11)).empty(r, 1) },
    Fault { name: "an initializer without name", aims: 22, apply: |t, r| of(some_part(t, r, 5)).empty(r, 8) },
    Fault { name: "an output without name", aims: 22, apply: |t, r| of(some_part(t, r, 12)).empty(r, 1) },
    Fault {
        name: "an attribute without name",
        aims: 22,
        apply: |t, r| of(some_message(t, r, Message::Attribute)).empty(r, 1),
    },
    Fault { name: "no type", aims: 24, apply: |t, r| of(some_main_info(t, r)).without(2) },
    Fault { name: "a type without tensor", aims: 24, apply: no_tensor },
    Fault { name: "elem_type at an edge", aims: 25, apply: |t, r| of(some_main_tensor(t, r)).edge(r, 1) },
    Fault { name: "no elem_type", aims: 25, apply: |t, r| of(some_main_tensor(t, r)).without(1) },
    Fault { name: "data_type at an edge", aims: 26, apply: |t, r| of(some_part(t, r, 5)).edge(r, 2) },
    Fault { name: "no data_type", aims: 26, apply: |t, r| of(some_part(t, r, 5)).without(2) },
    Fault { name: "no op_type", aims: 27, apply: |t, r| of(some_node(t, r)).empty(r, 4) },
    Fault { name: "a domain not imported", aims: 28, apply: strange_domain },
    Fault { name: "a node name twice", aims: 29, apply: node_name_twice },
    Fault { name: "an attribute name twice", aims: 31, apply: attribute_twice },
    Fault {
        name: "attribute type at an edge",
        aims: 32,
        apply: |t, r| of(some_message(t, r, Message::Attribute)).edge(r, 20),
    },
    Fault { name: "no attribute type", aims: 32, apply: |t, r| of(some_message(t, r, Message::Attribute)).without(20) },
    Fault { name: "another carrier", aims: 32, apply: another_carrier },
    Fault { name: "no carrier", aims: 32, apply: no_carrier },
    Fault { name: "ref_attr_name", aims: 33, apply: reference },
    Fault { name: "a node without outputs", aims: 34, apply: |t, r| of(some_node(t, r)).without(2) },
    Fault { name: "no shape", aims: 37, apply: |t, r| of(some_main_tensor(t, r)).without(2) },
    Fault { name: "a negative dim_value", aims: 38, apply: negative_dim },
];

/// A part of the model that a fault falls on, if there is one.
pub(super) struct Part<'t>(Option<&'t mut Tree>);

pub(super) fn of(tree: Option<&mut Tree>) -> Part<'_> {
    Part(tree)
}

impl Part<'_> {
    pub(super) fn empty(self, rng: &mut Rng, number: u32) -> bool {
        self.0.is_some_and(|tree| empty(tree, rng, number))
    }

    pub(super) fn bad(self, rng: &mut Rng, number: u32) -> bool {
        self.set(number, Value::Bytes(malformed(rng)))
    }

    pub(super) fn bad_one_more(self, rng: &mut Rng, number: u32) -> bool {
        let Some(tree) = self.0 else {
            return false;
        };
        let name = malformed(rng);
        tree.insert(rng, Item::new(number, Value::Bytes(name)));
        true
    }

    pub(super) fn edge(self, rng: &mut Rng, number: u32) -> bool {
        self.set(number, Value::Varint(*rng.pick(&EDGES)))
    }

    pub(super) fn set(self, number: u32, value: Value) -> bool {
        self.0.is_some_and(|tree| {
            tree.set(number, value);
            true
        })
    }

    pub(super) fn without(self, number: u32) -> bool {
        self.0.is_some_and(|tree| {
            tree.remove(number);
            true
        })
    }
}

fn sparse(tree: &mut Tree, rng: &mut Rng) -> bool {
    let Some(graph) = some_message(tree, rng, Message::Graph) else {
        return false;
    };
    for _ in 0..1 + rng.below(2) {
        graph.insert(rng, Item::new(15, Value::Bytes(Vec::new())));
    }
    true
}

/// The shape of some judged input or output gets one more dim.
fn add_dim(tree: &mut Tree, rng: &mut Rng, dim: Tree) -> bool {
    let Some(info) = some_main_info(tree, rng) else {
        return false;
    };
    if !info.has(2) {
        info.push(2, Value::Tree(good_type(rng)));
    }
    let tensor = info.children_mut(2).next().and_then(|kind| kind.children_mut(1).next());
    let Some(shape) = tensor.and_then(|tensor| tensor.children_mut(2).next()) else {
        return false;
    };
    shape.insert(rng, Item::new(1, Value::Tree(dim)));
    true
}

fn bad_dim_param(tree: &mut Tree, rng: &mut Rng) -> bool {
    // One that is present and empty is refused too.
    let name = if rng.chance(1, 3) { Vec::new() } else { malformed(rng) };
    add_dim(tree, rng, Tree::new(Message::Dimension).text(2, name))
}

fn negative_dim(tree: &mut Tree, rng: &mut Rng) -> bool {
    let value = *rng.pick(&[u64::MAX, 1 << 63, u64::MAX - 4]);
    add_dim(tree, rng, Tree::new(Message::Dimension).number(1, value))
}

fn no_tensor(tree: &mut Tree, rng: &mut Rng) -> bool {
    let Some(kind) = some_main_info(tree, rng).and_then(|info| info.children_mut(2).next()) else {
        return false;
    };
    kind.remove(1);
    if rng.chance(2, 3) {
        let member = *rng.pick(&[4, 5, 7, 8, 9]);
        kind.push(member, Value::Bytes(Vec::new()));
    }
    true
}

fn strange_domain(tree: &mut Tree, rng: &mut Rng) -> bool {
    let domain: &[u8] = rng.pick::<&[u8]>(&[b"", b"ai.onnx", b"ai.onnx2", b"ai", b"com.x", b"com.xyz", b"nobody"]);
    let remove = rng.chance(1, 4);
    let Some(node) = some_node(tree, rng) else {
        return false;
    };
    if remove {
        node.remove(7);
    } else {
        node.set(7, Value::Bytes(domain.to_vec()));
    }
    true
}

/// Two nodes bear one name: of one graph or function, which is refused, or of one and a body in it, which passes.
fn node_name_twice(tree: &mut Tree, rng: &mut Rng) -> bool {
    let apart = rng.chance(1, 4);
    let Some(holder) = tree.pick_mut(rng, &|tree| node_count(tree) >= 2) else {
        return false;
    };
    let Some(number) = nodes_of(holder) else {
        return false;
    };
    if apart {
        holder.children_mut(number).for_each(|node| node.remove(3));
        holder.children_mut(number).take(1).for_each(|node| node.push(3, Value::Bytes(b"same".to_vec())));
        let inner = some_message(holder, rng, Message::Node);
        return of(inner).set(3, Value::Bytes(b"same".to_vec()));
    }
    holder.children_mut(number).for_each(|node| node.set(3, Value::Bytes(b"same".to_vec())));
    true
}

fn attribute_twice(tree: &mut Tree, rng: &mut Rng) -> bool {
    let Some(node) = tree.pick_mut(rng, &|tree| tree.message == Message::Node && tree.has(5)) else {
        return false;
    };
    let Some(name) = node.children(5).next().and_then(|attribute| attribute.get_bytes(1)) else {
        return false;
    };
    let twin = Tree::new(Message::Attribute).text(1, name).number(20, 7);
    node.insert(rng, Item::new(5, Value::Tree(twin)));
    true
}

/// A field of some carrier's number, empty where it can be: any such field counts.
fn another_carrier(tree: &mut Tree, rng: &mut Rng) -> bool {
    let Some(attribute) = some_message(tree, rng, Message::Attribute) else {
        return false;
    };
    let number = *rng.pick(&[2, 3, 4, 5, 6, 7, 8, 9, 10, 11, 14, 15, 22, 23]);
    if attribute.has(number) {
        return false;
    }
    let value = match number {
        2 => Value::Four([0; 4]),
        3 => Value::Varint(0),
        5 | 10 => Value::Tree(Tree::new(Message::Tensor)),
        6 | 11 => Value::Tree(Tree::new(Message::Graph)),
        _ => Value::Bytes(Vec::new()),
    };
    attribute.insert(rng, Item::new(number, value));
    true
}

fn no_carrier(tree: &mut Tree, rng: &mut Rng) -> bool {
    let Some(attribute) = some_message(tree, rng, Message::Attribute) else {
        return false;
    };
    for number in [2, 3, 4, 5, 6, 7, 8, 9, 10, 11, 14, 15, 22, 23] {
        attribute.remove(number);
    }
    let kind = 1 + rng.below(14) as u64;
    attribute.set(20, Value::Varint(kind));
    true
}

fn reference(tree: &mut Tree, rng: &mut Rng) -> bool {
    let name: &[u8] = rng.pick::<&[u8]>(&[b"a", b"not an identifier", b"\x00", b"\xff"]);
    of(some_message(tree, rng, Message::Attribute)).set(21, Value::Bytes(name.to_vec()))
}
