//! Faults of the header, 10 to 14; those of imports fall on functions too.

use super::Fault;
use crate::models::lists::{alias, one_in_a_byte};
use crate::models::proto::{Item, Tree, Value};
use crate::models::wild::EDGES;
use crate::rng::Rng;
use crate::schema::Message;

pub const FAULTS: &[Fault] = &[
    Fault {
        name: "ir_version 2 or 12",
        aims: 10,
        apply: |t, r| {
            let v = *r.pick(&[2, 12]);
            set(t, 1, v)
        },
    },
    Fault {
        name: "ir_version 3 or 11 in its low bits",
        aims: 10,
        apply: |t, r| {
            let v = *r.pick(&[3, 11]) + (1 << *r.pick(&[4, 7, 8, 31, 32, 63]));
            set(t, 1, v)
        },
    },
    Fault {
        name: "an edge as ir_version",
        aims: 10,
        apply: |t, r| {
            let v = *r.pick(&EDGES);
            set(t, 1, v)
        },
    },
    Fault { name: "no ir_version", aims: 10, apply: |t, _| remove(t, 1) },
    Fault { name: "no graph", aims: 11, apply: |t, _| remove(t, 7) },
    Fault { name: "no import", aims: 12, apply: |t, _| remove(t, 8) },
    Fault { name: "a domain imported twice", aims: 13, apply: |t, r| import_twice(t, r, 8) },
    Fault { name: "a version next to the list's", aims: 14, apply: |t, r| version_beside(t, r, 8) },
    Fault { name: "a version of which one byte is another", aims: 14, apply: |t, r| version_byte(t, r, 8) },
    Fault { name: "an edge as version", aims: 14, apply: |t, r| version_edge(t, r, 8) },
    Fault { name: "no version", aims: 14, apply: |t, r| no_version(t, r, 8) },
    Fault { name: "a domain that the list lacks", aims: 14, apply: |t, r| strange_domain(t, r, 8) },
];

fn set(tree: &mut Tree, number: u32, value: u64) -> bool {
    tree.set(number, Value::Varint(value));
    true
}

fn remove(tree: &mut Tree, number: u32) -> bool {
    tree.remove(number);
    true
}

/// Some import in the field `number` of the model or of a function.
fn some_import<'t>(tree: &'t mut Tree, rng: &mut Rng, number: u32) -> Option<&'t mut Tree> {
    let count = tree.children(number).count();
    let at = rng.below(count);
    tree.children_mut(number).nth(at)
}

/// Once more the same domain, as it is or by the default domain's other name.
pub(super) fn import_twice(tree: &mut Tree, rng: &mut Rng, number: u32) -> bool {
    let Some(import) = some_import(tree, rng, number) else {
        return false;
    };
    let mut twin = import.clone();
    if rng.chance(1, 2) {
        let other = alias(twin.get_bytes(1).unwrap_or_default());
        twin.set(1, Value::Bytes(other));
    }
    if rng.chance(1, 4) {
        twin.set(2, Value::Varint(0));
    }
    tree.insert(rng, Item::new(number, Value::Tree(twin)));
    true
}

pub(super) fn version_beside(tree: &mut Tree, rng: &mut Rng, number: u32) -> bool {
    let step = *rng.pick(&[1, 30, u64::MAX, 1 << 32]);
    step_version(tree, rng, number, step)
}

pub(super) fn version_byte(tree: &mut Tree, rng: &mut Rng, number: u32) -> bool {
    let step = u64::from(one_in_a_byte(rng));
    let step = if rng.chance(1, 2) { step } else { step.wrapping_neg() };
    step_version(tree, rng, number, step)
}

fn step_version(tree: &mut Tree, rng: &mut Rng, number: u32, step: u64) -> bool {
    let Some(import) = some_import(tree, rng, number) else {
        return false;
    };
    for item in &mut import.items {
        if let (2, Value::Varint(version)) = (item.number, &mut item.value) {
            *version = version.wrapping_add(step);
        }
    }
    true
}

fn version_edge(tree: &mut Tree, rng: &mut Rng, number: u32) -> bool {
    let edge = *rng.pick(&EDGES);
    some_import(tree, rng, number).is_some_and(|import| set(import, 2, edge))
}

pub(super) fn no_version(tree: &mut Tree, rng: &mut Rng, number: u32) -> bool {
    some_import(tree, rng, number).is_some_and(|import| remove(import, 2))
}

pub(super) fn strange_domain(tree: &mut Tree, rng: &mut Rng, number: u32) -> bool {
    let domain: &[u8] = rng.pick::<&[u8]>(&[b"ai", b"ai.onnx2", b"ai.onnxx", b"\x00", b"com"]);
    let import = Tree::new(Message::OperatorSetId).text(1, domain).number(2, 7);
    tree.insert(rng, Item::new(number, Value::Tree(import)));
    true
}
