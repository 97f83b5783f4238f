//! Faults of padded varints: 9, what comes before it in the same field, and padding that nobody reads.

use super::wires::{any, nest, repeat, wrong_kind};
use super::{some_item, Fault};
use crate::models::proto::{put_varint, Item, Tree, Value};
use crate::models::wild;
use crate::rng::Rng;
use crate::schema::{row, Message};
use crate::wire::VARINT;

pub const FAULTS: &[Fault] = &[
    Fault { name: "a padded tag", aims: 9, apply: pad_tag },
    Fault { name: "a padded number", aims: 9, apply: |t, r| pad_value(t, r, is_number) },
    Fault { name: "a padded length", aims: 9, apply: |t, r| pad_value(t, r, Item::has_length) },
    Fault { name: "a padded unknown field", aims: 9, apply: pad_unknown },
    Fault { name: "a padded field, the model's last", aims: 9, apply: pad_last },
    Fault { name: "a padded tag and no value", aims: 9, apply: no_value },
    Fault { name: "a padded length that is too long", aims: 9, apply: too_long },
    Fault { name: "a padded tag that is bad", aims: 9, apply: bad_tag },
    Fault {
        name: "a padded tag of another wire type",
        aims: 9,
        apply: |t, r| wrong_kind(t, r, |item| item.tag_padding = 1),
    },
    Fault {
        name: "another wire type, its value padded",
        aims: 4,
        apply: |t, r| wrong_kind(t, r, |item| item.padding = 1),
    },
    Fault {
        name: "a single field twice, its tag padded",
        aims: 9,
        apply: |t, r| repeat(t, r, |item| item.tag_padding = 2),
    },
    Fault {
        name: "a single field twice, its value padded",
        aims: 5,
        apply: |t, r| repeat(t, r, |item| item.padding = 1),
    },
    Fault {
        name: "a graph at depth 9, its tag padded",
        aims: 9,
        apply: |t, r| nest(t, r, 8, |graph| graph.tag_padding = 3),
    },
    Fault {
        name: "a graph at depth 9, its length padded",
        aims: 9,
        apply: |t, r| nest(t, r, 8, |graph| graph.padding = 1),
    },
    Fault { name: "padding in bytes that nobody opens", aims: 0, apply: unopened },
];

/// Needless bytes, as many as a varint of one byte can have.
fn some(rng: &mut Rng) -> usize {
    1 + rng.below(9)
}

/// A number that has a longer form: one of ten bytes has none.
fn is_number(item: &Item) -> bool {
    matches!(item.value, Value::Varint(number) if number >> 63 == 0)
}

/// Pads a tag, number or length of some field, or of a new one that no row names.
pub fn pad(tree: &mut Tree, rng: &mut Rng) -> bool {
    match rng.below(4) {
        0 => pad_tag(tree, rng),
        1 => pad_value(tree, rng, is_number),
        2 => pad_value(tree, rng, Item::has_length),
        _ => pad_unknown(tree, rng),
    }
}

fn pad_tag(tree: &mut Tree, rng: &mut Rng) -> bool {
    let padding = some(rng);
    let item = some_item(tree, rng, &|_, item| !matches!(item.value, Value::Raw(_)));
    item.map(|item| item.tag_padding = padding).is_some()
}

fn pad_value(tree: &mut Tree, rng: &mut Rng, wanted: fn(&Item) -> bool) -> bool {
    let padding = some(rng);
    let item = some_item(tree, rng, &|_, item| wanted(item));
    item.map(|item| item.padding = padding).is_some()
}

fn pad_unknown(tree: &mut Tree, rng: &mut Rng) -> bool {
    let inside = any(tree, rng);
    let item = padded_unknown(rng, inside.message);
    inside.insert(rng, item);
    true
}

/// What else is wrong with the model stands before it.
fn pad_last(tree: &mut Tree, rng: &mut Rng) -> bool {
    let item = padded_unknown(rng, Message::Model);
    tree.items.push(item);
    true
}

fn padded_unknown(rng: &mut Rng, message: Message) -> Item {
    let mut item = wild::unknown(rng, message);
    // Four and eight bytes, and a number of ten, leave only the tag to pad.
    if rng.chance(1, 2) || !(is_number(&item) || item.has_length()) {
        item.tag_padding = some(rng);
    } else {
        item.padding = some(rng);
    }
    item
}

/// The last bytes of a message: 9 comes before the 1 of a value that is not there.
fn no_value(tree: &mut Tree, rng: &mut Rng) -> bool {
    let inside = any(tree, rng);
    let number = wild::unknown(rng, inside.message).number;
    inside.items.push(padded_tag(rng, u64::from(number) << 3 | u64::from(VARINT)));
    true
}

/// A tag of field 0, of a wire type that there is not, or above 2^32 - 1.
fn bad_tag(tree: &mut Tree, rng: &mut Rng) -> bool {
    let number = 1 + rng.below(30) as u64;
    let tag = *rng.pick(&[0, 2, number << 3 | 3, number << 3 | 7, 1 << 32 | number << 3, 1 << 62]);
    let item = padded_tag(rng, tag);
    any(tree, rng).insert(rng, item);
    true
}

fn padded_tag(rng: &mut Rng, tag: u64) -> Item {
    let mut bytes = Vec::new();
    put_varint(&mut bytes, tag, some(rng));
    Item::raw(bytes)
}

fn too_long(tree: &mut Tree, rng: &mut Rng) -> bool {
    let (padding, stretch) = (some(rng), *rng.pick(&[1, 2, 1 << 20, 1 << 31, 1 << 32, 1 << 62]));
    let item = some_item(tree, rng, &|_, item| item.has_length());
    item.map(|item| (item.padding, item.stretch) = (padding, stretch)).is_some()
}

/// Padded fields inside packed numbers, strings, contents of tensors and unknown fields: the walk passes over all of that.
fn unopened(tree: &mut Tree, rng: &mut Rng) -> bool {
    let mut bytes = Vec::new();
    for _ in 0..1 + rng.below(3) {
        put_varint(&mut bytes, 8, some(rng));
        put_varint(&mut bytes, 0, some(rng));
    }
    let free = |message: Message, item: &Item| match row(message, item.number) {
        // all carriers that hold bytes
        Some(_) => message == Message::Attribute && matches!(item.number, 4 | 7 | 8 | 9 | 14 | 15 | 22 | 23),
        None => true,
    };
    let item = some_item(tree, rng, &|message, item| matches!(item.value, Value::Bytes(_)) && free(message, item));
    item.map(|item| item.value = Value::Bytes(bytes)).is_some()
}
