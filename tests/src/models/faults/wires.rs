//! Faults of the first walk: 1 to 6.

use super::{some_domain, some_item, some_message, Fault};
use crate::models::proto::{put_varint, Item, Tree, Value};
use crate::models::wild;
use crate::rng::Rng;
use crate::schema::{row, rows, takes, Form, Message, Often};
use crate::wire::{BYTES, EIGHT, FOUR, VARINT};

pub const FAULTS: &[Fault] = &[
    Fault { name: "a tag cut by its message's end", aims: 1, apply: cut_tag },
    Fault { name: "a value cut by its message's end", aims: 1, apply: cut_value },
    Fault { name: "a length a little too long", aims: 1, apply: |t, r| stretch(t, r, false) },
    Fault { name: "a length of about 2^64", aims: 1, apply: |t, r| stretch(t, r, true) },
    Fault { name: "a tenth tag byte above 1", aims: 2, apply: long_tag },
    Fault { name: "a tenth value byte above 1", aims: 2, apply: |t, r| long_value(t, r, VARINT) },
    Fault { name: "a tenth length byte above 1", aims: 2, apply: |t, r| long_value(t, r, BYTES) },
    Fault { name: "field number 0", aims: 3, apply: field_zero },
    Fault { name: "wire type 3, 4, 6 or 7", aims: 3, apply: bad_kind },
    Fault { name: "a tag of 2^32 or more", aims: 3, apply: large_tag },
    Fault { name: "a named field of another wire type", aims: 4, apply: |t, r| wrong_kind(t, r, |_| ()) },
    Fault { name: "a wrong wire type with a cut value", aims: 4, apply: wrong_kind_cut },
    Fault { name: "a single field twice", aims: 5, apply: |t, r| repeat(t, r, |_| ()) },
    Fault { name: "a second member of a one of", aims: 5, apply: second_member },
    Fault { name: "a single field twice, its value cut", aims: 5, apply: repeat_cut },
    Fault { name: "graphs nested to 9 or more", aims: 6, apply: |t, r| nest(t, r, 8, |_| ()) },
    Fault {
        name: "graphs nested to about 8",
        aims: 6,
        apply: |t, r| {
            let k = 1 + r.below(8);
            nest(t, r, k, |_| ())
        },
    },
    Fault {
        name: "a graph at depth 9 of too great a length",
        aims: 1,
        apply: |t, r| nest(t, r, 8, |graph| graph.stretch = 1000),
    },
];

/// What is done to the field that a fault puts into a message, so that it has two.
pub(super) type Spoil = fn(&mut Item);

/// For tags in raw bytes: a few are padded, and 9 comes before or after the fault.
fn some_padding(rng: &mut Rng) -> usize {
    if rng.chance(1, 8) {
        rng.below(10)
    } else {
        0
    }
}

pub(super) fn any<'t>(tree: &'t mut Tree, rng: &mut Rng) -> &'t mut Tree {
    tree.pick_mut(rng, &|_| true).expect("a tree has itself")
}

fn cut_tag(tree: &mut Tree, rng: &mut Rng) -> bool {
    let count = 1 + rng.below(9);
    any(tree, rng).items.push(Item::raw(vec![0x80 | rng.word() as u8; count]));
    true
}

/// A tag, of a known field or not, and less than its value, at the end of a message.
fn cut_value(tree: &mut Tree, rng: &mut Rng) -> bool {
    let inside = any(tree, rng);
    let number = if rng.chance(1, 2) { rng.pick(rows(inside.message)).number } else { 1 + rng.below(99) as u32 };
    let kind = *rng.pick(&[VARINT, EIGHT, BYTES, FOUR]);
    let mut bytes = Vec::new();
    put_varint(&mut bytes, u64::from(number) << 3 | u64::from(kind), some_padding(rng));
    match kind {
        VARINT => bytes.extend(std::iter::repeat_n(0x80, rng.below(10))),
        BYTES => bytes.extend([[].as_slice(), &[0x80], &[1], &[5, 0, 0]][rng.below(4)]),
        EIGHT => bytes.extend(std::iter::repeat_n(0, rng.below(8))),
        _ => bytes.extend(std::iter::repeat_n(0, rng.below(4))),
    }
    inside.items.push(Item::raw(bytes));
    true
}

fn stretch(tree: &mut Tree, rng: &mut Rng, far: bool) -> bool {
    let Some(item) = some_item(tree, rng, &|_, item| item.has_length()) else {
        return false;
    };
    // A field in the middle may swallow its sisters; one that reaches past its message is refused.
    item.stretch = if far { u64::MAX - rng.below(200) as u64 } else { 1 + rng.below(6) as u64 };
    true
}

fn ten_bytes(rng: &mut Rng) -> Vec<u8> {
    let mut bytes: Vec<u8> = (0..9).map(|_| 0x80 | rng.word() as u8).collect();
    bytes.push(*rng.pick(&[0x02, 0x7f, 0x80, 0x81, 0xff]));
    bytes
}

fn long_tag(tree: &mut Tree, rng: &mut Rng) -> bool {
    let raw = Item::raw(ten_bytes(rng));
    any(tree, rng).insert(rng, raw);
    true
}

fn long_value(tree: &mut Tree, rng: &mut Rng, kind: u8) -> bool {
    let inside = any(tree, rng);
    let mut bytes = Vec::new();
    let unknown = wild::unknown(rng, inside.message).number;
    put_varint(&mut bytes, u64::from(unknown) << 3 | u64::from(kind), some_padding(rng));
    bytes.extend(ten_bytes(rng));
    inside.insert(rng, Item::raw(bytes));
    true
}

fn put_tag(tree: &mut Tree, rng: &mut Rng, tag: u64) -> bool {
    let mut bytes = Vec::new();
    put_varint(&mut bytes, tag, some_padding(rng));
    bytes.push(0);
    any(tree, rng).insert(rng, Item::raw(bytes));
    true
}

fn field_zero(tree: &mut Tree, rng: &mut Rng) -> bool {
    let kind = rng.below(8) as u64;
    put_tag(tree, rng, kind)
}

fn bad_kind(tree: &mut Tree, rng: &mut Rng) -> bool {
    let number = 1 + rng.below(30) as u64;
    let kind = *rng.pick(&[3, 4, 6, 7]);
    put_tag(tree, rng, number << 3 | kind)
}

fn large_tag(tree: &mut Tree, rng: &mut Rng) -> bool {
    let high = 1u64 << (32 + rng.below(32));
    let low = 8 * (1 + rng.below(30) as u64) + *rng.pick(&[0, 1, 2, 5]);
    put_tag(tree, rng, high | low)
}

/// A kind of wire type that this row does not take.
fn kind_against(rng: &mut Rng, form: Form) -> u8 {
    let kinds: Vec<u8> = [VARINT, EIGHT, BYTES, FOUR].into_iter().filter(|kind| !takes(form, *kind)).collect();
    *rng.pick(&kinds)
}

pub(super) fn wrong_kind(tree: &mut Tree, rng: &mut Rng, spoil: Spoil) -> bool {
    let inside = any(tree, rng);
    let row = *rng.pick(rows(inside.message));
    let value = match kind_against(rng, row.form) {
        VARINT => Value::Varint(1),
        EIGHT => Value::Eight([0; 8]),
        FOUR => Value::Four([0; 4]),
        _ => Value::Bytes(Vec::new()),
    };
    if rng.chance(1, 2) {
        inside.remove(row.number);
    }
    let mut item = Item::new(row.number, value);
    spoil(&mut item);
    inside.insert(rng, item);
    true
}

fn wrong_kind_cut(tree: &mut Tree, rng: &mut Rng) -> bool {
    let inside = any(tree, rng);
    let row = *rng.pick(rows(inside.message));
    let kind = kind_against(rng, row.form);
    let mut bytes = Vec::new();
    put_varint(&mut bytes, u64::from(row.number) << 3 | u64::from(kind), some_padding(rng));
    inside.items.push(Item::raw(bytes));
    true
}

/// The position of a field that may occur only once.
fn some_single(tree: &Tree, rng: &mut Rng) -> Option<usize> {
    let single = |item: &Item| row(tree.message, item.number).is_some_and(|row| row.often != Often::Many);
    let places: Vec<usize> = (0..tree.items.len()).filter(|&place| single(&tree.items[place])).collect();
    if places.is_empty() {
        None
    } else {
        Some(*rng.pick(&places))
    }
}

pub(super) fn repeat(tree: &mut Tree, rng: &mut Rng, spoil: Spoil) -> bool {
    let inside = any(tree, rng);
    let Some(place) = some_single(inside, rng) else {
        return false;
    };
    let mut twin = inside.items[place].clone();
    spoil(&mut twin);
    inside.insert(rng, twin);
    true
}

/// The tag of a single field once more, as the last bytes of its message: 5 comes before the value's 1.
fn repeat_cut(tree: &mut Tree, rng: &mut Rng) -> bool {
    let inside = any(tree, rng);
    let Some(place) = some_single(inside, rng) else {
        return false;
    };
    let kind = match inside.items[place].value {
        Value::Varint(_) => VARINT,
        Value::Four(_) => FOUR,
        Value::Eight(_) => EIGHT,
        _ => BYTES,
    };
    let mut bytes = Vec::new();
    put_varint(&mut bytes, u64::from(inside.items[place].number) << 3 | u64::from(kind), some_padding(rng));
    inside.items.push(Item::raw(bytes));
    true
}

fn second_member(tree: &mut Tree, rng: &mut Rng) -> bool {
    let chosen = *rng.pick(&[Message::Type, Message::Dimension]);
    let Some(inside) = some_message(tree, rng, chosen) else {
        return false;
    };
    let row = *rng.pick(rows(inside.message));
    let value = if row.form == Form::Varint { Value::Varint(3) } else { Value::Bytes(Vec::new()) };
    inside.insert(rng, Item::new(row.number, value));
    true
}

/// Graphs in graphs, `count` of them and the innermost spoiled, in an attribute of some node. From the main graph 7 are allowed.
pub(super) fn nest(tree: &mut Tree, rng: &mut Rng, count: usize, spoil: Spoil) -> bool {
    let domain = some_domain(tree);
    let Some(node) = some_message(tree, rng, Message::Node) else {
        return false;
    };
    let carrier = *rng.pick(&[6, 11]);
    let attribute = deep(domain, rng, count, spoil, carrier);
    node.insert(rng, Item::new(5, Value::Tree(attribute)));
    true
}

/// An attribute with so many graphs in each other, the innermost spoiled.
pub(super) fn deep(domain: Option<Vec<u8>>, rng: &mut Rng, count: usize, spoil: Spoil, carrier: u32) -> Tree {
    let mut graph = Tree::new(Message::Graph).text(2, b"g");
    if count > 1 {
        let inner_carrier = *rng.pick(&[6, 11]);
        let inner = deep(domain.clone(), rng, count - 1, spoil, inner_carrier);
        let node = super::plain_node(domain, None, b"").tree(5, inner);
        graph = graph.tree(1, node);
    }
    let mut item = Item::new(carrier, Value::Tree(graph));
    if count == 1 {
        spoil(&mut item);
    }
    let kind = if carrier == 6 { 5 } else { 10 };
    let mut attribute = Tree::new(Message::Attribute).text(1, b"deepest").number(20, kind);
    attribute.items.push(item);
    attribute
}
