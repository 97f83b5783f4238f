//! Values of attributes, and types.

use crate::models::names::some_name;
use crate::models::proto::{Item, Tree, Value};
use crate::models::wild;
use crate::rng::Rng;
use crate::schema::Message;

/// The carrier of every attribute type that holds no graph.
pub(super) fn with_plain_value(rng: &mut Rng, mut attribute: Tree, kind: usize) -> Tree {
    let some = rng.below(3);
    match kind {
        1 if some > 0 => attribute.push(2, Value::Four([0, 0, 128, 63])),
        2 if some > 0 => attribute.push(3, Value::Varint(rng.word())),
        3 if some > 0 => attribute.push(4, Value::Bytes(b"free bytes \xff".to_vec())),
        4 => attribute.push(5, Value::Tree(wild::tree(rng, Message::Tensor, 2))),
        11 => attribute.push(22, Value::Bytes(rng.bytes(some))),
        13 => attribute.push(14, Value::Bytes(rng.bytes(some))),
        _ => (0..some).for_each(|_| attribute.items.extend(list_element(rng, kind))),
    }
    attribute
}

/// One field of a list type; floats and ints come one by one or packed, and a packed length is not looked into.
fn list_element(rng: &mut Rng, kind: usize) -> Option<Item> {
    let packed = rng.chance(1, 3);
    let count = rng.below(9);
    let (number, value) = match kind {
        6 if packed => (7, Value::Bytes(rng.bytes(count))),
        6 => (7, Value::Four([1, 2, 3, 4])),
        7 if packed => (8, Value::Bytes(rng.bytes(count))),
        7 => (8, Value::Varint(rng.word() >> rng.below(64))),
        8 => (9, Value::Bytes(rng.bytes(count))),
        9 => (10, Value::Tree(wild::tree(rng, Message::Tensor, 2))),
        12 => (23, Value::Bytes(rng.bytes(count))),
        14 => (15, Value::Bytes(rng.bytes(count))),
        _ => return None,
    };
    Some(Item::new(number, value))
}

/// The variables of a type.
pub(super) fn dim_params(kind: &Tree) -> Vec<Vec<u8>> {
    let shapes = kind.children(1).flat_map(|tensor| tensor.children(2));
    shapes.flat_map(|shape| shape.children(1)).flat_map(|dim| dim.all_bytes(2)).collect()
}

/// A type that the main graph's inputs and outputs may have.
pub fn good_type(rng: &mut Rng) -> Tree {
    let mut shape = Tree::new(Message::Shape);
    for _ in 0..rng.below(4) {
        let dim = Tree::new(Message::Dimension);
        shape = shape.tree(
            1,
            match rng.below(4) {
                0 => dim,
                1 => dim.number(1, rng.word() >> (1 + rng.below(63))),
                2 => dim.number(1, 0),
                _ => dim.text(2, some_name(rng)),
            },
        );
    }
    let tensor = Tree::new(Message::TypeTensor).number(1, 1 + rng.below(23) as u64).tree(2, shape);
    let kind = Tree::new(Message::Type).tree(1, tensor);
    // The denotation, field 6, is no member of the "one of" and may repeat.
    (0..rng.below(3)).fold(kind, |kind, _| kind.text(6, b"DATA_BATCH"))
}
