//! Trees that keep the rows of document 01 and no rule of its second walk, and fields that no row names.

use super::names::{malformed, some_name};
use super::proto::{Item, Tree, Value};
use crate::rng::Rng;
use crate::schema::{row, rows, Form, Message, Often};

/// Numbers at the edges of what a rule asks.
pub const EDGES: [u64; 18] =
    [0, 1, 2, 3, 4, 5, 10, 11, 12, 14, 15, 23, 24, 1 << 32, (1 << 32) + 1, 1 << 63, u64::MAX, u64::MAX - (1 << 32) + 2];

/// A message with fields of its rows, `depth` messages deep at most.
pub fn tree(rng: &mut Rng, message: Message, depth: usize) -> Tree {
    let mut tree = Tree::new(message);
    let mut one_of_taken = false;
    for row in rows(message) {
        let count = match row.often {
            Often::Once => usize::from(rng.chance(3, 5)),
            Often::Many => rng.below(3),
            Often::OneOf => usize::from(!one_of_taken && rng.chance(1, 3)),
        };
        one_of_taken |= row.often == Often::OneOf && count > 0;
        for _ in 0..count {
            if let Some(value) = value(rng, row.form, depth) {
                tree.push(row.number, value);
            }
        }
    }
    tree
}

fn value(rng: &mut Rng, form: Form, depth: usize) -> Option<Value> {
    Some(match form {
        Form::Varint | Form::PackableVarint => Value::Varint(*rng.pick(&EDGES)),
        Form::Four | Form::PackableFour => Value::Four([1, 2, 3, 4]),
        Form::Bytes => Value::Bytes(match rng.below(8) {
            0 | 1 => Vec::new(),
            2 => malformed(rng),
            _ => some_name(rng),
        }),
        Form::Open(inner) if depth > 0 => Value::Tree(tree(rng, inner, depth - 1)),
        Form::Open(_) => return None,
    })
}

/// A field that no row of `message` names.
pub fn unknown(rng: &mut Rng, message: Message) -> Item {
    let number = loop {
        let number = match rng.below(4) {
            0 => 1 + rng.below((1 << 29) - 1) as u32,
            1 => (1 << 29) - 1,
            _ => 1 + rng.below(40) as u32,
        };
        if row(message, number).is_none() {
            break number;
        }
    };
    let value = match rng.below(4) {
        0 => Value::Varint(rng.word() >> rng.below(64)),
        1 => Value::Four([0xff; 4]),
        2 => Value::Eight([0x0a; 8]),
        _ => {
            let count = rng.below(6);
            Value::Bytes(rng.bytes(count))
        }
    };
    Item::new(number, value)
}

/// An unknown field of the model whose bytes spell a name or a domain, for the model's start: `src/aimed/starts.rs` says why.
pub fn like_a_name(rng: &mut Rng) -> Item {
    let rest = if rng.chance(1, 4) { *b"i.onnx.m" } else { [(); 8].map(|()| *rng.pick(b"w1_9Z")) };
    // field 12 with wire type 1 is the letter `a`
    Item::new(12, Value::Eight(rest))
}

/// Puts unknown fields into some messages of the tree, the same one twice at times: an unknown field may repeat.
pub fn sprinkle(tree: &mut Tree, rng: &mut Rng) {
    for item in &mut tree.items {
        if let Value::Tree(inner) = &mut item.value {
            sprinkle(inner, rng);
        }
    }
    if rng.chance(1, 8) {
        let item = unknown(rng, tree.message);
        if rng.chance(1, 2) {
            tree.insert(rng, item.clone());
        }
        tree.insert(rng, item);
    }
}
