//! A tree of messages that encodes itself: the builder for generated models.
//! A tree may be unsound on purpose: raw bytes between fields, padded varints, lengths that lie.

use crate::rng::Rng;
use crate::schema::Message;
use crate::wire::{BYTES, EIGHT, FOUR, VARINT};

#[derive(Clone, Debug)]
pub enum Value {
    Varint(u64),
    Four([u8; 4]),
    Eight([u8; 8]),
    Bytes(Vec<u8>),
    Tree(Tree),
    /// Bytes that stand in place of a whole field, tag included.
    Raw(Vec<u8>),
}

#[derive(Clone, Debug)]
pub struct Item {
    pub number: u32,
    pub value: Value,
    /// Needless bytes at the end of the tag's varint and of the value's or length's.
    pub tag_padding: usize,
    pub padding: usize,
    /// Added to the length that is written, so that it lies.
    pub stretch: u64,
}

#[derive(Clone, Debug)]
pub struct Tree {
    pub message: Message,
    pub items: Vec<Item>,
}

/// Appends a varint with up to `padding` needless bytes, ten bytes at most in all.
pub fn put_varint(out: &mut Vec<u8>, value: u64, padding: usize) {
    let mut shortest = 1;
    while shortest < 10 && value >> (7 * shortest) != 0 {
        shortest += 1;
    }
    let count = (shortest + padding).min(10);
    for place in 0..count {
        let low = (value >> (7 * place)) as u8 & 0x7f;
        let more = if place + 1 < count { 0x80 } else { 0 };
        out.push(low | more);
    }
}

impl Item {
    pub fn new(number: u32, value: Value) -> Item {
        Item { number, value, tag_padding: 0, padding: 0, stretch: 0 }
    }

    pub fn raw(bytes: Vec<u8>) -> Item {
        Item::new(0, Value::Raw(bytes))
    }

    pub fn has_length(&self) -> bool {
        matches!(self.value, Value::Bytes(_) | Value::Tree(_))
    }

    /// In bytes, tag included.
    pub fn length(&self) -> usize {
        let mut bytes = Vec::new();
        self.encode(&mut bytes);
        bytes.len()
    }

    fn encode(&self, out: &mut Vec<u8>) {
        let tag = |out: &mut Vec<u8>, kind: u8| {
            put_varint(out, u64::from(self.number) << 3 | u64::from(kind), self.tag_padding);
        };
        match &self.value {
            Value::Raw(bytes) => out.extend_from_slice(bytes),
            Value::Varint(number) => {
                tag(out, VARINT);
                put_varint(out, *number, self.padding);
            }
            Value::Four(bytes) => {
                tag(out, FOUR);
                out.extend_from_slice(bytes);
            }
            Value::Eight(bytes) => {
                tag(out, EIGHT);
                out.extend_from_slice(bytes);
            }
            Value::Bytes(bytes) => {
                tag(out, BYTES);
                self.put_long(out, bytes);
            }
            Value::Tree(tree) => {
                tag(out, BYTES);
                self.put_long(out, &tree.encode());
            }
        }
    }

    fn put_long(&self, out: &mut Vec<u8>, bytes: &[u8]) {
        put_varint(out, (bytes.len() as u64).wrapping_add(self.stretch), self.padding);
        out.extend_from_slice(bytes);
    }
}

impl Tree {
    pub fn new(message: Message) -> Tree {
        Tree { message, items: Vec::new() }
    }

    pub fn encode(&self) -> Vec<u8> {
        let mut out = Vec::new();
        for item in &self.items {
            item.encode(&mut out);
        }
        out
    }

    pub fn push(&mut self, number: u32, value: Value) {
        self.items.push(Item::new(number, value));
    }

    pub fn with(mut self, number: u32, value: Value) -> Tree {
        self.push(number, value);
        self
    }

    pub fn number(self, number: u32, value: u64) -> Tree {
        self.with(number, Value::Varint(value))
    }

    pub fn text(self, number: u32, bytes: impl AsRef<[u8]>) -> Tree {
        self.with(number, Value::Bytes(bytes.as_ref().to_vec()))
    }

    pub fn tree(self, number: u32, tree: Tree) -> Tree {
        self.with(number, Value::Tree(tree))
    }

    /// The bytes of the first field `number`, where it holds bytes.
    pub fn get_bytes(&self, number: u32) -> Option<&[u8]> {
        self.items.iter().find_map(|item| match &item.value {
            Value::Bytes(bytes) if item.number == number => Some(&bytes[..]),
            _ => None,
        })
    }

    pub fn all_bytes(&self, number: u32) -> Vec<Vec<u8>> {
        let held = self.items.iter().filter(|item| item.number == number);
        held.filter_map(|item| if let Value::Bytes(bytes) = &item.value { Some(bytes.clone()) } else { None }).collect()
    }

    pub fn has(&self, number: u32) -> bool {
        self.items.iter().any(|item| item.number == number)
    }

    pub fn remove(&mut self, number: u32) {
        self.items.retain(|item| item.number != number);
    }

    /// Gives the first field `number` another value, or adds the field.
    pub fn set(&mut self, number: u32, value: Value) {
        match self.items.iter_mut().find(|item| item.number == number) {
            Some(item) => item.value = value,
            None => self.push(number, value),
        }
    }

    pub fn insert(&mut self, rng: &mut Rng, item: Item) {
        let at = rng.below(self.items.len() + 1);
        self.items.insert(at, item);
    }

    pub fn children(&self, number: u32) -> impl Iterator<Item = &Tree> {
        self.items.iter().filter_map(move |item| match &item.value {
            Value::Tree(tree) if item.number == number => Some(tree),
            _ => None,
        })
    }

    pub fn children_mut(&mut self, number: u32) -> impl Iterator<Item = &mut Tree> {
        self.items.iter_mut().filter_map(move |item| match &mut item.value {
            Value::Tree(tree) if item.number == number => Some(tree),
            _ => None,
        })
    }

    /// Some message of this tree, the tree itself included, for which `wanted` holds.
    pub fn pick_mut(&mut self, rng: &mut Rng, wanted: &dyn Fn(&Tree) -> bool) -> Option<&mut Tree> {
        let count = self.count(wanted);
        if count == 0 {
            return None;
        }
        let mut left = rng.below(count);
        self.nth_mut(&mut left, wanted)
    }

    fn count(&self, wanted: &dyn Fn(&Tree) -> bool) -> usize {
        let inside: usize =
            self.items.iter().map(|item| if let Value::Tree(t) = &item.value { t.count(wanted) } else { 0 }).sum();
        inside + usize::from(wanted(self))
    }

    fn nth_mut(&mut self, left: &mut usize, wanted: &dyn Fn(&Tree) -> bool) -> Option<&mut Tree> {
        if wanted(self) {
            if *left == 0 {
                return Some(self);
            }
            *left -= 1;
        }
        for item in &mut self.items {
            if let Value::Tree(tree) = &mut item.value {
                if let Some(found) = tree.nth_mut(left, wanted) {
                    return Some(found);
                }
            }
        }
        None
    }

    /// Mixes the fields of every message, and keeps the order of those with one number: what a list says is unchanged.
    /// Document 01 judges in list order "whatever the field order on the wire".
    pub fn interleave(&mut self, rng: &mut Rng) {
        let mut order: Vec<u32> = self.items.iter().map(|item| item.number).collect();
        for last in (1..order.len()).rev() {
            order.swap(last, rng.below(last + 1));
        }
        let mut waiting: Vec<Option<Item>> = std::mem::take(&mut self.items).into_iter().map(Some).collect();
        for number in order {
            let next = waiting.iter_mut().find(|item| item.as_ref().is_some_and(|item| item.number == number));
            self.items.extend(next.and_then(Option::take));
        }
        for item in &mut self.items {
            if let Value::Tree(tree) = &mut item.value {
                tree.interleave(rng);
            }
        }
    }
}
