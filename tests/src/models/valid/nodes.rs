//! Nodes and their attributes.

use super::values::with_plain_value;
use super::{unused, Maker};
use crate::models::proto::Tree;
use crate::schema::{Message, DEEPEST_GRAPH};

impl Maker<'_> {
    pub(super) fn node(&mut self, depth: u32, node_names: &mut Vec<Vec<u8>>) -> Tree {
        self.room -= 1;
        self.nodes += 1;
        let mut node = Tree::new(Message::Node);
        for _ in 0..self.rng.below(3) {
            let left_out = self.visible.is_empty() || self.rng.chance(1, 6);
            let name = if left_out { Vec::new() } else { self.rng.pick(&self.visible).clone() };
            node = node.text(1, self.tested(name));
        }
        let attributes = self.attributes(depth);
        for _ in 0..1 + self.rng.below(2) {
            let name = if self.rng.chance(1, 8) { Vec::new() } else { self.fresh() };
            node = node.text(2, self.tested(name));
        }
        if self.rng.chance(1, 3) {
            let name = unused(self.rng, node_names, true);
            node = node.text(3, self.tested(name));
        }
        node = node.text(4, self.any());
        for attribute in attributes {
            node = node.tree(5, attribute);
        }
        let domain = self.rng.pick(&self.domains).clone();
        self.with_domain(node, 7, &domain)
    }

    fn attributes(&mut self, depth: u32) -> Vec<Tree> {
        let mut names = Vec::new();
        let mut attributes = Vec::new();
        for _ in 0..self.rng.below(3) {
            let name = unused(self.rng, &mut names, false);
            attributes.push(self.attribute(name, depth));
        }
        attributes
    }

    fn attribute(&mut self, name: Vec<u8>, depth: u32) -> Tree {
        if !self.attributes.is_empty() && self.rng.chance(1, 3) {
            return self.reference(name);
        }
        let deeper = depth < DEEPEST_GRAPH && self.room > 0;
        let kind =
            if deeper && self.rng.chance(self.bodies, 10) { *self.rng.pick(&[5, 10]) } else { 1 + self.rng.below(14) };
        // A type 5 needs its graph, so at the greatest depth another type stands in.
        let kind = if kind == 5 && depth >= DEEPEST_GRAPH { 7 } else { kind };
        let mut attribute = Tree::new(Message::Attribute).text(1, self.tested(name)).number(20, kind as u64);
        if self.rng.chance(1, 8) {
            attribute = attribute.text(21, b"");
        }
        match kind {
            5 => attribute.tree(6, self.graph(depth + 1)),
            10 => {
                let count = if depth < DEEPEST_GRAPH { self.rng.below(4) } else { 0 };
                (0..count).fold(attribute, |attribute, _| attribute.tree(11, self.graph(depth + 1)))
            }
            _ => with_plain_value(self.rng, attribute, kind),
        }
    }

    /// An attribute of any type and with no value, which refers to one of the function's.
    fn reference(&mut self, name: Vec<u8>) -> Tree {
        let kind = 1 + self.rng.below(14) as u64;
        let of = self.rng.pick(&self.attributes).clone();
        Tree::new(Message::Attribute).text(1, self.tested(name)).number(20, kind).text(21, of)
    }
}
