//! Graphs, but for their nodes.

use super::values::{dim_params, good_type};
use super::Maker;
use crate::models::proto::Tree;
use crate::models::wild;
use crate::schema::Message;

impl Maker<'_> {
    pub(super) fn graph(&mut self, depth: u32) -> Tree {
        let main = depth == 1;
        let outer = self.visible.len();
        let mut graph = Tree::new(Message::Graph).text(2, self.any());
        for _ in 0..self.input_count(main) {
            let name = self.fresh();
            graph = graph.tree(11, self.value_info(name, main));
        }
        for name in self.initializer_names(outer, main) {
            graph = graph.tree(5, self.tensor(name));
        }
        let mut node_names = Vec::new();
        for _ in 0..self.rng.below(5).max(usize::from(main)) {
            if self.room > 0 {
                graph = graph.tree(1, self.node(depth, &mut node_names));
            }
        }
        for _ in 0..self.rng.below(3) {
            if !self.visible.is_empty() {
                let name = self.rng.pick(&self.visible).clone();
                graph = graph.tree(12, self.value_info(name, main));
            }
        }
        if self.rng.chance(1, 5) {
            graph = graph.tree(13, wild::tree(self.rng, Message::ValueInfo, 3));
        }
        self.visible.truncate(outer);
        graph
    }

    /// A few models have hundreds of names: at version 3 inputs, and later initializers.
    fn wide(&mut self, main: bool) -> Option<usize> {
        let wide = main && self.rng.chance(1, 100);
        wide.then(|| 100 + self.rng.below(200))
    }

    fn input_count(&mut self, main: bool) -> usize {
        let wide = if self.ir_version == 3 { self.wide(main) } else { None };
        wide.unwrap_or_else(|| self.rng.below(3))
    }

    /// Some of the graph's inputs, each once, in any order: their defaults. Only the main graph has them from version 4 on, and then new
    /// names too.
    fn initializer_names(&mut self, outer: usize, main: bool) -> Vec<Vec<u8>> {
        let defaults_only = self.ir_version == 3;
        let inputs = if main || defaults_only { self.visible[outer..].to_vec() } else { Vec::new() };
        let more = if defaults_only { 0 } else { self.wide(main).unwrap_or_else(|| self.rng.below(3)) };
        let mut names = Vec::new();
        for name in inputs {
            if self.rng.chance(if defaults_only { 2 } else { 1 }, 3) {
                names.insert(self.rng.below(names.len() + 1), name);
            }
        }
        for _ in 0..more {
            let name = self.fresh();
            names.insert(self.rng.below(names.len() + 1), name);
        }
        names
    }

    fn value_info(&mut self, name: Vec<u8>, judged: bool) -> Tree {
        let info = Tree::new(Message::ValueInfo).text(1, self.tested(name));
        if judged {
            let kind = good_type(self.rng);
            for name in dim_params(&kind) {
                self.tested(name);
            }
            info.tree(2, kind)
        } else if self.rng.chance(1, 4) {
            info.tree(2, good_type(self.rng))
        } else if self.rng.chance(1, 3) {
            // A nested type is opened by the first walk and judged by no rule of the second.
            info.tree(2, wild::tree(self.rng, Message::Type, 3))
        } else {
            info
        }
    }

    fn tensor(&mut self, name: Vec<u8>) -> Tree {
        let data_type = 1 + self.rng.below(23) as u64;
        let length = if self.rng.chance(1, 400) { 20_000 } else { self.rng.below(4) };
        let tensor = Tree::new(Message::Tensor).number(1, 2).number(2, data_type);
        tensor.text(8, self.tested(name)).text(9, vec![0x7f; length])
    }
}
