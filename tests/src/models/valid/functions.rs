//! Functions, in many of the models: apart by name, domain or overload, with attributes, defaults and imports of their own.

use super::values::with_plain_value;
use super::{unused, Maker};
use crate::models::lists::Entry;
use crate::models::names::some_name;
use crate::models::proto::Tree;
use crate::oplist;
use crate::schema::Message;

/// Name, domain and, from IR version 10 on, overload.
type Identity = (Vec<u8>, Vec<u8>, Vec<u8>);

/// Domains of functions need be in no list, and are free bytes as overloads are.
const DOMAINS: [&[u8]; 7] = [b"", b"", b"ai.onnx.ml", b"ai.onn", b"com.x", b"\xff\x00", &[b'd'; 300]];
const OVERLOADS: [&[u8]; 6] = [b"", b"", b"o", b"oo", b"ai.onnx", b"\xff"];

impl Maker<'_> {
    /// None in more than half of the models, else up to four.
    pub(super) fn functions(&mut self, entries: &[Entry], room: usize) -> Vec<Tree> {
        let count = if self.rng.chance(3, 7) { 1 + self.rng.below(4) } else { 0 };
        let mut identities = Vec::new();
        let mut functions = Vec::new();
        for _ in 0..count {
            self.room = self.rng.below(room + 2);
            functions.push(self.function(entries, &mut identities));
        }
        functions
    }

    fn function(&mut self, entries: &[Entry], identities: &mut Vec<Identity>) -> Tree {
        self.visible.clear();
        let mut function = self.identified(identities);
        function = self.attribute_lists(function);
        let always = if self.rng.chance(3, 4) { 0 } else { self.rng.below(entries.len()) };
        for import in self.imports(entries, always) {
            function = function.tree(9, import);
        }
        for _ in 0..self.rng.below(4) {
            let name = self.fresh();
            function = function.text(4, self.tested(name));
        }
        let mut node_names = Vec::new();
        for _ in 0..self.rng.below(5) {
            if self.room > 0 {
                function = function.tree(7, self.node(1, &mut node_names));
            }
        }
        for _ in 0..self.rng.below(3) {
            if !self.visible.is_empty() {
                let name = self.rng.pick(&self.visible).clone();
                function = function.text(5, self.tested(name));
            }
        }
        function
    }

    /// Often the name of an earlier function, apart from it by domain or overload.
    fn identified(&mut self, identities: &mut Vec<Identity>) -> Tree {
        let again = !identities.is_empty() && self.rng.chance(1, 2);
        let mut name = if again { self.rng.pick(identities).0.clone() } else { some_name(self.rng) };
        let domain = *self.rng.pick(&DOMAINS);
        let overload = *self.rng.pick(&OVERLOADS);
        let tells = if self.ir_version >= 10 { overload } else { b"" };
        let identity = |name: &[u8]| (name.to_vec(), oplist::domain(domain).to_vec(), tells.to_vec());
        while identities.contains(&identity(&name)) {
            name.push(b'9');
        }
        identities.push(identity(&name));
        let mut function = Tree::new(Message::Function).text(1, self.tested(name));
        if !overload.is_empty() || self.rng.chance(1, 4) {
            function = function.text(13, overload);
        }
        self.with_domain(function, 10, domain)
    }

    /// Names of attributes, and defaults, which hold any value but a graph.
    fn attribute_lists(&mut self, mut function: Tree) -> Tree {
        let mut names = Vec::new();
        for _ in 0..self.rng.below(4) {
            let name = unused(self.rng, &mut names, false);
            function = function.text(6, self.tested(name));
        }
        for _ in 0..self.rng.below(3) {
            let name = unused(self.rng, &mut names, false);
            function = function.tree(11, self.default_of(name));
        }
        self.attributes = names;
        function
    }

    fn default_of(&mut self, name: Vec<u8>) -> Tree {
        let kind = *self.rng.pick(&[1, 2, 3, 4, 6, 7, 8, 9, 11, 12, 13, 14]);
        let mut default = Tree::new(Message::Attribute).text(1, self.tested(name)).number(20, kind as u64);
        if self.rng.chance(1, 8) {
            default = default.text(21, b"");
        }
        with_plain_value(self.rng, default, kind)
    }
}
