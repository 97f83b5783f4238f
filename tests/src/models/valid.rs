//! Models that keep every rule of documents 01 and 02, made with their true counts.

mod functions;
mod graphs;
mod nodes;
mod values;

pub use values::good_type;

use super::lists::{self, alias, Entry};
use super::names::some_name;
use super::proto::Tree;
use super::wild;
use crate::oplist;
use crate::parts::identifier;
use crate::rng::Rng;
use crate::schema::Message;
use crate::verdict::Counts;

/// A sound model, a sound list that serves it, and the counts that its acceptance must report.
#[derive(Clone, Debug)]
pub struct Made {
    pub tree: Tree,
    pub entries: Vec<Entry>,
    pub counts: Counts,
}

pub fn valid(rng: &mut Rng) -> Made {
    let room = *rng.pick(&[0, 1, 3, 6, 10, 20]);
    of_size(rng, room)
}

/// A sound model whose main graph has at most `room` nodes, its bodies included, and each function about as many.
pub fn of_size(rng: &mut Rng, room: usize) -> Made {
    let entries = lists::sound(rng);
    let mut maker = Maker::new(rng, room);
    let mut tree = Tree::new(Message::Model).number(1, maker.ir_version);
    for import in maker.imports(&entries, 0) {
        tree = tree.tree(8, import);
    }
    tree = tree.tree(7, maker.graph(1));
    for function in maker.functions(&entries, room) {
        tree = tree.tree(25, function);
    }
    let counts = Counts { nodes: maker.nodes, names: maker.names as u64, odd: maker.odd };
    wild::sprinkle(&mut tree, rng);
    if rng.chance(1, 2) {
        tree.interleave(rng);
    }
    if rng.chance(1, 4) {
        tree.items.insert(0, wild::like_a_name(rng));
    }
    if rng.chance(1, 4) {
        ir_version_last(&mut tree);
    }
    Made { tree, entries, counts }
}

fn ir_version_last(model: &mut Tree) {
    let (ir_version, others) = std::mem::take(&mut model.items).into_iter().partition(|item| item.number == 1);
    model.items = others;
    model.items.extend::<Vec<_>>(ir_version);
}

struct Maker<'r> {
    rng: &'r mut Rng,
    ir_version: u64,
    /// The domains that the model or the function imports, the default one as the empty bytes.
    domains: Vec<Vec<u8>>,
    /// The attributes of the function. The main graph has none.
    attributes: Vec<Vec<u8>>,
    visible: Vec<Vec<u8>>,
    nodes: u64,
    names: usize,
    odd: u64,
    /// How many nodes may still be made.
    room: usize,
    /// Out of ten attributes, how many hold bodies.
    bodies: usize,
}

impl<'r> Maker<'r> {
    fn new(rng: &'r mut Rng, room: usize) -> Maker<'r> {
        let bodies = *rng.pick(&[0, 3, 6, 9]);
        // Version 3 has a rule of its own.
        let ir_version = if rng.chance(1, 3) { 3 } else { 4 + rng.below(8) as u64 };
        let (domains, attributes, visible) = (Vec::new(), Vec::new(), Vec::new());
        Maker { rng, ir_version, domains, attributes, visible, nodes: 0, names: 0, odd: 0, room, bodies }
    }

    /// Imports of some domains of the list, `always` among them.
    fn imports(&mut self, entries: &[Entry], always: usize) -> Vec<Tree> {
        let mut imports = Vec::new();
        self.domains.clear();
        for (place, entry) in entries.iter().enumerate() {
            let wanted = place == always || self.rng.chance(2, 3);
            if !wanted {
                continue;
            }
            let version = match self.rng.below(3) {
                0 => entry.lowest,
                1 => entry.highest,
                _ => lists::between(self.rng, entry),
            };
            let import = Tree::new(Message::OperatorSetId).number(2, u64::from(version));
            imports.push(self.with_domain(import, 1, &entry.domain));
            self.domains.push(oplist::domain(&entry.domain).to_vec());
        }
        imports
    }

    /// Writes a domain as it is, by its other name, or, where it is the default, not at all.
    fn with_domain(&mut self, tree: Tree, number: u32, domain: &[u8]) -> Tree {
        match self.rng.below(3) {
            0 => tree.text(number, alias(domain)),
            1 if oplist::domain(domain).is_empty() => tree,
            _ => tree.text(number, domain),
        }
    }

    /// A name on its way into a field that is tested for 21.
    fn tested(&mut self, name: Vec<u8>) -> Vec<u8> {
        self.odd += u64::from(!name.is_empty() && !identifier(&name));
        name
    }

    /// Some name there, whatever else bears it.
    fn any(&mut self) -> Vec<u8> {
        let name = some_name(self.rng);
        self.tested(name)
    }

    fn fresh(&mut self) -> Vec<u8> {
        let mut name = some_name(self.rng);
        while self.visible.contains(&name) {
            name.push(*self.rng.pick(b"w1_9Z"));
        }
        self.visible.push(name.clone());
        self.names = self.names.max(self.visible.len());
        name
    }
}

/// A name that is not among `taken`, which then holds it; or, where that is allowed, an empty one.
fn unused(rng: &mut Rng, taken: &mut Vec<Vec<u8>>, may_be_empty: bool) -> Vec<u8> {
    if may_be_empty && rng.chance(1, 6) {
        return Vec::new();
    }
    let mut name = some_name(rng);
    while taken.contains(&name) {
        name.push(b'9');
    }
    taken.push(name.clone());
    name
}

#[cfg(test)]
mod tests;
