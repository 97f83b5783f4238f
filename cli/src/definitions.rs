//! Where a name is defined, anywhere in the model: what a reader of refusals 30 and 35 looks for next.
use crate::path::DEEPEST;
use crate::schema::Kind;
use crate::wire::{self, Field};

/// The first places, in byte order and at most `most`, of inputs, initializers and node outputs that bear `name`, in
/// graphs and functions. Which of them are visible somewhere is not said.
pub fn of(model: &[u8], name: &[u8], most: usize) -> Vec<usize> {
    let mut search = Search { model, name, most, found: Vec::new() };
    search.message(Kind::Model, 0, model.len(), 0);
    search.found
}

struct Search<'a> {
    model: &'a [u8],
    name: &'a [u8],
    most: usize,
    found: Vec<usize>,
}

impl Search<'_> {
    /// Adds the definitions in a message. Nothing but them is kept: a hostile file has millions of messages.
    fn message(&mut self, kind: Kind, at: usize, end: usize, depth: usize) {
        for f in wire::fields(self.model, at, end).filter(|f| f.wire == 2) {
            let Some(stop) = f.end else { return };
            if self.found.len() == self.most {
                return;
            }
            if defines(self.model, kind, &f, stop, self.name) {
                self.found.push(f.tag);
            }
            if let Some(inner) = leads_to(kind, f.number).filter(|_| depth < DEEPEST) {
                self.message(inner, f.value, stop, depth + 1);
            }
        }
    }
}

/// The messages that hold definitions.
fn leads_to(kind: Kind, number: u64) -> Option<Kind> {
    match (kind, number) {
        (Kind::Model, 7) | (Kind::Attribute, 6 | 11) => Some(Kind::Graph),
        (Kind::Model, 25) => Some(Kind::Function),
        (Kind::Graph, 1) | (Kind::Function, 7) => Some(Kind::Node),
        (Kind::Node, 5) => Some(Kind::Attribute),
        _ => None,
    }
}

fn defines(model: &[u8], kind: Kind, f: &Field, stop: usize, name: &[u8]) -> bool {
    let borne = match (kind, f.number) {
        (Kind::Graph, 11) => wire::contents(model, f.value, stop, 1),
        (Kind::Graph, 5) => wire::contents(model, f.value, stop, 8),
        (Kind::Node, 2) | (Kind::Function, 4) => model.get(f.value..stop),
        _ => None,
    };
    borne == Some(name)
}

#[cfg(test)]
mod tests {
    use super::*;

    #[test]
    fn outputs_are_found() {
        let m = crate::samples::bytes("08 08 42 02 10 0D 3A 0E 12 01 67 0A 09 0A 01 61 12 01 61 22 01 58");
        assert_eq!(of(&m, b"a", 4), [16]);
        assert!(of(&m, b"b", 4).is_empty());
        let node = [&[0x0A, 0x78], [0x12, 1, b'a'].repeat(40).as_slice()].concat();
        let many = [&[0x3A, 0xF4, 1], node.repeat(2).as_slice()].concat();
        assert_eq!((of(&many, b"a", 3), of(&many, b"a", 99).len()), (vec![5, 8, 11], 80));
        assert!(of(&many[..130], b"a", 3).is_empty());
    }

    /// Inputs of a function and outputs of its nodes, and nothing in a default.
    #[test]
    fn functions_are_searched() {
        let part = crate::samples::part;
        let node = part(7, &part(2, b"a"));
        let default = part(11, &part(6, &part(1, &part(2, b"a"))));
        let function = part(25, &[part(4, b"b"), default, node, part(4, b"a"), part(5, b"a")].concat());
        assert_eq!(of(&function, b"b", 9), [3]);
        assert_eq!(of(&function, b"a", 9), [17, 20]);
    }
}
