//! How much of a model there is to remember, counted in one quick pass, and in two over the fields of a function. It
//! only sizes memory: the library judges, and its answer is the same whatever is counted here. Any bytes are survived,
//! and nothing is allocated.

/// Upper bounds for a model that the wire rules let pass.
#[derive(Clone, Copy, Debug, Default, PartialEq, Eq)]
pub struct Need {
    /// Names that are visible at once: inputs, initializers and node outputs, of the main graph or of a function.
    pub names: usize,
    /// Functions, each of which the library tells from those before it: it makes room for all of them before it judges the
    /// first.
    pub functions: usize,
    /// Imports of the model with a domain.
    pub imports: usize,
    /// The same of a function.
    pub own_imports: usize,
    /// Names of lists that are open at once and each have a visible name to them, so that they are no more than those:
    /// initializers of a graph, and named nodes with an output. The library lists the initializers of a nested graph at
    /// IR version 3 only; they are counted at every version, as the room for visible names has room for them.
    pub bound: usize,
    /// Names of lists that are open at once and have none: attributes, and named nodes whose outputs are left out.
    pub free: usize,
}

impl Need {
    /// Functions, and names of lists that are open at once in a walk whose cells hold so many visible names.
    pub fn lists(&self, names: usize) -> usize {
        self.functions + self.imports + self.own_imports + self.bound.min(names) + self.free
    }
}

/// The library refuses deeper graphs before it remembers a name.
const DEEPEST: usize = 8;

/// The contents of a function, import, initializer, named node or attribute whose name is kept have at least the name or
/// domain, in three bytes, and a number, an operator type or an import.
const LEAST_CONTENTS: usize = 5;

/// Counts up to the first byte that makes no sense: the library refuses such a model before it remembers a name. What it
/// refuses for its padding, with 9, is counted as any other.
pub fn skim(model: &[u8]) -> Need {
    let mut skimmed = Skimmed::default();
    let _ = skimmed.model(model);
    skimmed.most
}

/// What was counted so far, and how much is open where the pass stands. A list is closed with the message that it is a
/// list of; names are added up in the main graph and in each function.
#[derive(Default)]
struct Skimmed {
    most: Need,
    open: Open,
}

#[derive(Clone, Copy, Default)]
struct Open {
    names: usize,
    bound: usize,
    free: usize,
}

/// Each of these is none where a message cannot be read to its end.
impl Skimmed {
    fn model(&mut self, message: &[u8]) -> Option<()> {
        for field in fields(message) {
            match field? {
                (7, graph) => {
                    self.open = Open::default();
                    self.graph(graph, 1)?;
                }
                (8, import) if can_be_kept(import) => self.most.imports += 1,
                (25, function) => self.function(function)?,
                _ => {}
            }
        }
        Some(())
    }

    fn function(&mut self, message: &[u8]) -> Option<()> {
        self.most.functions += usize::from(can_be_kept(message));
        self.open = Open::default();
        let mut imports = 0;
        for field in fields(message) {
            match field? {
                (4, name) => self.open.names += usize::from(!name.is_empty()),
                (6, name) => self.open.free += usize::from(!name.is_empty()),
                (9, import) => imports += usize::from(can_be_kept(import)),
                (11, default) => self.open.free += usize::from(can_be_kept(default)),
                _ => {}
            }
        }
        self.most.own_imports = self.most.own_imports.max(imports);
        self.keep();
        // once its attributes are counted: their list is open below those of its nodes, wherever they stand
        for field in fields(message) {
            if let (7, node) = field? {
                self.node(node, 1)?;
            }
        }
        Some(())
    }

    fn graph(&mut self, message: &[u8], depth: usize) -> Option<()> {
        let Open { bound, free, .. } = self.open;
        let mut initializers = 0;
        for field in fields(message) {
            match field? {
                (1, node) => self.node(node, depth)?,
                (5, initializer) => {
                    self.open.names += 1;
                    initializers += usize::from(can_be_kept(initializer));
                }
                (11, _) => self.open.names += 1,
                _ => {}
            }
        }
        // their list is begun on those around the graph, and closed before that of its nodes is begun
        self.most.bound = self.most.bound.max(bound + initializers);
        (self.open.bound, self.open.free) = (bound, free);
        self.keep();
        Some(())
    }

    fn node(&mut self, message: &[u8], depth: usize) -> Option<()> {
        let Open { bound, free, .. } = self.open;
        let (mut named, mut outputs) = (false, 0);
        for field in fields(message) {
            match field? {
                (2, name) => outputs += usize::from(!name.is_empty()),
                (3, name) => named |= !name.is_empty(),
                (5, attribute) => self.attribute(attribute, depth)?,
                _ => {}
            }
        }
        let listed = usize::from(named && can_be_kept(message));
        let (bound, free) = if outputs > 0 { (bound + listed, free) } else { (bound, free + listed) };
        self.open = Open { names: self.open.names + outputs, bound, free };
        self.keep();
        Some(())
    }

    fn attribute(&mut self, message: &[u8], depth: usize) -> Option<()> {
        for field in fields(message) {
            match field? {
                (6 | 11, graph) if depth < DEEPEST => self.graph(graph, depth + 1)?,
                _ => {}
            }
        }
        self.open.free += usize::from(can_be_kept(message));
        self.keep();
        Some(())
    }

    fn keep(&mut self) {
        self.most.names = self.most.names.max(self.open.names);
        self.most.bound = self.most.bound.max(self.open.bound);
        self.most.free = self.most.free.max(self.open.free);
    }
}

fn can_be_kept(message: &[u8]) -> bool {
    message.len() >= LEAST_CONTENTS
}

/// The fields of a message, each with its number and its contents (none for a varint); the last is none where they
/// cannot be read on.
fn fields(mut rest: &[u8]) -> impl Iterator<Item = Option<(u32, &[u8])>> {
    std::iter::from_fn(move || {
        let here = std::mem::take(&mut rest);
        (!here.is_empty()).then(|| {
            let (number, contents, after) = field(here)?;
            rest = after;
            Some((number, contents))
        })
    })
}

/// The first field of a message: its number, its contents, and what follows it.
fn field(bytes: &[u8]) -> Option<(u32, &[u8], &[u8])> {
    let (tag, rest) = varint(bytes)?;
    let number = u32::try_from(tag).ok().map(|tag| tag >> 3).filter(|number| *number > 0)?;
    let (length, rest) = match tag & 7 {
        0 => (0, varint(rest)?.1),
        1 => (8, rest),
        2 => varint(rest)?,
        5 => (4, rest),
        _ => return None,
    };
    let (contents, after) = rest.split_at_checked(usize::try_from(length).ok()?)?;
    Some((number, contents, after))
}

/// The varint that `bytes` starts with, padded or not, and what follows it.
fn varint(bytes: &[u8]) -> Option<(u64, &[u8])> {
    let mut value = 0;
    for (i, byte) in bytes.iter().take(10).enumerate() {
        value |= u64::from(byte & 0x7F) << (7 * i);
        if *byte < 0x80 {
            return Some((value, &bytes[i + 1..]));
        }
    }
    None
}

#[cfg(test)]
mod tests;
