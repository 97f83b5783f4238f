//! The plain checker: document 01's rules and those of document 02 over a standard map, written from these pages and their readings,
//! and not from the crates.
//! It is linear in the model: each message is scanned a fixed number of times, names go through hashing.
//! `attributes.rs` has the rules of an attribute, `functions.rs` those of a function.

use std::collections::{HashMap, HashSet};

use crate::header::{header, Header, Imports};
use crate::oplist;
use crate::parts::{all, contents, first, identifier, number_in, refuse, Step};
use crate::schema;
use crate::utf8::well_formed;
pub use crate::verdict::{Counts, Refusal, Verdict};
use crate::wire::Field;

/// The largest model, in bytes.
pub const LARGEST_MODEL: usize = 2_147_483_647;

/// How wide a scope record is: "Each scope record now holds place and length, so a name takes two cells".
pub const CELLS_PER_NAME: usize = 2;

pub fn check(model: &[u8], list: &[u8], cells: usize) -> Verdict {
    verdict(judge(model, list, cells, &mut 0))
}

/// The verdict with no bound on the cells, and how many it takes: with fewer it is 40.
pub fn unbounded(model: &[u8], list: &[u8]) -> (Verdict, usize) {
    let mut names = 0;
    let judged = judge(model, list, usize::MAX, &mut names);
    (verdict(judged), CELLS_PER_NAME * names)
}

fn verdict(judged: Result<Counts, Refusal>) -> Verdict {
    match judged {
        Ok(counts) => Verdict::Accepted(counts),
        Err(Refusal { number, place, first }) => Verdict::Refused { number, place, first },
    }
}

/// The counts of an acceptance. `most` is set to the most names that were visible together, whatever the end.
fn judge(model: &[u8], list: &[u8], cells: usize, most: &mut usize) -> Result<Counts, Refusal> {
    if model.len() > LARGEST_MODEL {
        return refuse(7, 0);
    }
    let Some(operators) = oplist::read(list) else {
        return refuse(8, 0);
    };
    schema::first_walk(model)?;
    let Header { ir_version, graph, imports } = header(model, &operators)?;
    let mut judge = Judge::new(model, ir_version, imports, cells / CELLS_PER_NAME);
    let done = judge.graph(graph, true).and_then(|()| judge.functions(&operators));
    *most = judge.names;
    done.map(|()| Counts { nodes: judge.nodes, names: judge.names as u64, odd: judge.odd })
}

/// The second walk below the header.
pub(crate) struct Judge<'m> {
    pub(crate) model: &'m [u8],
    pub(crate) ir_version: u64,
    /// What the nodes have: the imports of the model, or of the function that is judged, and the names of this function's attributes. The
    /// main graph has none.
    pub(crate) imports: Imports<'m>,
    pub(crate) attributes: HashSet<&'m [u8]>,
    /// How many names may be visible together.
    room: usize,
    /// The names visible now with their places, and the names in the order in which they became visible.
    visible: HashMap<&'m [u8], usize>,
    trail: Vec<&'m [u8]>,
    nodes: u64,
    names: usize,
    /// Fields that were tested for 21 so far and are no identifiers.
    odd: u64,
}

impl<'m> Judge<'m> {
    fn new(model: &'m [u8], ir_version: u64, imports: Imports<'m>, room: usize) -> Judge<'m> {
        let (attributes, visible, trail) = (HashSet::new(), HashMap::new(), Vec::new());
        Judge { model, ir_version, imports, attributes, room, visible, trail, nodes: 0, names: 0, odd: 0 }
    }

    pub(crate) fn graph(&mut self, graph: Field, main: bool) -> Step {
        let outer = self.trail.len();
        self.name(graph, 2, 20)?;
        if let Some(sparse) = first(self.model, graph, 15) {
            return refuse(16, sparse.place);
        }
        for input in all(self.model, graph, 11) {
            self.define(input, 1)?;
            if main {
                self.tensor_type(input)?;
            }
        }
        self.initializers(graph, main)?;
        self.node_list(graph, 1)?;
        for output in all(self.model, graph, 12) {
            let (name, place) = self.name(output, 1, 22)?;
            self.use_name(name, place, 35)?;
            if main {
                self.tensor_type(output)?;
            }
        }
        self.forget(outer);
        Ok(())
    }

    /// The nodes in the field `number` of a graph or a function.
    pub(crate) fn node_list(&mut self, message: Field, number: u32) -> Step {
        let mut node_names = HashSet::new();
        for node in all(self.model, message, number) {
            self.node(node, &mut node_names)?;
        }
        Ok(())
    }

    /// Only the first `kept` names stay visible.
    pub(crate) fn forget(&mut self, kept: usize) {
        for name in self.trail.drain(kept..) {
            self.visible.remove(name);
        }
    }

    /// At IR version 3 "each initializer must bear the name of an input of its own graph, otherwise 43 (after 21, before 23), and a nested
    /// graph may give its own input a default once".
    fn initializers(&mut self, graph: Field, main: bool) -> Step {
        let model = self.model;
        let defaults_only = self.ir_version == 3;
        // The inputs that may have a default, and whether they have one.
        let mut inputs = HashMap::new();
        if main || defaults_only {
            let named = all(model, graph, 11).filter_map(|input| first(model, input, 1));
            inputs.extend(named.map(|field| (contents(model, field), false)));
        }
        for tensor in all(model, graph, 5) {
            let (name, place) = self.name(tensor, 8, 22)?;
            match inputs.get_mut(name) {
                None if defaults_only => return refuse(43, place),
                Some(given @ false) => *given = true,
                _ => self.bind(name, place)?,
            }
            number_in(model, tensor, 2, 1..=23, 26)?;
        }
        Ok(())
    }

    fn node(&mut self, node: Field, node_names: &mut HashSet<&'m [u8]>) -> Step {
        let model = self.model;
        self.nodes += 1;
        self.name(node, 4, 27)?;
        self.domain(node)?;
        if let Some(field) = first(model, node, 3).filter(|field| field.start != field.end) {
            self.text(field)?;
            if !node_names.insert(contents(model, field)) {
                return refuse(29, field.place);
            }
        }
        for input in all(model, node, 1).filter(|field| field.start != field.end) {
            self.text(input)?;
            self.use_name(contents(model, input), input.place, 30)?;
        }
        let mut attribute_names = HashSet::new();
        for attribute in all(model, node, 5) {
            self.attribute(attribute, &mut attribute_names)?;
        }
        if first(model, node, 2).is_none() {
            return refuse(34, node.place);
        }
        for output in all(model, node, 2).filter(|field| field.start != field.end) {
            self.text(output)?;
            self.bind(contents(model, output), output.place)?;
        }
        Ok(())
    }

    fn domain(&self, node: Field) -> Step {
        let (named, place) = match first(self.model, node, 7) {
            Some(field) => (contents(self.model, field), field.place),
            None => (&self.model[..0], node.place),
        };
        if self.imports.contains(oplist::domain(named)) {
            Ok(())
        } else {
            refuse(28, place)
        }
    }

    /// The type of an input or output of the main graph: 24, 25, 37, then each dim.
    fn tensor_type(&mut self, value_info: Field) -> Step {
        let model = self.model;
        let Some(kind) = first(model, value_info, 2) else {
            return refuse(24, value_info.place);
        };
        let Some(tensor) = first(model, kind, 1) else {
            return refuse(24, kind.place);
        };
        number_in(model, tensor, 1, 1..=23, 25)?;
        let Some(shape) = first(model, tensor, 2) else {
            return refuse(37, tensor.place);
        };
        for dim in all(model, shape, 1) {
            number_in(model, dim, 1, 0..=i64::MAX, 38)?;
            if let Some(variable) = first(model, dim, 2) {
                if variable.start == variable.end {
                    return refuse(21, variable.place);
                }
                self.text(variable)?;
            }
        }
        Ok(())
    }

    /// The name in the field `number` of `message`: `empty` where it is absent or empty, then 21.
    pub(crate) fn name(&mut self, message: Field, number: u32, empty: u64) -> Result<(&'m [u8], usize), Refusal> {
        match first(self.model, message, number) {
            Some(field) => self.held(field, empty),
            None => refuse(empty, message.place),
        }
    }

    /// The name that the field itself holds: `empty`, then 21.
    pub(crate) fn held(&mut self, field: Field, empty: u64) -> Result<(&'m [u8], usize), Refusal> {
        if field.start == field.end {
            return refuse(empty, field.place);
        }
        self.text(field)?;
        Ok((contents(self.model, field), field.place))
    }

    /// 21 of a field that is not empty: it is UTF-8, as every identifier is. One that is no identifier is odd.
    fn text(&mut self, field: Field) -> Step {
        let name = contents(self.model, field);
        if identifier(name) {
            return Ok(());
        }
        if !well_formed(name) {
            return refuse(21, field.place);
        }
        self.odd += 1;
        Ok(())
    }

    fn define(&mut self, message: Field, number: u32) -> Step {
        let (name, place) = self.name(message, number, 22)?;
        self.bind(name, place)
    }

    pub(crate) fn bind(&mut self, name: &'m [u8], place: usize) -> Step {
        if let Some(&first) = self.visible.get(name) {
            return Err(Refusal { number: 23, place: place as u64, first: first as u64 });
        }
        if self.trail.len() == self.room {
            return refuse(40, place);
        }
        self.visible.insert(name, place);
        self.trail.push(name);
        self.names = self.names.max(self.trail.len());
        Ok(())
    }

    pub(crate) fn use_name(&self, name: &[u8], place: usize, absent: u64) -> Step {
        if self.visible.contains_key(name) {
            Ok(())
        } else {
            refuse(absent, place)
        }
    }
}
