//! The rules of an attribute: of a node, in the main graph or in a function, and of a function's default.

use std::collections::HashSet;

use crate::checker::Judge;
use crate::parts::{bytes_of, first, refuse, Step};
use crate::wire::{fields, Field};

/// For each attribute type from 1 to 14 the field that carries its value.
const CARRIERS: [u32; 14] = [2, 3, 4, 5, 6, 7, 8, 9, 10, 11, 22, 23, 14, 15];

/// The types of a graph and of graphs.
const GRAPHS: [i64; 2] = [5, 10];

impl<'m> Judge<'m> {
    /// An attribute of a node: 22, 21, 31, 33, 32, then its graphs.
    pub(crate) fn attribute(&mut self, attribute: Field, earlier: &mut HashSet<&'m [u8]>) -> Step {
        let model = self.model;
        let (name, place) = self.name(attribute, 1, 22)?;
        if !earlier.insert(name) {
            return refuse(31, place);
        }
        let reference = bytes_of(model, attribute, 21);
        if !reference.is_empty() {
            return self.reference(attribute, reference);
        }
        if !self.value_rule(attribute) {
            return refuse(32, attribute.place);
        }
        for body in fields(model, attribute.start, attribute.end).filter(|field| matches!(field.number, 6 | 11)) {
            self.graph(body, false)?;
        }
        Ok(())
    }

    /// "a ref_attr_name must be one of the function's attributes, otherwise 33; such an attribute has a type in 1..14 and no carrier,
    /// otherwise 32"
    fn reference(&self, attribute: Field, name: &[u8]) -> Step {
        if !self.attributes.contains(name) {
            return refuse(33, attribute.place);
        }
        let carried = fields(self.model, attribute.start, attribute.end).any(|field| CARRIERS.contains(&field.number));
        if carried || !(1..=14).contains(&self.kind(attribute)) {
            return refuse(32, attribute.place);
        }
        Ok(())
    }

    /// "A default may not be a graph or graphs (32) nor a reference (33)."
    pub(crate) fn default_value(&self, attribute: Field) -> Step {
        if !bytes_of(self.model, attribute, 21).is_empty() {
            return refuse(33, attribute.place);
        }
        if GRAPHS.contains(&self.kind(attribute)) || !self.value_rule(attribute) {
            return refuse(32, attribute.place);
        }
        Ok(())
    }

    fn kind(&self, attribute: Field) -> i64 {
        first(self.model, attribute, 20).map_or(0, |field| field.value as i64)
    }

    /// The type is one of fourteen, no carrier of another type occurs, and types 4, 5, 11 and 13 have theirs.
    fn value_rule(&self, attribute: Field) -> bool {
        let kind = self.kind(attribute);
        if !(1..=14).contains(&kind) {
            return false;
        }
        let own = CARRIERS[kind as usize - 1];
        let mut carried = false;
        for field in fields(self.model, attribute.start, attribute.end) {
            if field.number == own {
                carried = true;
            } else if CARRIERS.contains(&field.number) {
                return false;
            }
        }
        carried || !matches!(kind, 4 | 5 | 11 | 13)
    }
}
