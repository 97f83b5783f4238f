//! Functions: document 02, Req 01. "Functions are judged in list order after the main graph".

use std::collections::HashSet;

use crate::checker::Judge;
use crate::header::imports;
use crate::oplist::{self, OperatorList};
use crate::parts::{all, bytes_of, refuse, whole, Step};
use crate::verdict::Refusal;
use crate::wire::Field;

/// "Name and domain identify a function, from IR 10 overload too". Below it the overload is empty here.
type Identity<'m> = (&'m [u8], &'m [u8], &'m [u8]);

impl<'m> Judge<'m> {
    pub(crate) fn functions(&mut self, operators: &OperatorList) -> Step {
        let mut earlier = HashSet::new();
        for function in all(self.model, whole(self.model), 25) {
            self.function(function, operators, &mut earlier)?;
        }
        Ok(())
    }

    /// Its name (22, 21); 41; its attributes; its imports (12, 13, 14); inputs (22, 21, 23, 40); nodes; outputs (22, 21, 35).
    fn function(&mut self, function: Field, operators: &OperatorList, earlier: &mut HashSet<Identity<'m>>) -> Step {
        let model = self.model;
        let (name, _) = self.name(function, 1, 22)?;
        if !earlier.insert(self.identity(function, name)) {
            return refuse(41, function.place);
        }
        self.attributes = self.attribute_names(function)?;
        self.imports = imports(model, function, 9, operators)?;
        for input in all(model, function, 4) {
            let (name, place) = self.held(input, 22)?;
            self.bind(name, place)?;
        }
        self.node_list(function, 7)?;
        for output in all(model, function, 5) {
            let (name, place) = self.held(output, 22)?;
            self.use_name(name, place, 35)?;
        }
        self.forget(0);
        Ok(())
    }

    fn identity(&self, function: Field, name: &'m [u8]) -> Identity<'m> {
        let domain = oplist::domain(bytes_of(self.model, function, 10));
        let overload = if self.ir_version >= 10 { bytes_of(self.model, function, 13) } else { &[] };
        (name, domain, overload)
    }

    /// "field 6 names, then field 11 (22, 21, 42, 33, 32)". "A name in both attribute lists, or twice in one, is 42."
    fn attribute_names(&mut self, function: Field) -> Result<HashSet<&'m [u8]>, Refusal> {
        let mut names = HashSet::new();
        for attribute in all(self.model, function, 6) {
            let (name, place) = self.held(attribute, 22)?;
            if !names.insert(name) {
                return refuse(42, place);
            }
        }
        for attribute in all(self.model, function, 11) {
            let (name, place) = self.name(attribute, 1, 22)?;
            if !names.insert(name) {
                return refuse(42, place);
            }
            self.default_value(attribute)?;
        }
        Ok(names)
    }
}
