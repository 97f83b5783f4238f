//! The plain runner of document 01, with the functions of document 02. It is a definition of its own: it judges nothing and knows no checker.
//! The model is read once into a plan, and the plan is run under as many lists of choices as wanted.

use std::collections::{HashMap, HashSet};

use crate::wire::{fields, Field};

/// A name with the tag of the field that holds it.
#[derive(Clone, Copy, Debug)]
struct Name<'m> {
    bytes: &'m [u8],
    place: u64,
}

#[derive(Debug, Default)]
struct Graph<'m> {
    inputs: Vec<Name<'m>>,
    initializers: Vec<Name<'m>>,
    nodes: Vec<Node<'m>>,
    outputs: Vec<Name<'m>>,
}

#[derive(Debug)]
struct Node<'m> {
    inputs: Vec<Name<'m>>,
    bodies: Vec<Graph<'m>>,
    outputs: Vec<Name<'m>>,
}

/// What a model asks of the runner.
#[derive(Debug)]
pub struct Plan<'m> {
    main: Option<Graph<'m>>,
    /// The bodies of functions in list order. Each is a graph with no initializers.
    functions: Vec<Graph<'m>>,
    /// Do inputs of nested graphs have defaults? "at IR 3 only"
    nested_defaults: bool,
}

#[derive(Clone, Copy, Debug, PartialEq, Eq)]
pub enum End {
    Reached,
    /// A name is read that is not bound; the place is the tag of the field that holds it.
    Unbound {
        place: u64,
    },
    /// A name is bound that is bound already, with the defining place that it has.
    BoundAgain {
        place: u64,
        defined: u64,
    },
}

/// One read: the field that holds the name, and the defining place that it found.
#[derive(Clone, Copy, Debug, PartialEq, Eq, Hash)]
pub struct Read {
    pub field: u64,
    pub defined: u64,
}

#[derive(Debug)]
pub struct Run {
    pub end: End,
    pub reads: Vec<Read>,
    /// The greatest number of names bound together, and of nodes run. Document 01 asks for neither; with the
    /// empty list of choices they must be the first two counts of an acceptance, which tests the checker.
    pub most_bound: u64,
    pub nodes_run: u64,
}

/// Runs a model once. For many lists of choices read the plan once.
pub fn run(model: &[u8], choices: &[u64]) -> Run {
    Plan::read(model).run(choices)
}

impl<'m> Plan<'m> {
    /// Reads up to the first field that cannot be read; a model without a graph has only its functions to run.
    pub fn read(model: &'m [u8]) -> Plan<'m> {
        let of_model = |number: u32, kind: u8| {
            fields(model, 0, model.len()).filter(move |field| field.number == number && field.kind == kind)
        };
        let main = of_model(7, 2).next().map(|field| Graph::read(model, field));
        let functions = of_model(25, 2).map(|field| Graph::read_function(model, field)).collect();
        let nested_defaults = of_model(1, 0).next().is_some_and(|ir_version| ir_version.value == 3);
        Plan { main, functions, nested_defaults }
    }

    pub fn run(&self, choices: &[u64]) -> Run {
        let mut runner = Runner {
            nested_defaults: self.nested_defaults,
            choices: choices.iter(),
            bound: HashMap::new(),
            order: Vec::new(),
            run: Run::new(),
        };
        if let Err(end) = runner.model(self) {
            runner.run.end = end;
        }
        runner.run
    }

    /// The visits to bodies when each body is run once: how many choices a list can hold that matter.
    pub fn bodies(&self) -> usize {
        self.main.iter().chain(&self.functions).map(Graph::bodies).sum()
    }
}

impl<'m> Graph<'m> {
    fn read(model: &'m [u8], graph: Field) -> Graph<'m> {
        let mut read = Graph::default();
        for field in fields(model, graph.start, graph.end).filter(|field| field.kind == 2) {
            match field.number {
                1 => read.nodes.push(Node::read(model, field)),
                5 => read.initializers.push(held(model, field, 8)),
                11 => read.inputs.push(held(model, field, 1)),
                12 => read.outputs.push(held(model, field, 1)),
                _ => {}
            }
        }
        read
    }

    fn read_function(model: &'m [u8], function: Field) -> Graph<'m> {
        let mut read = Graph::default();
        for field in fields(model, function.start, function.end).filter(|field| field.kind == 2) {
            match field.number {
                4 => read.inputs.push(name(model, field)),
                5 => read.outputs.push(name(model, field)),
                7 => read.nodes.push(Node::read(model, field)),
                _ => {}
            }
        }
        read
    }

    fn bodies(&self) -> usize {
        self.nodes.iter().flat_map(|node| &node.bodies).map(|body| 1 + body.bodies()).sum()
    }
}

impl<'m> Node<'m> {
    fn read(model: &'m [u8], node: Field) -> Node<'m> {
        let mut read = Node { inputs: Vec::new(), bodies: Vec::new(), outputs: Vec::new() };
        for field in fields(model, node.start, node.end).filter(|field| field.kind == 2) {
            match field.number {
                1 => read.inputs.push(name(model, field)),
                2 => read.outputs.push(name(model, field)),
                5 => {
                    let inside = fields(model, field.start, field.end);
                    let bodies = inside.filter(|inner| inner.kind == 2 && matches!(inner.number, 6 | 11));
                    read.bodies.extend(bodies.map(|body| Graph::read(model, body)));
                }
                _ => {}
            }
        }
        read.inputs.retain(|name| !name.bytes.is_empty());
        read.outputs.retain(|name| !name.bytes.is_empty());
        read
    }
}

fn name(model: &[u8], field: Field) -> Name<'_> {
    Name { bytes: &model[field.start..field.end], place: field.place as u64 }
}

/// The name in the field `number` of a ValueInfo or a Tensor. An absent one reads as empty, at the message's tag.
fn held(model: &[u8], message: Field, number: u32) -> Name<'_> {
    let found = fields(model, message.start, message.end).find(|field| field.number == number && field.kind == 2);
    match found {
        Some(field) => name(model, field),
        None => Name { bytes: &[], place: message.place as u64 },
    }
}

impl Run {
    fn new() -> Run {
        Run { end: End::Reached, reads: Vec::new(), most_bound: 0, nodes_run: 0 }
    }
}

struct Runner<'p, 'm> {
    nested_defaults: bool,
    choices: std::slice::Iter<'p, u64>,
    /// Each bound name with its defining place, and the bound names in order, so that a body's can be forgotten.
    bound: HashMap<&'m [u8], u64>,
    order: Vec<&'m [u8]>,
    run: Run,
}

/// Err is the end of a run that stops.
type Step = Result<(), End>;

impl<'m> Runner<'_, 'm> {
    /// "after the main graph the runner runs each body alone, in list order: from no bound names"
    fn model(&mut self, plan: &Plan<'m>) -> Step {
        if let Some(main) = &plan.main {
            self.graph(main, true)?;
        }
        for function in &plan.functions {
            self.forget(0);
            self.graph(function, false)?;
        }
        Ok(())
    }

    fn forget(&mut self, kept: usize) {
        for name in self.order.drain(kept..) {
            self.bound.remove(name);
        }
    }

    fn graph(&mut self, graph: &Graph<'m>, main: bool) -> Step {
        for input in &graph.inputs {
            self.bind(*input)?;
        }
        let mut free = HashSet::new();
        if main || self.nested_defaults {
            free.extend(graph.inputs.iter().map(|input| input.bytes));
        }
        for initializer in &graph.initializers {
            if !free.remove(initializer.bytes) {
                self.bind(*initializer)?;
            }
        }
        for node in &graph.nodes {
            self.node(node)?;
        }
        for output in &graph.outputs {
            self.read(*output)?;
        }
        Ok(())
    }

    fn node(&mut self, node: &Node<'m>) -> Step {
        self.run.nodes_run += 1;
        for input in &node.inputs {
            self.read(*input)?;
        }
        for body in &node.bodies {
            let times = self.choices.next().copied().unwrap_or(1);
            for _ in 0..times {
                let before = self.order.len();
                self.graph(body, false)?;
                self.forget(before);
            }
        }
        for output in &node.outputs {
            self.bind(*output)?;
        }
        Ok(())
    }

    fn bind(&mut self, name: Name<'m>) -> Step {
        if let Some(&defined) = self.bound.get(name.bytes) {
            return Err(End::BoundAgain { place: name.place, defined });
        }
        self.bound.insert(name.bytes, name.place);
        self.order.push(name.bytes);
        self.run.most_bound = self.run.most_bound.max(self.order.len() as u64);
        Ok(())
    }

    fn read(&mut self, name: Name<'m>) -> Step {
        let Some(&defined) = self.bound.get(name.bytes) else {
            return Err(End::Unbound { place: name.place });
        };
        self.run.reads.push(Read { field: name.place, defined });
        Ok(())
    }
}
