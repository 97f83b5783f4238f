//! How many names of lists a model has open at once: so many records of four extra cells the index can use beside the visible names.

use gate_tests::parts::{all, first};
use gate_tests::wire::{fields, Field, BYTES};

/// The functions, and the most names of lists: in the main graph the model's imports with a domain, initializers of the innermost open graph, named
/// nodes of open graphs and attributes of open nodes; in a function its attributes, its imports, and what its nodes have open. The index has no
/// use for initializers of a body but at IR version 3; counting them at every version changes nothing for these models.
pub fn open_at_once(model: &[u8]) -> usize {
    let whole = Field { place: 0, number: 0, kind: BYTES, value: 0, start: 0, end: model.len() };
    let main = imports(model, whole, 8) + first(model, whole, 7).map_or(0, |graph| in_graph(model, graph));
    let within = all(model, whole, 25).map(|function| in_function(model, function)).max().unwrap_or(0);
    all(model, whole, 25).count() + main.max(within)
}

fn imports(model: &[u8], message: Field, number: u32) -> usize {
    all(model, message, number).filter(|import| holds(model, *import, 1)).count()
}

fn holds(model: &[u8], message: Field, number: u32) -> bool {
    first(model, message, number).is_some_and(|field| field.start < field.end)
}

fn in_function(model: &[u8], function: Field) -> usize {
    let attributes = all(model, function, 6).count() + all(model, function, 11).count();
    attributes + imports(model, function, 9) + in_nodes(model, function, 7)
}

/// The most in this graph and below, at any of its nodes, or before them: the list of its initializers is closed then.
fn in_graph(model: &[u8], graph: Field) -> usize {
    all(model, graph, 5).count().max(in_nodes(model, graph, 1))
}

fn in_nodes(model: &[u8], message: Field, number: u32) -> usize {
    let (mut named, mut most) = (0, 0);
    for node in all(model, message, number) {
        named += usize::from(holds(model, node, 3));
        most = most.max(named + in_node(model, node));
    }
    most
}

fn in_node(model: &[u8], node: Field) -> usize {
    let (mut attributes, mut most) = (0, 0);
    for attribute in all(model, node, 5) {
        attributes += 1;
        let bodies = fields(model, attribute.start, attribute.end).filter(|field| matches!(field.number, 6 | 11));
        let below = bodies.map(|body| in_graph(model, body)).max().unwrap_or(0);
        most = most.max(attributes + below);
    }
    most
}
