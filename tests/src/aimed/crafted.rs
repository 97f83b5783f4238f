//! Names that share a bucket, for whoever knows the seed: as names of each kind, in small and in large models.

use super::function_attributes::with;
use super::parts::*;
use super::{accepted, at_last, defined, refused, twice};
use crate::buckets::{colliding, sharing, visible_buckets};
use crate::checker::CELLS_PER_NAME;
use crate::models::proto::Tree;
use crate::rows::Row;

/// The seed for which they are made; any would do.
pub const SEED: u64 = 0x5DEE_CE66_D1CE_4E5B;

const FEW: usize = 16;
const MANY: usize = 1_000;

pub fn few() -> Vec<Row> {
    let names = colliding(SEED, FEW);
    [visible(&names), bodies(&names), lists(&names), of_functions(&names)].concat()
}

/// A thousand visible names in one bucket, and fewer in the lists, where those who read names again take longer.
pub fn crafted() -> Vec<Row> {
    let same = colliding(SEED, MANY);
    let cells = CELLS_PER_NAME * MANY;
    let near = sharing(SEED, visible_buckets(cells, 4 * cells), MANY);
    let lists = [lists(&same[..300]), of_functions(&same[..300])].concat();
    let mut rows = [visible(&same), bodies(&same), lists, visible(&near)].concat();
    for row in &mut rows {
        row.cells = row.cells.max(cells);
    }
    rows
}

/// Nodes that each read the name before.
fn chain(names: &[String]) -> Vec<Tree> {
    let rest = names.windows(2).map(|pair| node(&[&pair[0]], &[&pair[1]]));
    [bind(&names[0])].into_iter().chain(rest).collect()
}

fn visible(names: &[String]) -> Vec<Row> {
    let (last, known) = names.split_last().expect("there are names");
    let mut unseen = chain(known);
    unseen.push(read(last));
    let mut rows = vec![
        accepted("a chain in one bucket", model(graph(chain(names))), names.len(), names.len()),
        refused("read, not bound, in the bucket of all", model(graph(unseen)), 30, (READ, last, 0)),
    ];
    for at in [0, names.len() / 2, names.len() - 1] {
        let again = chain(names).into_iter().chain([bind(&names[at])]);
        rows.push(twice("one of a bucket again", model(graph(again)), (BOUND, &names[at], 1), 0));
    }
    rows
}

/// A body takes half of a bucket with it when it ends.
fn bodies(names: &[String]) -> Vec<Row> {
    let (outer, inner) = names.split_at(names.len() / 2);
    let before = || binds(outer).chain([holder([graph(binds(inner).chain(reads(names)))])]).chain(reads(outer));
    let stale = inner[0].as_str();
    let late = before().chain([read(stale)]);
    let again = before().chain(binds(inner)).chain(reads(names));
    let nodes = 3 * names.len() + 1 + outer.len() + inner.len();
    vec![
        accepted("a bucket with a body's names, bound again", model(graph(again)), nodes, names.len()),
        refused("a body's name of a bucket, later", model(graph(late)), 30, (READ, stale, 1)),
    ]
}

/// The same as names of nodes, of attributes and of initializers.
fn lists(names: &[String]) -> Vec<Row> {
    let nodes = || names.iter().map(|name| named(name));
    let holds = |node: Tree, name: &String| node.tree(5, attribute(name));
    let attributes = || names.iter().fold(node(&[], &[]), holds);
    let inputs = || names.iter().fold(graph([]), |graph, name| graph.tree(11, value(name)));
    let defaults = || names.iter().rev().fold(inputs(), |graph, name| graph.tree(5, tensor(name)));
    let again = &names[names.len() / 2];
    vec![
        accepted("nodes in one bucket", model(graph(nodes())), names.len(), 0),
        accepted("attributes in one bucket", model(graph([attributes()])), 1, 0),
        accepted("defaults in one bucket", model(defaults()), 0, names.len()),
        refused("a node again", model(graph(nodes().chain([named(again)]))), 29, (NODE_NAME, again, 1)),
        refused("an attribute again", model(graph([holds(attributes(), again)])), 31, (ATTRIBUTE_NAME, again, 1)),
        defined(
            "a default again",
            model(defaults().tree(5, tensor(again))),
            (TENSOR_NAME, again, 1),
            (LISTED, again, 0),
        ),
    ]
}

/// The same as names of functions, and of attributes that are referred to.
fn of_functions(names: &[String]) -> Vec<Row> {
    let (again, half) = (&names[names.len() / 2], names.len() / 2);
    let functions = || names.iter().map(|name| function(name));
    let one = |attributes: &[String], defaults: &[String], referred: &[String]| {
        let numbered = referred.iter().enumerate();
        let node = numbered.fold(node(&[], &[]), |node, (at, of)| node.tree(5, reference(&format!("k{at}"), of)));
        with_functions(8, graph([]), [with(function("f"), attributes, defaults).tree(7, node)]).encode()
    };
    let twice = with_functions(8, graph([]), functions().chain([function(again)]));
    vec![
        accepted("functions in one bucket", with_functions(8, graph([]), functions()).encode(), 0, 0),
        at_last("a function again", 41, twice),
        accepted("references in one bucket", one(&names[..half], &names[half..], names), 1, 0),
        refused("a default again", one(names, &names[half..=half], names), 42, (ATTRIBUTE_NAME, again, 0)),
    ]
}
