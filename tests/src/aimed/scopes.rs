//! Visible names: those of an ended body, which may be bound again and not be read, and those around it, which stay.

use super::parts::*;
use super::{accepted, refused, twice, AGAIN, MANY};
use crate::models::proto::Tree;
use crate::rows::Row;

pub fn rows() -> Vec<Row> {
    let few = [bound_again(), bound_twice(), read_after(), lists_apart(), deep()].concat();
    [few, outside(), refilled(), earlier_place(), half_refilled()].concat()
}

/// What an ended body bound is free again: for a sibling, for the node itself, and after it.
fn bound_again() -> Vec<Row> {
    let with_body = |node: Tree| node.tree(5, body("b", graph([bind("x")])));
    let input = || graph([]).tree(11, value("x"));
    let initializer = || graph([]).tree(5, tensor("x"));
    vec![
        accepted("by a sibling", model(graph([holder([graph([bind("x")]), graph([bind("x")])])])), 3, 1),
        accepted("as a sibling's input", model(graph([holder([graph([bind("x")]), input()])])), 2, 1),
        accepted("as a sibling's initializer", model(graph([holder([input(), initializer(), input()])])), 1, 1),
        accepted("by the node itself", model(graph([with_body(bind("x"))])), 2, 1),
        accepted("by the next node", model(graph([with_body(node(&[], &[])), bind("x"), read("x")])), 4, 1),
        accepted("by the node and then by a body", model(graph([with_body(bind("y")), read("y")])), 3, 1),
    ]
}

fn bound_twice() -> Vec<Row> {
    let ended = || holder([graph([bind("x")])]);
    let of = |name: &str, nodes: Vec<Tree>, nth: usize, first: usize| {
        twice(name, model(graph(nodes)), (BOUND, "x", nth), first)
    };
    let second = holder([graph([bind("y")]), graph([bind("x")])]);
    vec![
        of("twice after a body", vec![ended(), bind("x"), bind("x")], 2, 1),
        of("before a body and in it", vec![bind("x"), ended()], 1, 0),
        of("before a body and in the second", vec![bind("x"), second], 1, 0),
        of("between two bodies", vec![ended(), bind("x"), ended()], 2, 1),
        of("in one body", vec![holder([graph([bind("y"), bind("x"), bind("x")])])], 1, 0),
        of("in a body's body", vec![holder([graph([bind("x"), ended()])])], 1, 0),
        of("in the body after two that bind it", vec![ended(), ended(), holder([graph([bind("x"), bind("x")])])], 3, 2),
    ]
}

/// What an ended body bound is not visible to anyone.
fn read_after() -> Vec<Row> {
    let ended = || graph([bind("x")]);
    let unseen = |name: &str, nodes: Vec<Tree>| refused(name, model(graph(nodes)), 30, (READ, "x", 0));
    let listed = |name: &str, graph: Tree| refused(name, model(graph), 35, (LISTED, "x", 0));
    let by_itself = node(&["x"], &[]).tree(5, body("b", ended()));
    vec![
        unseen("read by the next node", vec![holder([ended()]), read("x")]),
        unseen("read once another is bound", vec![holder([ended()]), bind("y"), read("x")]),
        unseen("read by a sibling", vec![holder([ended(), graph([read("x")])])]),
        unseen("read by a sibling that binds another", vec![holder([ended(), graph([bind("y"), read("x")])])]),
        unseen("read by the body around it", vec![holder([graph([holder([ended()]), read("x")])])]),
        unseen("read by its own node", vec![by_itself]),
        listed("listed by the main graph", graph([holder([ended()])]).tree(12, value("x"))),
        listed("listed by a sibling", graph([holder([ended(), graph([]).tree(12, value("x"))])])),
    ]
}

/// A node's name, an attribute's and a visible name may be one; none stands for another.
fn lists_apart() -> Vec<Row> {
    let all = |reads: &[&str], binds: &[&str]| node(reads, binds).text(3, "a").tree(5, attribute("a"));
    let inner = body("b", graph([all(&["a"], &["c"])]));
    let known = node(&["a"], &[]).tree(5, attribute("a")).tree(5, inner);
    vec![
        accepted("one name in all lists", model(graph([all(&[], &["a"]), known])), 3, 2),
        refused("a node's name is not visible", model(graph([named("x"), read("x")])), 30, (READ, "x", 0)),
        refused(
            "an attribute's name is not visible",
            model(graph([node(&[], &[]).tree(5, attribute("x")), read("x")])),
            30,
            (READ, "x", 1),
        ),
    ]
}

/// Names of the outer graph, read in each of three bodies that bind as many, and after them.
fn outside() -> Vec<Row> {
    let (outer, inner) = (names('t', MANY), names('u', MANY));
    let bodies = (0..3).map(|_| graph(binds(&inner).chain(reads(&outer)).chain(reads(&inner))));
    let nodes = binds(&outer).chain([holder(bodies)]).chain(reads(&outer));
    vec![accepted("outer names after bodies", model(graph(nodes)), 2 * MANY + 1 + 3 * 3 * MANY, 2 * MANY)]
}

/// A body with many names, and then as many others in their places.
fn refilled() -> Vec<Row> {
    let (inner, outer) = (names('u', MANY), names('t', MANY));
    let ended = || holder([graph(binds(&inner))]);
    let backwards: Vec<String> = inner.iter().rev().cloned().collect();
    let same = [ended()].into_iter().chain(binds(&backwards)).chain(reads(&inner));
    let mut rows = vec![accepted("a body's names in reverse", model(graph(same)), 3 * MANY + 1, MANY)];
    for at in AGAIN {
        let stale = inner[at].as_str();
        let nodes = [ended()].into_iter().chain(binds(&outer)).chain([read(stale)]);
        rows.push(refused("a body's name, its place taken", model(graph(nodes)), 30, (READ, stale, 0)));
        let nodes = [ended(), read(stale)];
        rows.push(refused("a body's name, its place free", model(graph(nodes)), 30, (READ, stale, 0)));
        let again = [ended()].into_iter().chain(binds(&inner)).chain([bind(stale)]);
        rows.push(twice("a body's names and one twice", model(graph(again)), (BOUND, stale, 2), 1));
    }
    rows
}

/// A name of an ended body bound anew in an earlier place: what is left of the body's own must not stand for it.
fn earlier_place() -> Vec<Row> {
    let inner = names('u', MANY);
    let ended = || holder([graph(binds(&inner))]);
    let mut rows = Vec::new();
    for name in AGAIN.map(|at| inner[at].as_str()) {
        let again = [ended(), bind(name), read(name), holder([graph([bind("v"), read(name)])])];
        rows.push(accepted("a body's name in an earlier place", model(graph(again)), MANY + 6, MANY));
        let again = [ended(), bind(name), bind(name)];
        rows.push(twice("in an earlier place, twice", model(graph(again)), (BOUND, name, 2), 1));
    }
    rows
}

/// Half of the places of an ended body are taken again: the other half is neither visible nor in the way.
fn half_refilled() -> Vec<Row> {
    let (inner, outer) = (names('u', MANY), names('t', MANY / 2));
    let before = || [holder([graph(binds(&inner))])].into_iter().chain(binds(&outer));
    let again = before().chain([holder([graph(binds(&inner).chain(reads(&outer)).chain(reads(&inner)))])]);
    let nodes = 2 + 3 * MANY + 2 * outer.len();
    let mut rows = vec![accepted("a body's names in a later one", model(graph(again)), nodes, MANY + outer.len())];
    for at in AGAIN {
        let stale = inner[at].as_str();
        let late = before().chain([read(stale)]);
        rows.push(refused("half of the places taken", model(graph(late)), 30, (READ, stale, 0)));
        let inside = before().chain([holder([graph([bind("v"), read(stale)])])]);
        rows.push(refused("half taken, read in a body", model(graph(inside)), 30, (READ, stale, 0)));
    }
    rows
}

/// Bodies to depth 8. Each level binds its own name before the next one, and the next one's name after it.
fn deep() -> Vec<Row> {
    fn level(depth: usize) -> Vec<Tree> {
        let own = bind(&format!("d{depth}"));
        if depth == 8 {
            return vec![own];
        }
        vec![own, holder([graph(level(depth + 1))]), bind(&format!("d{}", depth + 1))]
    }
    let mut unseen = level(1);
    unseen.push(read("d3"));
    vec![
        accepted("names of eight depths", model(graph(level(1))), 7 * 3 + 1, 8),
        refused("a name of depth 3 at depth 1", model(graph(unseen)), 30, (READ, "d3", 0)),
    ]
}
