//! Names of attributes: once in a node, and as often as one likes in others, those of its own bodies included.

use super::parts::*;
use super::{accepted, refused, AGAIN, MANY};
use crate::models::proto::Tree;
use crate::rows::Row;
use crate::schema::Message;

pub fn rows() -> Vec<Row> {
    [few(), few_twice(), many(), nested_between(), nested_below()].concat()
}

/// A node with these attributes.
fn with(attributes: impl IntoIterator<Item = Tree>) -> Tree {
    attributes.into_iter().fold(node(&[], &[]), |node, attribute| node.tree(5, attribute))
}

fn all(names: &[String]) -> impl Iterator<Item = Tree> + '_ {
    names.iter().map(|name| attribute(name))
}

/// A body whose one node has these attributes.
fn inner(name: &str, attributes: impl IntoIterator<Item = Tree>) -> Tree {
    body(name, graph([with(attributes)]))
}

fn few() -> Vec<Row> {
    let k = || attribute("k");
    let two_graphs = |name: &str| {
        let graph = || graph([with([k()])]);
        Tree::new(Message::Attribute).text(1, name).tree(11, graph()).tree(11, graph()).number(20, 10)
    };
    vec![
        accepted("attributes of two nodes", model(graph([with([k()]), with([k()])])), 2, 0),
        accepted("an attribute and one in its body", model(graph([with([inner("k", [k()])])])), 2, 0),
        accepted("attributes of siblings", model(graph([with([two_graphs("b"), k()])])), 3, 0),
        accepted(
            "an attribute of an ended body",
            model(graph([with([k(), inner("b", [k(), attribute("l")]), attribute("l")])])),
            2,
            0,
        ),
    ]
}

fn few_twice() -> Vec<Row> {
    let k = || attribute("k");
    let twice = |name: &str, attributes: Vec<Tree>, nth: usize| {
        refused(name, model(graph([with(attributes)])), 31, (ATTRIBUTE_NAME, "k", nth))
    };
    let between = || inner("b", [k(), attribute("l")]);
    vec![
        twice("at once", vec![k(), k()], 1),
        twice("with others between", vec![attribute("j"), k(), attribute("l"), k()], 1),
        twice("with a body between", vec![k(), between(), k()], 2),
        twice("after a body that has it", vec![between(), k(), k()], 2),
        twice("the body's own attribute", vec![inner("k", [k()]), k()], 2),
        twice("in a body", vec![k(), inner("b", [k(), k()])], 2),
        twice("in a body's body", vec![inner("b", [k(), inner("c", [k()]), k()])], 2),
    ]
}

fn many() -> Vec<Row> {
    let names = names('k', MANY);
    let two = [with(all(&names)), with(all(&names))];
    let mut rows = vec![accepted("many names of attributes, twice", model(graph(two)), 2, 0)];
    for at in AGAIN {
        let again = with(all(&names).chain([attribute(&names[at])]));
        rows.push(refused("one of many again", model(graph([again])), 31, (ATTRIBUTE_NAME, &names[at], 1)));
        let later = [with(all(&names)), with([attribute("j"), attribute(&names[at]), attribute(&names[at])])];
        rows.push(refused("one again in the next node", model(graph(later)), 31, (ATTRIBUTE_NAME, &names[at], 2)));
    }
    rows
}

/// Half of the names, a body whose node has all of them, the other half.
fn nested_between() -> Vec<Row> {
    let names = names('k', MANY);
    let (first, second) = names.split_at(MANY / 2);
    let attributes = || all(first).chain([inner("b", all(&names))]).chain(all(second));
    let mut rows = vec![accepted("a body's many between", model(graph([with(attributes())])), 2, 0)];
    for at in AGAIN {
        let again = with(attributes().chain([attribute(&names[at])]));
        let field = (ATTRIBUTE_NAME, names[at].as_str(), 2);
        rows.push(refused("a body's many between, one again", model(graph([again])), 31, field));
    }
    rows
}

/// Named nodes and attributes around a body leave it little room: its own are the first to be read again.
fn nested_below() -> Vec<Row> {
    let names = names('k', MANY);
    let mut rows = Vec::new();
    for at in AGAIN {
        let below = inner("b", all(&names).chain([attribute(&names[at])]));
        let around = with(all(&names[..5]).chain([below])).text(3, "n");
        let nth = if at < 5 { 2 } else { 1 };
        let field = (ATTRIBUTE_NAME, names[at].as_str(), nth);
        rows.push(refused("one of many again in a body", model(graph([named("m"), around])), 31, field));
    }
    rows
}
