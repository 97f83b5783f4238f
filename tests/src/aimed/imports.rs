//! Imports: each domain once, under either of its names, wherever they stand in the model; and nodes that use them.

use super::parts::{graph, names, node};
use super::{accepted, at_last, AGAIN, MANY};
use crate::models::lists::{self, Entry};
use crate::models::proto::Tree;
use crate::rows::Row;
use crate::schema::Message;

pub fn rows() -> Vec<Row> {
    let rows = [few(), few_twice(), missing(), many(), versions()].concat();
    rows.into_iter().map(|row| Row { list: list(), ..row }).collect()
}

/// The default domain and many others, all from 7 to 21.
pub fn list() -> Vec<u8> {
    let domains = std::iter::once(String::new()).chain(names('d', MANY));
    let entries = domains.map(|domain| Entry { domain: domain.into_bytes(), lowest: 7, highest: 21 });
    lists::encode(&entries.collect::<Vec<_>>())
}

pub fn import(domain: &str, version: u64) -> Tree {
    Tree::new(Message::OperatorSetId).text(1, domain).number(2, version)
}

/// Imports with unknown fields before and between them, and a graph whose nodes have these domains.
fn model(domains: &[&str], used: &[&str], unknown: usize) -> Tree {
    let nodes = used.iter().map(|domain| node(&[], &[]).text(7, domain));
    let fields = |model: Tree| (0..unknown).fold(model, |model, at| model.number(100 + at as u32, 1));
    let imports =
        |model: Tree, part: &[&str]| part.iter().fold(model, |model, domain| fields(model).tree(8, import(domain, 13)));
    let (before, after) = domains.split_at(domains.len() / 2);
    let head = imports(Tree::new(Message::Model).number(1, 8), before);
    imports(head.tree(7, graph(nodes)), after)
}

fn few() -> Vec<Row> {
    let fits = |name: &str, domains: &[&str], used: &[&str], unknown: usize| {
        accepted(name, model(domains, used, unknown).encode(), used.len(), 0)
    };
    vec![
        fits("the alias is used", &[""], &["ai.onnx", "", "ai.onnx"], 0),
        fits("the alias is imported", &["ai.onnx"], &["", "ai.onnx", ""], 2),
        fits("the alias as the last", &["d1", "d2", "ai.onnx"], &["", "d2", "ai.onnx", "d1"], 3),
        fits("the second and the third", &["d0", "d1", "d2"], &["d1", "d2", "d1", "d0"], 5),
        fits("none is used", &["d3", "d4"], &[], 1),
    ]
}

fn few_twice() -> Vec<Row> {
    let twice = |name: &str, domains: &[&str], unknown: usize| at_last(name, 13, model(domains, &[], unknown));
    vec![
        twice("the default domain", &["", ""], 0),
        twice("the default domain and its alias", &["", "d0", "ai.onnx"], 4),
        twice("the alias and the default domain", &["ai.onnx", "d0", ""], 4),
        twice("the alias", &["d0", "ai.onnx", "d1", "ai.onnx"], 1),
        twice("another", &["d0", "d1", "d0"], 2),
        twice("with much between", &["d0", "d1", "d2", "d3", "d1"], 9),
    ]
}

/// 28 at the domain, whose tag in a node is 3A.
fn missing() -> Vec<Row> {
    let lacks = |name: &str, domains: &[&str], used: &[&str], wrong: &str| {
        let model = model(domains, used, 2).encode();
        super::refused(name, model, 28, (0x3A, wrong, 0))
    };
    vec![
        lacks("a domain of the list", &["", "d0"], &["d0", "", "d1"], "d1"),
        lacks("the alias", &["d0", "d1"], &["d1", "d0", "ai.onnx"], "ai.onnx"),
        lacks("the default domain", &["d0", "d1", "d2"], &["d2", ""], ""),
        lacks("the beginning of a domain", &["d10", "ai.onnx", "d11"], &["d11", "", "d1"], "d1"),
        lacks("the beginning of the alias", &["ai.onnx"], &["", "ai.onn"], "ai.onn"),
    ]
}

fn many() -> Vec<Row> {
    let domains = names('d', MANY);
    let all: Vec<&str> = domains.iter().map(String::as_str).collect();
    let used: Vec<&str> = all.iter().rev().chain(&all).copied().collect();
    let mut rows = vec![accepted("many domains", model(&all, &used, 2).encode(), used.len(), 0)];
    for at in AGAIN {
        let again = [&all[..], &all[at..=at]].concat();
        rows.push(at_last("one of many again", 13, model(&again, &[], 1)));
        let others = [&all[..at], &all[at + 1..]].concat();
        let lacking = model(&others, &[&others[..], &all[at..=at]].concat(), 1).encode();
        rows.push(super::refused("one of many missing", lacking, 28, (0x3A, all[at], 0)));
    }
    rows
}

/// 13 comes before 14 in one import, and 14 of an earlier one before 13 of a later.
fn versions() -> Vec<Row> {
    let after = |domains: &[&str], last: Tree| model(domains, &[], 1).tree(8, last);
    vec![
        at_last("a version too high", 14, after(&["d0", "d1", "d2"], import("d3", 22))),
        at_last("again, and too high", 13, after(&["d0", "d1", "d2"], import("d1", 22))),
        at_last("a domain that the list lacks", 14, after(&["d0", ""], import("e", 13))),
    ]
}
