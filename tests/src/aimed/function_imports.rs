//! Imports of functions, beside those of the model and of other functions: each domain once, and no other one used.

use super::imports::{import, list};
use super::parts::*;
use super::{accepted, refused, AGAIN, MANY};
use crate::checker::Verdict;
use crate::models::proto::Tree;
use crate::rows::Row;
use crate::schema::Message;

pub fn rows() -> Vec<Row> {
    let rows = [few(), many(), of_the_model(), of_others()].concat();
    rows.into_iter().map(|row| Row { list: list(), ..row }).collect()
}

/// A function with these imports, and a node of each of these domains.
fn importing(name: &str, domains: &[&str], used: &[&str]) -> Tree {
    let f = Tree::new(Message::Function).text(1, name);
    let f = domains.iter().fold(f, |function, domain| function.tree(9, import(domain, 13)));
    used.iter().fold(f, |function, domain| function.tree(7, node(&[], &[]).text(7, domain)))
}

/// A model with these imports and functions.
fn model_of(domains: &[&str], functions: impl IntoIterator<Item = Tree>) -> Tree {
    let header = Tree::new(Message::Model).number(1, 8);
    let model = domains.iter().fold(header, |model, domain| model.tree(8, import(domain, 13)));
    functions.into_iter().fold(model.tree(7, graph([])), |model, function| model.tree(25, function))
}

/// 13 at the last import of the last function, which stands at the model's end.
fn twice(name: &str, model: Tree) -> Row {
    let last = model.children(25).last().and_then(|function| function.children(9).last());
    let length = last.map_or(0, |import| 2 + import.encode().len());
    let model = model.encode();
    let answer = Verdict::refused(13, (model.len() - length) as u64);
    Row { answer, ..accepted(name, model, 0, 0) }
}

fn few() -> Vec<Row> {
    let alias = ["d1", "ai.onnx"];
    vec![
        accepted(
            "the alias is a function's import",
            model_of(&["d0"], [importing("f", &alias, &["", "d1", "ai.onnx"])]).encode(),
            3,
            0,
        ),
        twice(
            "a function's default domain and its alias",
            model_of(&["d0"], [importing("f", &["", "d0", "ai.onnx"], &[])]),
        ),
        refused(
            "the default domain is the model's",
            model_of(&[""], [importing("f", &["d0"], &["d0", ""])]).encode(),
            28,
            (DOMAIN, "", 0),
        ),
        refused(
            "the alias is the model's",
            model_of(&["ai.onnx"], [importing("f", &["d0"], &["d0", "ai.onnx"])]).encode(),
            28,
            (DOMAIN, "ai.onnx", 0),
        ),
    ]
}

fn many() -> Vec<Row> {
    let domains = names('d', MANY);
    let all: Vec<&str> = domains.iter().map(String::as_str).collect();
    let used: Vec<&str> = all.iter().rev().chain(&all).copied().collect();
    let mut rows = vec![accepted(
        "many imports of a function",
        model_of(&[""], [importing("f", &all, &used)]).encode(),
        used.len(),
        0,
    )];
    for at in AGAIN {
        let again = [&all[..], &all[at..=at]].concat();
        rows.push(twice("one of a function's many again", model_of(&[""], [importing("f", &again, &[])])));
        let others = [&all[..at], &all[at + 1..]].concat();
        let lacking = importing("f", &others, &[&others[..], &all[at..=at]].concat());
        rows.push(refused(
            "one of a function's many missing",
            model_of(&[""], [lacking]).encode(),
            28,
            (DOMAIN, all[at], 0),
        ));
    }
    rows
}

/// The model has many imports of its own, which stay in their list and do not serve.
fn of_the_model() -> Vec<Row> {
    let domains = names('d', MANY);
    let all: Vec<&str> = domains.iter().map(String::as_str).collect();
    let both = model_of(&all, [importing("f", &all, &all)]).encode();
    let mut rows = vec![accepted("the same imports in model and function", both, MANY, 0)];
    for at in AGAIN {
        let default = importing("f", &[""], &["", all[at]]);
        rows.push(refused("one of the model's", model_of(&all, [default]).encode(), 28, (DOMAIN, all[at], 0)));
        let others = [&all[..at], &all[at + 1..]].concat();
        let lacking = importing("f", &others, &[&others[..], &all[at..=at]].concat());
        rows.push(refused(
            "the one that only the model has",
            model_of(&all, [lacking]).encode(),
            28,
            (DOMAIN, all[at], 0),
        ));
        let again = [&others[..], &others[at / 2..=at / 2]].concat();
        rows.push(twice("one twice, which the model has too", model_of(&all, [importing("f", &again, &[])])));
    }
    rows
}

/// Each function starts with none.
fn of_others() -> Vec<Row> {
    let domains = names('d', MANY);
    let all: Vec<&str> = domains.iter().map(String::as_str).collect();
    let (first, second) = all.split_at(MANY / 2);
    let before = || [importing("f", first, first), importing("g", second, second)].into_iter();
    let mut rows = vec![accepted("functions with other imports", model_of(&[""], before()).encode(), MANY, 0)];
    for at in AGAIN {
        let last = importing("h", &[""], &["", all[at]]);
        let nth = 1;
        let model = model_of(&[""], before().chain([last])).encode();
        rows.push(refused("one of an earlier function's", model, 28, (DOMAIN, all[at], nth)));
    }
    rows
}
