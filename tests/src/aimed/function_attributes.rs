//! Attributes of functions: each name once in both lists together, and as often as one likes in other functions.

use super::defaults::behind_imports;
use super::parts::*;
use super::{accepted, refused, AGAIN, MANY};
use crate::models::proto::Tree;
use crate::rows::Row;

pub fn rows() -> Vec<Row> {
    let crowded = both().into_iter().map(behind_imports).collect();
    [few(), names_only(), defaults_only(), both(), in_each(), behind_lists(), crowded].concat()
}

/// The function with these names in field 6, and these in field 11.
pub(super) fn with(function: Tree, attributes: &[String], defaults: &[String]) -> Tree {
    let function = attributes.iter().fold(function, |function, name| function.text(6, name));
    defaults.iter().fold(function, |function, name| function.tree(11, attribute(name)))
}

fn model_of(functions: impl IntoIterator<Item = Tree>) -> Vec<u8> {
    with_functions(8, graph([]), functions).encode()
}

fn f(attributes: &[String], defaults: &[String]) -> Tree {
    with(function("f"), attributes, defaults)
}

fn list(names: &[&str]) -> Vec<String> {
    names.iter().map(|name| name.to_string()).collect()
}

fn few() -> Vec<Row> {
    let of = |attributes: &[&str], defaults: &[&str]| model_of([f(&list(attributes), &list(defaults))]);
    let first = f(&[], &list(&["a"])).text(6, "a");
    vec![
        refused("two attributes", of(&["a", "b", "a"], &["c"]), 42, (OF_FUNCTION, "a", 1)),
        refused("two defaults", of(&["c"], &["a", "b", "a"]), 42, (ATTRIBUTE_NAME, "a", 1)),
        refused("in both lists", of(&["a", "b"], &["c", "a"]), 42, (ATTRIBUTE_NAME, "a", 0)),
        refused("in both lists, the default first", model_of([first]), 42, (ATTRIBUTE_NAME, "a", 0)),
        accepted("in two functions", model_of([f(&list(&["a"]), &[]), with(function("g"), &[], &list(&["a"]))]), 0, 0),
    ]
}

fn names_only() -> Vec<Row> {
    let names = names('a', MANY);
    let mut rows = vec![accepted("many attributes", model_of([f(&names, &[])]), 0, 0)];
    for at in AGAIN {
        let again = [&names[..], &names[at..=at]].concat();
        rows.push(refused(
            "one of many attributes again",
            model_of([f(&again, &[])]),
            42,
            (OF_FUNCTION, &names[at], 1),
        ));
    }
    rows
}

fn defaults_only() -> Vec<Row> {
    let names = names('a', MANY);
    let mut rows = vec![accepted("many defaults", model_of([f(&[], &names)]), 0, 0)];
    for at in AGAIN {
        let again = [&names[..], &names[at..=at]].concat();
        let field = (ATTRIBUTE_NAME, names[at].as_str(), 1);
        rows.push(refused("one of many defaults again", model_of([f(&[], &again)]), 42, field));
    }
    rows
}

/// Half of the names in each list, and one of either half again in either list.
fn both() -> Vec<Row> {
    let names = names('a', MANY);
    let (first, second) = names.split_at(MANY / 2);
    let mut rows = vec![accepted("many in both lists", model_of([f(first, second)]), 0, 0)];
    for at in AGAIN {
        let name = &names[at..=at];
        let (own, other) = if at < MANY / 2 { (1, 0) } else { (0, 1) };
        let in_first = model_of([f(&[first, name].concat(), second)]);
        let field = if own == 1 { (OF_FUNCTION, &name[0][..], 1) } else { (ATTRIBUTE_NAME, &name[0][..], 0) };
        rows.push(refused("one of either list again in the first", in_first, 42, field));
        let in_second = model_of([f(first, &[second, name].concat())]);
        rows.push(refused("one of either list again in the second", in_second, 42, (ATTRIBUTE_NAME, &name[0], other)));
    }
    rows
}

/// Several functions, each with all the names, and one again in the last.
fn in_each() -> Vec<Row> {
    let names = names('a', MANY);
    let (first, second) = names.split_at(MANY / 2);
    let all = || ["f", "g", "h"].map(|name| with(function(name), first, second)).into_iter();
    let mut rows = vec![accepted("many in each of three functions", model_of(all()), 0, 0)];
    for at in AGAIN {
        let again = with(function("i"), &[first, second, &names[at..=at]].concat(), &[]);
        let nth = if at < MANY / 2 { 4 } else { 1 };
        let field = (OF_FUNCTION, names[at].as_str(), nth);
        rows.push(refused("one again in a fourth", model_of(all().chain([again])), 42, field));
    }
    rows
}

/// Behind many functions, whose names stay in their list, and behind a body with lists that are closed.
fn behind_lists() -> Vec<Row> {
    let (names, others) = (names('a', MANY), names('f', MANY));
    let before = || others.iter().map(|name| function(name));
    let body = || {
        let nodes = names.iter().map(|name| named(name).tree(5, attribute(name)));
        nodes.fold(function("body"), |function, node| function.tree(7, node))
    };
    let whole = model_of(before().chain([body(), f(&names, &[])]));
    let mut rows = vec![accepted("many attributes behind many functions", whole, MANY, 0)];
    for at in AGAIN {
        let again = f(&[&names[..], &names[at..=at]].concat(), &[]);
        let field = (OF_FUNCTION, names[at].as_str(), 1);
        rows.push(refused("one again behind many functions", model_of(before().chain([body(), again])), 42, field));
    }
    rows
}
