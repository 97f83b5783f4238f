//! Functions: each once by name and domain, from IR version 10 by overload too, with lists that are open in them and closed again.

use super::defaults::behind_imports;
use super::parts::*;
use super::{accepted, at_last, AGAIN, MANY};
use crate::models::proto::Tree;
use crate::rows::Row;

pub fn rows() -> Vec<Row> {
    let crowded = [by_name(), with_lists()].concat().into_iter().map(behind_imports).collect();
    [by_name(), by_domain(), by_overload(), by_all(), with_lists(), lists_apart(), crowded].concat()
}

fn all(names: &[String]) -> impl Iterator<Item = Tree> + '_ {
    names.iter().map(|name| function(name))
}

fn of_domain(domain: &str) -> Tree {
    function("f").text(10, domain)
}

fn overloaded(overload: &str) -> Tree {
    function("f").text(13, overload)
}

fn model_of(ir_version: u64, functions: impl IntoIterator<Item = Tree>) -> Tree {
    with_functions(ir_version, graph([]), functions)
}

fn by_name() -> Vec<Row> {
    let names = names('f', MANY);
    let mut rows = vec![accepted("many functions", model_of(8, all(&names)).encode(), 0, 0)];
    for at in AGAIN {
        let again = all(&names).chain([function(&names[at])]);
        rows.push(at_last("one of many functions again", 41, model_of(8, again)));
        let aliased = all(&names).chain([function(&names[at]).text(10, "ai.onnx")]);
        rows.push(at_last("one of many functions again, of ai.onnx", 41, model_of(8, aliased)));
        let longer = all(&names).chain([function(&format!("{}_", names[at]))]);
        rows.push(accepted("one of many functions, its name longer", model_of(8, longer).encode(), 0, 0));
    }
    rows
}

/// One name in many domains: names alone tell nothing.
fn by_domain() -> Vec<Row> {
    let domains = names('d', MANY);
    let functions = || domains.iter().map(|domain| of_domain(domain));
    let default = functions().chain([function("f")]);
    let mut rows = vec![
        accepted("one name in many domains", model_of(8, default).encode(), 0, 0),
        at_last("the default domain and its alias", 41, model_of(8, functions().chain(["ai.onnx", ""].map(of_domain)))),
    ];
    for at in AGAIN {
        let again = functions().chain([of_domain(&domains[at])]);
        rows.push(at_last("one of many domains again", 41, model_of(8, again)));
        let other_name = functions().chain([function("g").text(10, &domains[at])]);
        rows.push(accepted("one of many domains, another name", model_of(8, other_name).encode(), 0, 0));
    }
    rows
}

/// One name and one domain with many overloads.
fn by_overload() -> Vec<Row> {
    let overloads = names('o', MANY);
    let functions = || overloads.iter().map(|overload| overloaded(overload));
    let none = functions().chain([function("f")]);
    let mut rows = vec![accepted("many overloads and none", model_of(10, none).encode(), 0, 0)];
    rows.push(at_last("two overloads, IR 9", 41, model_of(9, functions().take(2))));
    for at in AGAIN {
        let again = functions().chain([overloaded(&overloads[at])]);
        rows.push(at_last("one of many overloads again", 41, model_of(10, again)));
        let aliased = functions().chain([overloaded(&overloads[at]).text(10, "ai.onnx")]);
        rows.push(at_last("one of many overloads again, of ai.onnx", 41, model_of(11, aliased)));
        let elsewhere = functions().chain([overloaded(&overloads[at]).text(10, "d")]);
        rows.push(accepted("one of many overloads in another domain", model_of(10, elsewhere).encode(), 0, 0));
    }
    rows
}

/// Names, domains and overloads by turns: any two of them agree often, all three once.
fn by_all() -> Vec<Row> {
    let triple = |at: usize| {
        let [name, domain, overload] = [at % 3, at / 3 % 3, at / 9].map(|one| format!("n{one}"));
        function(&name).text(10, domain).text(13, overload)
    };
    let functions = || (0..27).map(triple);
    let mut rows = vec![
        accepted("names, domains and overloads by turns", model_of(10, functions()).encode(), 0, 0),
        at_last("the same, IR 9", 41, model_of(9, functions().take(10))),
    ];
    for at in [0, 1, 3, 9, 13, 26] {
        rows.push(at_last("one of them again", 41, model_of(11, functions().chain([triple(at)]))));
    }
    rows
}

/// A function with a list of each kind: attributes, defaults, imports, and in its body names of nodes and of attributes.
fn full(name: &str) -> Tree {
    let own = names('f', 5);
    let of_6 = own.iter().fold(function(name), |function, name| function.text(6, name));
    let of_11 = names('g', 5).iter().fold(of_6, |function, name| function.tree(11, attribute(name)));
    let node = own.iter().fold(named("f1"), |node, name| node.tree(5, reference(name, "f0")));
    let inner = holder([graph(own.iter().map(|name| named(name)))]);
    of_11.text(4, "f0").tree(7, node).tree(7, inner).tree(7, named("f0"))
}

/// Those lists stand above that of the functions and are dropped with them.
fn with_lists() -> Vec<Row> {
    let names = names('f', MANY);
    let functions = || names.iter().map(|name| full(name));
    let whole = model_of(8, functions()).encode();
    let mut rows = vec![accepted("many functions with lists of their own", whole, MANY * 8, 1)];
    for at in AGAIN {
        let again = functions().chain([full(&names[at])]);
        rows.push(at_last("one of many with lists again", 41, model_of(8, again)));
    }
    rows
}

/// Names of functions are in no other list.
fn lists_apart() -> Vec<Row> {
    let main = || {
        let node = named("f").tree(5, attribute("f")).tree(5, body("g", graph([named("f"), bind("f")])));
        graph([bind("f"), node])
    };
    let unlike = graph([bind("f"), named("f").tree(5, attribute("f"))]);
    let within = function("g").text(6, "f").text(4, "f").tree(7, named("f").tree(5, attribute("f")));
    vec![
        accepted(
            "a function named as what the main graph has",
            with_functions(8, unlike, [function("f"), within]).encode(),
            3,
            1,
        ),
        super::twice(
            "23 in the main graph before functions",
            with_functions(8, main(), [function("f"), function("f")]).encode(),
            (BOUND, "f", 1),
            0,
        ),
    ]
}
