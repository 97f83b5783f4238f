//! Models that begin with a name. What is absent reads as no bytes, and these may be held as none from the model's start on: they
//! must not be taken for what stands there.

use super::parts::*;
use super::{accepted, refused};
use crate::models::lists::{self, Entry};
use crate::models::proto::Tree;
use crate::rows::Row;
use crate::schema::Message;

/// `a` is the tag of an unknown field of eight bytes.
const START: &str = "abcdefghi";

pub fn rows() -> Vec<Row> {
    // names are compared in eights of bytes, and then byte by byte
    let names = [1, 2, 7, 8, 9].map(|length| &START[..length]);
    let mut rows: Vec<Row> = names.into_iter().flat_map(|name| [of_nodes(name), of_values(name)].concat()).collect();
    rows.extend(names.into_iter().flat_map(of_domains));
    rows.extend(names.into_iter().flat_map(of_functions));
    rows
}

fn begun(model: Vec<u8>) -> Vec<u8> {
    [START.as_bytes(), &model].concat()
}

fn of_nodes(name: &str) -> Vec<Row> {
    let empty = || named("");
    let nodes = |nodes: Vec<Tree>| begun(model(graph(nodes)));
    let inner = || holder([graph([bind("x"), named(name)])]);
    vec![
        accepted("a node after an unnamed one", nodes(vec![node(&[], &[]), named(name)]), 2, 0),
        accepted("a node after one of an empty name", nodes(vec![empty(), named(name), empty()]), 3, 0),
        accepted("a node after an unnamed one in a body", nodes(vec![inner(), named(name)]), 4, 1),
        refused("a node twice", nodes(vec![node(&[], &[]), named(name), named(name)]), 29, (NODE_NAME, name, 1)),
    ]
}

fn of_values(name: &str) -> Vec<Row> {
    let left_out = || node(&["", ""], &["", ""]);
    let listed = graph([left_out()]).tree(12, Tree::new(Message::ValueInfo).text(1, name));
    let input = graph([]).tree(11, value("x")).tree(5, tensor(name)).tree(5, tensor("x"));
    vec![
        refused("a read where nothing is bound", begun(model(graph([read(name)]))), 30, (READ, name, 0)),
        refused("a read after what is left out", begun(model(graph([left_out(), read(name)]))), 30, (READ, name, 0)),
        refused("an output that nothing binds", begun(model(listed)), 35, (LISTED, name, 0)),
        accepted("bound after what is left out", begun(model(graph([left_out(), bind(name)]))), 2, 1),
        accepted("an initializer beside an input", begun(model(input)), 0, 2),
    ]
}

/// The domain is imported beside the default one, before it and after it, and then alone.
fn of_domains(domain: &str) -> Vec<Row> {
    let import = |domain: &str| Tree::new(Message::OperatorSetId).text(1, domain).number(2, 13);
    let default = || Tree::new(Message::OperatorSetId).number(2, 13);
    let with = |imports: Vec<Tree>, nodes: Vec<Tree>| {
        let header = Tree::new(Message::Model).number(1, 8);
        begun(imports.into_iter().fold(header, |model, import| model.tree(8, import)).tree(7, graph(nodes)).encode())
    };
    let of = |domain: &str| node(&[], &[]).text(7, domain);
    let entry = |domain: &str| Entry { domain: domain.into(), lowest: 7, highest: 21 };
    let list = lists::encode(&[entry(""), entry(domain)]);
    let rows = vec![
        accepted(
            "imported after the default domain",
            with(vec![default(), import(domain)], vec![of(domain), of("")]),
            2,
            0,
        ),
        accepted(
            "imported before the default domain",
            with(vec![import(domain), default()], vec![of(""), of(domain)]),
            2,
            0,
        ),
        refused("a domain that is not imported", with(vec![default()], vec![of(domain)]), 28, (DOMAIN, domain, 0)),
        refused("the default domain is not imported", with(vec![import(domain)], vec![of("")]), 28, (DOMAIN, "", 0)),
    ];
    rows.into_iter().map(|row| Row { list: list.clone(), ..row }).collect()
}

/// What a function lacks is no domain, overload or reference of that name.
fn of_functions(name: &str) -> Vec<Row> {
    let with = |functions: Vec<Tree>| begun(with_functions(10, graph([]), functions).encode());
    let (plain, domain, overload) = (function("f"), function("f").text(10, name), function("f").text(13, name));
    let empty = || node(&[], &[]).tree(5, attribute("k").text(21, ""));
    let attributed = || function("f").text(6, name).tree(7, node(&[], &[]).tree(5, attribute("k"))).tree(7, empty());
    let unknown = with(vec![function("f").text(6, "z").tree(7, empty()).text(5, name)]);
    vec![
        accepted("a domain and none", with(vec![plain.clone(), domain.clone()]), 0, 0),
        accepted("an overload and none", with(vec![overload.clone(), plain]), 0, 0),
        accepted("a domain and an overload", with(vec![domain, overload]), 0, 0),
        accepted("attributes that refer to nothing", with(vec![attributed()]), 2, 0),
        refused("an output that nothing binds", unknown, 35, (0x2A, name, 0)),
    ]
}
