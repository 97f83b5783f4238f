//! Names and domains that differ in one byte, at each place: a comparison has to look at every byte, however many it takes at once.

use super::parts::*;
use super::{accepted, at_last, refused, twice};
use crate::checker::{Counts, Verdict};
use crate::models::lists::{self, Entry};
use crate::models::proto::Tree;
use crate::rows::Row;
use crate::schema::Message;

/// Eight bytes are compared at once: lengths around one and two times eight.
const LENGTHS: [usize; 6] = [1, 7, 8, 9, 16, 17];

pub fn near() -> Vec<Row> {
    let names = LENGTHS.into_iter().flat_map(|length| pairs(&"abcdefghijklmnopq"[..length]));
    let domains = LENGTHS.into_iter().flat_map(|length| pairs(&"org.example.other"[..length]));
    let named = names.flat_map(|(one, other)| [of_names(&one, &other), of_functions(&one, &other)].concat());
    let imported = domains.flat_map(|(one, other)| of_domains(&one, &other));
    named.chain(imported).chain(pairs("ai.onnx").flat_map(|(_, other)| of_domains("", &other))).collect()
}

/// The name, with each other one that has another byte at one place.
fn pairs(name: &str) -> impl Iterator<Item = (String, String)> + '_ {
    (0..name.len()).map(move |at| (name.into(), format!("{}Z{}", &name[..at], &name[at + 1..])))
}

fn of_names(one: &str, other: &str) -> Vec<Row> {
    let attributes = |names: &[&str]| names.iter().fold(node(&[], &[]), |node, name| node.tree(5, attribute(name)));
    let default = graph([]).tree(11, value(one)).tree(5, tensor(other)).tree(5, tensor(one));
    vec![
        accepted("two values", model(graph([bind(one), bind(other), read(one), read(other)])), 4, 2),
        refused("the other is read", model(graph([bind(one), read(other)])), 30, (READ, other, 0)),
        twice("bound twice, around the other", model(graph([bind(one), bind(other), bind(one)])), (BOUND, one, 1), 0),
        twice("the other twice", model(graph([bind(one), bind(other), bind(other)])), (BOUND, other, 1), 0),
        accepted("two nodes", model(graph([named(one), named(other)])), 2, 0),
        refused("a node twice", model(graph([named(one), named(other), named(one)])), 29, (NODE_NAME, one, 1)),
        accepted("two attributes", model(graph([attributes(&[one, other])])), 1, 0),
        refused("an attribute twice", model(graph([attributes(&[one, other, one])])), 31, (ATTRIBUTE_NAME, one, 1)),
        accepted("a default and another", model(default), 0, 2),
    ]
}

/// Functions apart by name, by domain and by overload, and attributes that are referred to.
fn of_functions(one: &str, other: &str) -> Vec<Row> {
    let model = |functions: Vec<Tree>| with_functions(10, graph([]), functions);
    let by_domain = |domain: &str| function("f").text(10, domain);
    let by_overload = |overload: &str| function("f").text(13, overload);
    let refers = |to: &str| function("f").text(6, one).tree(7, node(&[], &[]).tree(5, reference("k", to)));
    let attributes = |names: &[&str]| names.iter().fold(function("f"), |function, name| function.text(6, name));
    let refused_33 = {
        let model = model(vec![refers(other)]).encode();
        let answer = Verdict::refused(33, super::place_of_bytes(&model, ATTRIBUTE, &reference("k", other).encode(), 0));
        Row { answer, ..accepted("a reference to the other", model, 1, 0) }
    };
    vec![
        accepted("two functions", model(vec![function(one), function(other)]).encode(), 0, 0),
        at_last("a function twice", 41, model(vec![function(one), function(other), function(one)])),
        accepted("two domains of functions", model(vec![by_domain(one), by_domain(other)]).encode(), 0, 0),
        at_last("a domain twice", 41, model(vec![by_domain(one), by_domain(other), by_domain(one)])),
        accepted("two overloads", model(vec![by_overload(one), by_overload(other)]).encode(), 0, 0),
        at_last("an overload twice", 41, model(vec![by_overload(one), by_overload(other), by_overload(one)])),
        accepted("two attributes of a function", model(vec![attributes(&[one, other])]).encode(), 0, 0),
        refused("one twice", model(vec![attributes(&[one, other, one])]).encode(), 42, (OF_FUNCTION, one, 1)),
        accepted("a reference", model(vec![refers(one)]).encode(), 1, 0),
        refused_33,
    ]
}

/// Where no extra cells are left after the import of `FIRST`, those after it are found by reading the model again.
fn of_domains(one: &str, other: &str) -> Vec<Row> {
    let all = [FIRST, one, other];
    let answer = |name: &str, imports: &[&str], used: &[&str], listed: &[&str], answer: Verdict| {
        let list = lists::encode(&listed.iter().map(|domain| entry(domain)).collect::<Vec<_>>());
        Row { name: name.into(), model: importing(imports, used), list, cells: 1, answer }
    };
    let fits = |name: &str, imports: &[&str]| {
        answer(name, imports, &[other, one], &all, Verdict::Accepted(Counts { nodes: 2, names: 0, odd: 0 }))
    };
    let refused = |name: &str, imports: &[&str], listed: &[&str], number: u64, place: usize| {
        answer(name, imports, &[], listed, Verdict::refused(number, place as u64))
    };
    let missing = |name: &str, imports: &[&str], used: &str| {
        let place = super::place_of(&importing(imports, &[used]), (DOMAIN, used, 0));
        answer(name, imports, &[used], &all, Verdict::refused(28, place))
    };
    // ir_version takes two bytes, an import six and its domain
    let second = 2 + 6 + FIRST.len();
    let fourth = second + 6 + one.len() + 6 + other.len();
    vec![
        fits("both imported", &[one, other]),
        fits("both imported, the other way round", &[other, FIRST, one]),
        fits("both imported, behind another", &[FIRST, one, other]),
        missing("only one imported", &[one], other),
        missing("only the other imported", &[FIRST, other], one),
        missing("only one imported, and another", &[FIRST, one], other),
        refused("imported twice", &[FIRST, one, other, one], &all, 13, fourth),
        refused("the other is listed", &[FIRST, one], &[FIRST, other], 14, second),
        refused("one is listed", &[FIRST, other], &[one, FIRST], 14, second),
        refused("listed twice", &[one], &[one, other, one], 8, 0),
    ]
}

const FIRST: &str = "first";

fn importing(domains: &[&str], used: &[&str]) -> Vec<u8> {
    let import = |domain: &str| Tree::new(Message::OperatorSetId).text(1, domain).number(2, 13);
    let header = Tree::new(Message::Model).number(1, 8);
    let model = domains.iter().fold(header, |model, domain| model.tree(8, import(domain)));
    model.tree(7, graph(used.iter().map(|domain| node(&[], &[]).text(7, domain)))).encode()
}

fn entry(domain: &str) -> Entry {
    Entry { domain: domain.into(), lowest: 7, highest: 21 }
}
