//! Models that make the check look for names: many in one list, in lists of each kind.

use gate_tests::buckets::colliding;
use gate_tests::models::proto::{Item, Tree, Value};
use gate_tests::schema::Message;

use crate::workloads::{chain_of, import, int_attribute, model_with, node, unknown_fields};
use crate::workloads::{value_info, weights, FLOAT, GRAPH};

/// Domains that no runtime has: onnx::checker has no schema for their operators.
pub const CUSTOM: [&str; 3] = ["com.example.a", "com.example.b", "com.example.c"];

/// One node with many attributes.
pub fn attributes(count: usize, _: u64) -> Vec<u8> {
    let mut many = node("Many", &["x"], "y").text(7, CUSTOM[0]);
    for at in 0..count {
        many.push(5, Value::Tree(int_attribute(&format!("attribute_{at}"), 1)));
    }
    let graph = Tree::new(Message::Graph).text(2, "attributes").tree(1, many);
    model_with(&CUSTOM[..1], graph.tree(11, value_info("x", FLOAT, &[1])).tree(12, value_info("y", FLOAT, &[1])))
}

/// As many unknown fields as nodes, before and between four imports; the nodes use the first and the last by turns.
pub fn imports(nodes: usize, _: u64) -> Vec<u8> {
    let mut graph = Tree::new(Message::Graph).text(2, "imports").tree(11, value_info("x", FLOAT, &[1]));
    let mut last = "x".to_string();
    for at in 0..nodes {
        let output = format!("value_{at}");
        let relu = node("Relu", &[&last], &output);
        graph.push(1, Value::Tree(if at % 2 == 0 { relu } else { relu.text(7, CUSTOM[2]) }));
        last = output;
    }
    let mut model = Tree::new(Message::Model).number(1, 8);
    for domain in ["", CUSTOM[0], CUSTOM[1], CUSTOM[2]] {
        model.items.push(Item::raw(unknown_fields(nodes / 4)));
        model.push(8, Value::Tree(import(domain)));
    }
    model.tree(7, graph.tree(12, value_info(&last, FLOAT, &[1]))).encode()
}

/// Inputs that each have a default.
pub fn defaults(count: usize, _: u64) -> Vec<u8> {
    let mut graph = Tree::new(Message::Graph).text(2, "defaults").tree(1, node("Relu", &["input_0"], "y"));
    for at in 0..count {
        let name = format!("input_{at}");
        graph.push(11, Value::Tree(value_info(&name, FLOAT, &[1])));
        graph.push(5, Value::Tree(weights(&name, &[1])));
    }
    model_with(&[], graph.tree(12, value_info("y", FLOAT, &[1])))
}

/// Nodes that each have a body, which binds a name.
pub fn bodies(count: usize, _: u64) -> Vec<u8> {
    let mut graph = Tree::new(Message::Graph).text(2, "bodies").tree(11, value_info("x", FLOAT, &[1]));
    for at in 0..count {
        let inner = format!("inner_{at}");
        let body = Tree::new(Message::Graph).text(2, "body").tree(1, node("Relu", &["x"], &inner));
        let body = body.tree(12, value_info(&inner, FLOAT, &[1]));
        let attribute = Tree::new(Message::Attribute).text(1, "body").tree(6, body).number(20, GRAPH);
        graph.push(1, Value::Tree(node("Run", &["x"], &format!("value_{at}")).text(7, CUSTOM[0]).tree(5, attribute)));
    }
    let last = format!("value_{}", count - 1);
    model_with(&CUSTOM[..1], graph.tree(12, value_info(&last, FLOAT, &[1])))
}

/// A chain whose names have 60 bytes and differ in the last ones.
pub fn long_names(count: usize, _: u64) -> Vec<u8> {
    let names = (0..count).map(|at| format!("{}{at:08}", "n".repeat(52)));
    chain_of(&names.collect::<Vec<_>>(), false)
}

/// A chain with the names that PyTorch's exporter gives: no identifier among its outputs.
pub fn exported(count: usize, _: u64) -> Vec<u8> {
    let names = (0..count).map(|at| format!("/encoder/layer.{at}/MatMul_output_0"));
    chain_of(&names.collect::<Vec<_>>(), false)
}

/// A chain whose names have 60 bytes, as in `long_names`: characters of two, three and four bytes, and then the digits.
pub fn utf8_names(count: usize, _: u64) -> Vec<u8> {
    let names = (0..count).map(|at| format!("кодировщ编码器层输出张量😀😀😀{at:08}"));
    chain_of(&names.collect::<Vec<_>>(), false)
}

/// A chain whose names all share a bucket under the seed.
pub fn crafted(count: usize, seed: u64) -> Vec<u8> {
    chain_of(&colliding(seed, count), false)
}
