//! The models that are measured. The proved check accepts each, and they are made so that onnx::checker can too:
//! operators of version 13 with the inputs and attributes they ask for.

use gate_tests::models::lists::{self, Entry};
use gate_tests::models::proto::{put_varint, Item, Tree, Value};
use gate_tests::schema::Message;

use crate::{functions, ir_3, searches};

/// A model by its size, whatever the size counts. Of a size it has a half and a quarter, to see how the time grows.
pub struct Workload {
    pub name: &'static str,
    pub make: fn(usize, u64) -> Vec<u8>,
    /// None: it has one size.
    pub size: Option<usize>,
    /// Which domains it uses.
    pub domains: Domains,
    /// Is the check given another seed than that for which it is made?
    pub other_seed: bool,
}

/// The default one, three more, or as many more as a function imports.
#[derive(Clone, Copy)]
pub enum Domains {
    Default,
    Custom,
    Many,
}

const CHAIN: usize = 20_000;

const fn of(name: &'static str, size: usize, make: fn(usize, u64) -> Vec<u8>) -> Workload {
    Workload { name, make, size: Some(size), domains: Domains::Default, other_seed: false }
}

impl Workload {
    const fn custom(self) -> Workload {
        Workload { domains: Domains::Custom, ..self }
    }

    const fn importing_many(self) -> Workload {
        Workload { domains: Domains::Many, ..self }
    }

    /// The operator list: L of document 01, and if need be other domains.
    pub fn operators(&self) -> Vec<u8> {
        let mut domains = vec![String::new()];
        if !matches!(self.domains, Domains::Default) {
            domains.extend(searches::CUSTOM.map(String::from));
        }
        if matches!(self.domains, Domains::Many) {
            domains.extend(functions::imported());
        }
        let entries = domains.into_iter().map(|domain| Entry { domain: domain.into(), lowest: 7, highest: 21 });
        lists::encode(&entries.collect::<Vec<_>>())
    }
}

/// The one on which the command is measured too.
pub const LARGEST: Workload = of("one initializer of 1.9 GB raw data", 1_900_000_000, |size, _| heavy(size, 0));

pub const WORKLOADS: [Workload; 33] = [
    Workload { size: None, ..of("small model, 6 nodes", 0, |_, _| small()) },
    of("chain of 20,000 nodes, unnamed", CHAIN, |size, _| chain(size, false)),
    of("chain of 20,000 nodes, named", CHAIN, |size, _| chain(size, true)),
    of("chain of 20,000 nodes, names of 60 bytes", CHAIN, searches::long_names),
    of("chain of 20,000 nodes, names as exporters write them", CHAIN, searches::exported),
    of("chain of 20,000 nodes, names of 60 bytes, not ASCII", CHAIN, searches::utf8_names),
    of("wide: 4,000 branches with weights into one sum", 4_000, |size, _| wide(size)),
    of("4,000 inputs with defaults", 4_000, searches::defaults),
    of("16,000 inputs with defaults", 16_000, searches::defaults),
    of("IR 3: 16,000 inputs with defaults", 16_000, ir_3::main_defaults),
    of("IR 3: 16,000 inputs with defaults in one body", 16_000, ir_3::body_defaults).custom(),
    of("IR 3: 16,000 bodies of one input with a default, under 16,000 names", 16_000, ir_3::bodies).custom(),
    of("nested to depth 8, 20 towers of 254 graphs", 20, |size, _| nested(size)),
    of("20,000 nodes with a body that binds a name", CHAIN, searches::bodies).custom(),
    of("20,000 attributes in one node", CHAIN, searches::attributes).custom(),
    of("20,000 functions", CHAIN, functions::names).custom(),
    of("5,000 functions of four nodes", 5_000, functions::small).custom(),
    of("a function of 20,000 nodes, named", CHAIN, functions::body).custom(),
    of("a function of 20,000 nodes that use 400 imports", CHAIN, functions::imports).importing_many(),
    of("a function with 20,000 attributes", CHAIN, functions::attributes).custom(),
    of("a function with 20,000 attributes and a reference to each", CHAIN, functions::references).custom(),
    of("one initializer of 50 MB raw data", 50_000_000, |size, _| heavy(size, DATA)),
    LARGEST,
    of("hostile: 4,000,000 unknown fields", 4_000_000, |size, _| unknown(size)),
    of("hostile: 10,000 nodes, 10,000 unknown fields among imports", 10_000, searches::imports).custom(),
    of("hostile: one name of 10 MB", 10_000_000, |size, _| long_name(&"n".repeat(size))),
    of("hostile: one name of 10 MB, its last byte odd", 10_000_000, |size, _| long_name(&("n".repeat(size - 1) + "-"))),
    of("hostile: one name of 10 MB, not ASCII", 10_000_000, |size, _| long_name(&"层".repeat(size / 3))),
    of("hostile: 20,000 named nodes, one visible name", CHAIN, |size, _| idle(size)),
    of("hostile: 20,000 functions of one name, apart by domain", CHAIN, functions::domains).custom(),
    of("hostile: 20,000 functions of one name, apart by overload", CHAIN, functions::overloads).custom(),
    of("hostile: 20,000 names in one bucket, seed known", CHAIN, searches::crafted),
    Workload { other_seed: true, ..of("hostile: the same 20,000 names, another seed", CHAIN, searches::crafted) },
];

pub const FLOAT: u64 = 1;
pub const INT: u64 = 2;
pub const GRAPH: u64 = 5;
const BOOL: u64 = 9;
/// Each byte of weights.
const DATA: u8 = 0x3d;

fn model(graph: Tree) -> Vec<u8> {
    model_with(&[], graph)
}

/// A model that imports the default domain and these.
pub fn model_with(domains: &[&str], graph: Tree) -> Vec<u8> {
    importing(domains).tree(7, graph).encode()
}

pub fn importing(domains: &[&str]) -> Tree {
    let mut model = Tree::new(Message::Model).number(1, 8);
    for domain in std::iter::once(&"").chain(domains) {
        model.push(8, Value::Tree(import(domain)));
    }
    model
}

pub fn import(domain: &str) -> Tree {
    Tree::new(Message::OperatorSetId).text(1, domain).number(2, 13)
}

/// A model at another IR version, which comes first, in two bytes.
pub fn at_version(version: u8, mut model: Vec<u8>) -> Vec<u8> {
    model[1] = version;
    model
}

/// An input or output with its element type and its sizes.
pub fn value_info(name: &str, element: u64, sizes: &[u64]) -> Tree {
    let mut shape = Tree::new(Message::Shape);
    for &size in sizes {
        shape.push(1, Value::Tree(Tree::new(Message::Dimension).number(1, size)));
    }
    let tensor = Tree::new(Message::TypeTensor).number(1, element).tree(2, shape);
    Tree::new(Message::ValueInfo).text(1, name).tree(2, Tree::new(Message::Type).tree(1, tensor))
}

pub fn node(operator: &str, inputs: &[&str], output: &str) -> Tree {
    let mut node = Tree::new(Message::Node);
    for input in inputs {
        node = node.text(1, input);
    }
    node.text(2, output).text(4, operator)
}

/// Floats as raw data; field 1 of a tensor is its sizes.
pub fn weights(name: &str, sizes: &[u64]) -> Tree {
    let mut tensor = Tree::new(Message::Tensor);
    for &size in sizes {
        tensor = tensor.number(1, size);
    }
    let bytes = 4 * sizes.iter().product::<u64>() as usize;
    tensor.number(2, FLOAT).text(8, name).text(9, vec![DATA; bytes])
}

pub fn int_attribute(name: &str, value: u64) -> Tree {
    Tree::new(Message::Attribute).text(1, name).number(3, value).number(20, INT)
}

/// Two layers and a softmax.
fn small() -> Vec<u8> {
    let softmax = node("Softmax", &["sum_2"], "y").tree(5, int_attribute("axis", 1));
    let graph = Tree::new(Message::Graph)
        .text(2, "two_layers")
        .tree(1, node("MatMul", &["x", "w_1"], "product_1").text(3, "layer_1"))
        .tree(1, node("Add", &["product_1", "b_1"], "sum_1").text(3, "bias_1"))
        .tree(1, node("Relu", &["sum_1"], "hidden").text(3, "relu_1"))
        .tree(1, node("MatMul", &["hidden", "w_2"], "product_2").text(3, "layer_2"))
        .tree(1, node("Add", &["product_2", "b_2"], "sum_2").text(3, "bias_2"))
        .tree(1, softmax.text(3, "softmax_2"))
        .tree(5, weights("w_1", &[8, 8]))
        .tree(5, weights("b_1", &[8]))
        .tree(5, weights("w_2", &[8, 4]))
        .tree(5, weights("b_2", &[4]))
        .tree(11, value_info("x", FLOAT, &[1, 8]))
        .tree(12, value_info("y", FLOAT, &[1, 4]));
    model(graph)
}

/// Nodes that each read the output of the one before.
pub fn chain(nodes: usize, named: bool) -> Vec<u8> {
    chain_of(&(0..nodes).map(|at| format!("value_{at}")).collect::<Vec<_>>(), named)
}

/// The same with these outputs.
pub fn chain_of(outputs: &[String], named: bool) -> Vec<u8> {
    let mut graph = Tree::new(Message::Graph).text(2, "chain").tree(11, value_info("x", FLOAT, &[1]));
    let mut last = "x";
    for (at, output) in outputs.iter().enumerate() {
        let mut relu = node("Relu", &[last], output);
        if named {
            relu = relu.text(3, format!("node_{at}"));
        }
        graph.push(1, Value::Tree(relu));
        last = output;
    }
    model(graph.tree(12, value_info(last, FLOAT, &[1])))
}

/// Branches from one input, each with weights of its own, joined in one node.
fn wide(branches: usize) -> Vec<u8> {
    let mut graph = Tree::new(Message::Graph).text(2, "wide").tree(11, value_info("x", FLOAT, &[4]));
    let outputs: Vec<String> = (0..branches).map(|at| format!("branch_{at}")).collect();
    for (at, output) in outputs.iter().enumerate() {
        let weight = format!("weight_{at}");
        graph.push(5, Value::Tree(weights(&weight, &[4])));
        graph.push(1, Value::Tree(node("Mul", &["x", &weight], output)));
    }
    let inputs: Vec<&str> = outputs.iter().map(String::as_str).collect();
    model(graph.tree(1, node("Sum", &inputs, "y")).tree(12, value_info("y", FLOAT, &[4])))
}

/// A node with two bodies. `below` is the depth of these.
fn fork(output: &str, below: usize) -> Tree {
    let branch = |name: &str, letter: char| {
        Tree::new(Message::Attribute).text(1, name).tree(6, body(letter, below)).number(20, GRAPH)
    };
    node("If", &["flag"], output).tree(5, branch("then_branch", 't')).tree(5, branch("else_branch", 'e'))
}

/// A graph at this depth that reads an outer name and, above depth 8, forks again.
fn body(letter: char, depth: usize) -> Tree {
    let name = |what: &str| format!("{letter}{depth}_{what}");
    let mut graph = Tree::new(Message::Graph).text(2, name("body"));
    graph.push(1, Value::Tree(node("Relu", &["x"], &name("relu"))));
    graph.push(1, Value::Tree(node("Add", &["x", &name("relu")], &name("sum"))));
    if depth < 8 {
        graph.push(1, Value::Tree(fork(&name("fork"), depth + 1)));
    }
    let output = if depth < 8 { name("fork") } else { name("sum") };
    graph.tree(12, value_info(&output, FLOAT, &[1]))
}

/// Towers of graphs in the main graph, each with two at depth 2 and 128 at depth 8: 254.
fn nested(towers: usize) -> Vec<u8> {
    let mut graph = Tree::new(Message::Graph).text(2, "nested");
    for at in 0..towers {
        graph.push(1, Value::Tree(fork(&format!("tower_{at}"), 2)));
    }
    let last = format!("tower_{}", towers - 1);
    let inputs = graph.tree(11, value_info("x", FLOAT, &[1])).tree(11, value_info("flag", BOOL, &[1]));
    model(inputs.tree(12, value_info(&last, FLOAT, &[1])))
}

/// One tensor of raw data, each byte of it `fill`. All else is encoded without the data, with lengths that count it, and
/// put around it: zeros are then memory that no one has written, which takes none.
fn heavy(bytes: usize, fill: u8) -> Vec<u8> {
    let counting = |number, value| Item { stretch: bytes as u64, ..Item::new(number, value) };
    let floats = bytes as u64 / 4;
    let input = Tree::new(Message::Graph).tree(11, value_info("x", FLOAT, &[floats]));
    let tail = input.tree(12, value_info("y", FLOAT, &[floats])).encode();
    let mut tensor = Tree::new(Message::Tensor).number(1, floats).number(2, FLOAT).text(8, "weight");
    tensor.items.push(counting(9, Value::Bytes(Vec::new())));
    let mut graph = Tree::new(Message::Graph).text(2, "heavy").tree(1, node("Add", &["x", "weight"], "y"));
    graph.items.extend([counting(5, Value::Tree(tensor)), Item::raw(tail.clone())]);
    let mut model = importing(&[]);
    model.items.push(counting(7, Value::Tree(graph)));
    let around = model.encode();
    let data = around.len() - tail.len();
    let mut whole = vec![fill; around.len() + bytes];
    whole[..data].copy_from_slice(&around[..data]);
    whole[data + bytes..].copy_from_slice(&tail);
    whole
}

/// Fields that nothing names: numbers, ten bytes each and ever new.
pub fn unknown_fields(count: usize) -> Vec<u8> {
    let mut bytes = Vec::new();
    for at in 0..count as u64 {
        put_varint(&mut bytes, (100 + at % 1_000) << 3, 0);
        put_varint(&mut bytes, 1 << 50 | at, 0);
    }
    bytes
}

/// One node among such fields, in the graph.
fn unknown(fields: usize) -> Vec<u8> {
    let mut graph = Tree::new(Message::Graph).text(2, "unknown").tree(1, node("Relu", &["x"], "y"));
    graph.items.push(Item::raw(unknown_fields(fields)));
    model(graph.tree(11, value_info("x", FLOAT, &[1])).tree(12, value_info("y", FLOAT, &[1])))
}

/// A name that is bound, read by a node, and read as the graph's output.
fn long_name(long: &str) -> Vec<u8> {
    let graph = Tree::new(Message::Graph)
        .text(2, "long_name")
        .tree(1, node("Relu", &["x"], long))
        .tree(1, node("Relu", &[long], "y"))
        .tree(11, value_info("x", FLOAT, &[1]));
    model(graph.tree(12, value_info(long, FLOAT, &[1])))
}

/// Named nodes that bind nothing, since all outputs of RNN may be left out: however few the cells, each node's name is
/// compared with those before it.
fn idle(nodes: usize) -> Vec<u8> {
    let mut graph = Tree::new(Message::Graph).text(2, "idle").tree(11, value_info("x", FLOAT, &[1]));
    for at in 0..nodes {
        graph.push(1, Value::Tree(node("RNN", &["x", "x", "x"], "").text(3, format!("n{at}"))));
    }
    model(graph.tree(12, value_info("x", FLOAT, &[1])))
}
