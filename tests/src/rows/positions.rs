//! Rows for each position of a padded varint: each field of each message, its tag and its number or length, of several lengths in bytes,
//! and with more or fewer bytes behind it, since there are quick ways to read short varints and those with ten bytes of room.

use super::{hex, refused, row, Row};
use crate::models::lists::L;
use crate::models::sparse::Sparse;

/// A message in the one around it: what stands before it there, and its number.
type Step = (&'static str, u32);

const IMPORT: Step = ("08 08", 8);
const GRAPH: Step = ("08 08 42 02 10 0D", 7);
const NODE: Step = ("12 01 67", 1);
const ATTRIBUTE: Step = ("12 01 61 22 01 58", 5);
const BODY: Step = ("0A 01 6B A0 01 05", 6);
const INITIALIZER: Step = ("12 01 67", 5);
const TENSOR: Step = ("0A 01 6B A0 01 04", 5);
const INPUT: Step = ("12 01 67", 11);
const OUTPUT: Step = ("12 01 67", 12);
const VALUE_INFO: Step = ("12 01 67", 13);
const TYPE: Step = ("0A 01 61", 2);
const TYPE_TENSOR: Step = ("", 1);
const SHAPE: Step = ("08 01", 2);
const DIM: Step = ("", 1);
const FUNCTION: Step = ("08 08 42 02 10 0D 3A 03 12 01 67", 25);
const FUNCTION_IMPORT: Step = ("0A 01 66", 9);
const FUNCTION_NODE: Step = ("0A 01 66 4A 02 10 0D", 7);
const DEFAULT: Step = ("0A 01 66 4A 02 10 0D", 11);

const NODE_FIELDS: &str = "1s 2s 3s 4s 5m 7s";
const ATTRIBUTE_FIELDS: &str = "1s 2f 3v 4s 5m 6m 7f 7s 8v 8s 9s 10m 11m 14s 15s 20v 21s 22s 23s";

/// The rows of documents 01 and 02: v a number, f four bytes, s bytes and m a message.
#[rustfmt::skip]
const MESSAGES: &[(&str, &[Step], &str)] = &[
    ("Model", &[], "1v 7m 8m 25m"),
    ("OperatorSetId", &[IMPORT], "1s 2v"),
    ("Node", &[GRAPH, NODE], NODE_FIELDS),
    ("Attribute", &[GRAPH, NODE, ATTRIBUTE], ATTRIBUTE_FIELDS),
    ("initializer", &[GRAPH, INITIALIZER], "2v 8s"),
    ("Tensor of an attribute", &[GRAPH, NODE, ATTRIBUTE, TENSOR], "2v 8s"),
    ("input", &[GRAPH, INPUT], "1s 2m"),
    ("output", &[GRAPH, OUTPUT], "1s 2m"),
    ("value_info", &[GRAPH, VALUE_INFO], "1s 2m"),
    ("Type", &[GRAPH, INPUT, TYPE], "1m 4s 5s 7s 8s 9s"),
    ("Type.Tensor", &[GRAPH, INPUT, TYPE, TYPE_TENSOR], "1v 2m"),
    ("Shape", &[GRAPH, OUTPUT, TYPE, TYPE_TENSOR, SHAPE], "1m"),
    ("Dimension", &[GRAPH, VALUE_INFO, TYPE, TYPE_TENSOR, SHAPE, DIM], "1v 2s"),
    ("FunctionProto", &[FUNCTION], "1s 4s 5s 6s 7m 9m 10s 11m 13s"),
    ("OperatorSetId of a function", &[FUNCTION, FUNCTION_IMPORT], "1s 2v"),
    ("Node of a function", &[FUNCTION, FUNCTION_NODE], NODE_FIELDS),
    ("Attribute in a function", &[FUNCTION, FUNCTION_NODE, ATTRIBUTE], ATTRIBUTE_FIELDS),
    ("default of a function", &[FUNCTION, DEFAULT], ATTRIBUTE_FIELDS),
    ("Tensor of a default", &[FUNCTION, DEFAULT, TENSOR], "2v 8s"),
];
const GRAPH_FIELDS: &str = "1m 2s 5m 11m 12m 13m 15s";
/// No message has a field 100; e is eight bytes.
const UNKNOWN: &str = "100v 100e 100s 100f";

const LENGTHS: [usize; 5] = [2, 3, 4, 9, 10];

pub fn positions() -> Vec<Row> {
    let mut rows = Vec::new();
    for (message, path, fields) in MESSAGES {
        rows.extend(in_message(message, path, fields));
    }
    for (within, depths, outermost) in GRAPHS {
        for depth in *depths {
            let name = format!("{within}graph at depth {depth}");
            rows.extend(in_message(&name, &graph_at(*depth, *outermost), GRAPH_FIELDS));
        }
        rows.extend(at_depth_nine(within, *outermost));
    }
    rows
}

/// An outermost graph: its depth and the way to it.
type Outermost = (usize, &'static [Step]);

/// Where graphs stand, and the depths of those that are tried.
const GRAPHS: &[(&str, &[usize], Outermost)] = &[
    ("", &[1, 2, 3, 4, 5, 6, 7, 8], (1, &[GRAPH])),
    ("a function's ", &[2, 8], (2, &[FUNCTION, FUNCTION_NODE, ATTRIBUTE, BODY])),
    ("a default's ", &[2, 8], (2, &[FUNCTION, DEFAULT, BODY])),
];

/// The way to a graph at this depth.
fn graph_at(depth: usize, (from, way): Outermost) -> Vec<Step> {
    let mut path = way.to_vec();
    (from..depth).for_each(|_| path.extend([NODE, ATTRIBUTE, BODY]));
    path
}

/// A model that ends with the messages of the path, the innermost of these contents.
fn along(path: &[Step], contents: Vec<u8>) -> Sparse {
    path.iter()
        .rev()
        .fold(Sparse::new(contents), |inner, (before, number)| Sparse::new(hex(before)).field(*number, inner))
}

fn in_message(message: &str, path: &[Step], fields: &str) -> Vec<Row> {
    let mut rows = Vec::new();
    for field in fields.split(' ').chain(UNKNOWN.split(' ')) {
        for (what, bytes) in padded_forms(field) {
            rows.extend(in_rooms(&format!("{message}, field {field}, {what}"), path, bytes));
        }
    }
    rows
}

/// A field up to the end of its padded tag, number or length.
fn padded_forms(field: &str) -> Vec<(String, Vec<u8>)> {
    let (number, form) = field.split_at(field.len() - 1);
    let (kind, value) = match form {
        "v" => (0, Some(5)),
        "e" => (1, None),
        "f" => (5, None),
        _ => (2, Some(3)),
    };
    let tag = number.parse::<u64>().expect("a field's number") << 3 | kind;
    let plain = if tag < 0x80 { vec![tag as u8] } else { vec![tag as u8 | 0x80, (tag >> 7) as u8] };
    let mut forms = Vec::new();
    for length in LENGTHS {
        forms.extend(padded(tag, length).map(|tag| (format!("a tag of {length}"), tag)));
        let value = value.and_then(|value| padded(value, length));
        forms.extend(value.map(|value| (format!("a value of {length}"), [&plain[..], &value].concat())));
    }
    forms
}

/// The number in so many bytes, the last of them 0, where it needs fewer.
fn padded(number: u64, bytes: usize) -> Option<Vec<u8>> {
    let mut form: Vec<u8> = (0..bytes).map(|at| (number >> (7 * at)) as u8 | 0x80).collect();
    form[bytes - 1] = 0;
    (number >> (7 * (bytes - 1)) == 0).then_some(form)
}

/// The bytes at the end of the model, with room in their message, and with room behind it. Without room a tag has no value, and a length
/// has no contents: 9 comes before 1. With it zeros follow, and 9 comes before 3.
fn in_rooms(name: &str, path: &[Step], bytes: Vec<u8>) -> Vec<Row> {
    let (own, room) = (bytes.len(), vec![0; 12]);
    let last = along(path, bytes.clone());
    // Behind the message is a field of the model, with a tag of two bytes.
    let behind = last.clone().field(100, Sparse::new(room.clone()));
    let inside = along(path, [bytes, room].concat());
    let ending = |room: &str, model: Sparse, from_the_end: usize| {
        let place = (model.length() - from_the_end) as u64;
        row(&format!("{name}, {room}"), model.build(), &L, 9, refused(9, place))
    };
    vec![
        ending("last", last, own),
        ending("room behind its message", behind, own + 3 + 12),
        ending("room in its message", inside, own + 12),
    ]
}

/// What ends an attribute of a graph at depth 8: 9 comes before 6, and 6 before what is inside.
fn at_depth_nine(within: &str, outermost: Outermost) -> Vec<Row> {
    let path = [&graph_at(8, outermost)[..], &[NODE, ATTRIBUTE]].concat();
    let rows = [
        ("6", "32 00", 6),
        ("6 before 9 inside", "32 03 88 00 08", 6),
        ("9 of the tag before 6", "B2 00 00", 9),
        ("9 of the length before 6", "32 80 00", 9),
        ("9 before 1 and 6", "32 85 00", 9),
        ("1 before 6", "32 05", 1),
        ("6 of graphs", "5A 02 92 00", 6),
        ("9 of the tag of graphs before 6", "DA 00 00", 9),
        ("9 of the length of graphs before 6", "5A 80 80 80 00", 9),
    ];
    let ending = |(name, last, number): (&str, &str, u64)| {
        let last = hex(last);
        let length = last.len();
        let model = along(&path, last).build();
        let place = (model.len() - length) as u64;
        row(&format!("{within}graph at depth 9, {name}"), model, &L, 9, refused(number, place))
    };
    rows.map(ending).into()
}
