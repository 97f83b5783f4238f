//! The first walk in functions: the rows of FunctionProto, wire faults before all header refusals, and depth.

use super::{behind, hex, refused, row, Row, F, L, M0};
use crate::checker::Verdict;
use crate::models::proto::{put_varint, Tree};
use crate::rows::by_hand::ModelRow;
use crate::rows::{accepted, holder};
use crate::schema::Message;
use crate::wire::{BYTES, EIGHT, FOUR, VARINT};

#[rustfmt::skip]
pub const MODELS: &[ModelRow] = &[
    ("4 of functions", "C8 01 00", 4, 0),
    ("1, a function past the model's end", "CA 01 05 0A 01 66", 1, 0),
    ("1, a name past its function and inside the model", "CA 01 02 0A 03 08 08 08 08", 1, 3),
    // Before all refusals of the header.
    ("1 in a function before 10", "CA 01 02 0A 05", 1, 3),
    ("2 in a function before 10", "CA 01 0B 10 FF FF FF FF FF FF FF FF FF 02", 2, 3),
    ("3 in a function before 10", "CA 01 01 00", 3, 3),
    ("4 in a function before 10", "CA 01 02 08 00", 4, 3),
    ("5 in a function before 10", "CA 01 04 0A 00 0A 00", 5, 5),
    ("9 in a function before 10", "CA 01 03 8A 00 00", 9, 3),
    ("1 in a function before 11", "08 08 CA 01 02 0A 05", 1, 5),
    ("1 in a function before 12", "08 08 3A 03 12 01 67 CA 01 02 0A 05", 1, 10),
    ("1 in a function before 13", "08 08 42 02 10 0D 42 02 10 0D 3A 03 12 01 67 CA 01 02 0A 05", 1, 18),
    ("1 in a function before 14", "08 08 42 02 10 06 3A 03 12 01 67 CA 01 02 0A 05", 1, 14),
    ("1 in a function before 20", "08 08 42 02 10 0D 3A 00 CA 01 02 0A 05", 1, 11),
    ("1 in the second function before 22 of the first", "08 08 42 02 10 0D 3A 03 12 01 67 CA 01 00 CA 01 02 0A 05", 1, 17),
    ("3 in the graph before 3 in a function", "3A 01 00 CA 01 01 00", 3, 2),
    ("3 in a function before 3 in the graph", "CA 01 01 00 3A 01 00", 3, 3),
    // In what a function holds.
    ("1 in a function's node", "CA 01 04 3A 02 0A 05", 1, 5),
    ("4 in a function's node", "CA 01 04 3A 02 08 00", 4, 5),
    ("5 in a function's node", "CA 01 06 3A 04 22 00 22 00", 5, 7),
    ("1 in a function's import", "CA 01 04 4A 02 10 80", 1, 5),
    ("4 in a function's import", "CA 01 04 4A 02 08 00", 4, 5),
    ("5 in a function's import", "CA 01 06 4A 04 10 01 10 01", 5, 7),
    ("9 in a function's import", "CA 01 05 4A 03 10 8D 00", 9, 5),
    ("1 in a default", "CA 01 04 5A 02 0A 05", 1, 5),
    ("4 in a default", "CA 01 04 5A 02 08 00", 4, 5),
    ("5 in a default", "CA 01 06 5A 04 0A 00 0A 00", 5, 7),
    ("1 in a default's tensor", "CA 01 06 5A 04 2A 02 42 05", 1, 7),
    ("1 in a default's graph", "CA 01 06 5A 04 32 02 12 05", 1, 7),
    ("1 in a default's graphs", "CA 01 08 5A 06 5A 00 5A 02 12 05", 1, 9),
    ("1 in a graph under a reference", "CA 01 0C 3A 0A 2A 08 AA 01 01 72 32 02 12 05", 1, 13),
    // A sound function, and a header that is not.
    ("10 before functions", "CA 01 07 0A 01 66 4A 02 10 0D", 10, 0),
    ("11 before functions", "08 08 42 02 10 0D CA 01 07 0A 01 66 4A 02 10 0D", 11, 0),
    ("12, a function's imports are not the model's", "08 08 3A 03 12 01 67 CA 01 07 0A 01 66 4A 02 10 0D", 12, 0),
    ("10 before a function's 22", "CA 01 00 08 02 42 02 10 0D 3A 03 12 01 67", 10, 3),
    ("13 before a function's 22", "CA 01 00 08 08 42 02 10 0D 42 02 10 0D 3A 03 12 01 67", 13, 9),
    ("14 before a function's 22", "CA 01 00 08 08 42 02 10 06 3A 03 12 01 67", 14, 5),
    ("20 before a function's 22", "CA 01 00 08 08 42 02 10 0D 3A 00 CA 01 00", 20, 9),
    ("22 of a function before the graph on the wire", "CA 01 00 08 08 42 02 10 0D 3A 03 12 01 67", 22, 0),
];

const ONCE: [u32; 3] = [1, 10, 13];
const KNOWN: [u32; 9] = [1, 4, 5, 6, 7, 9, 10, 11, 13];
const UNKNOWN: [u32; 8] = [2, 3, 8, 12, 14, 15, 25, 100];

pub fn rows() -> Vec<Row> {
    [unknown(), wrong_kinds(), repeats(), depths()].concat()
}

/// Fields behind the name and import of `f`, at 21.
fn of_f(name: &str, fields: &[u8], number: u64, place: u64) -> Row {
    let bytes = fields.iter().map(|byte| format!("{byte:02X}")).collect::<Vec<_>>().join(" ");
    let answer = if number == 0 { accepted(0, 0) } else { refused(number, place) };
    row(name, behind(M0, &[&format!("{F} {bytes}")]), &L, 9, answer)
}

/// A whole field; its bytes, if any, are no message.
fn field(number: u32, kind: u8) -> Vec<u8> {
    let mut bytes = Vec::new();
    put_varint(&mut bytes, u64::from(number) << 3 | u64::from(kind), 0);
    match kind {
        VARINT => bytes.push(5),
        EIGHT => bytes.extend([0xFF; 8]),
        FOUR => bytes.extend([0xFF; 4]),
        _ => bytes.extend([1, 0xFF]),
    }
    bytes
}

/// Of any wire type, as often as one likes, and passed over; but for wire types that there are not.
fn unknown() -> Vec<Row> {
    let mut rows = Vec::new();
    for number in UNKNOWN {
        for kind in [VARINT, EIGHT, BYTES, FOUR] {
            let name = format!("field {number} of a function, which no row names, wire type {kind}");
            rows.push(of_f(&name, &field(number, kind).repeat(2), 0, 0));
        }
        let bad = field(number, 3);
        rows.push(of_f(&format!("field {number} of a function, wire type 3"), &bad, 3, 21));
    }
    rows
}

/// All rows of a function hold bytes or a message.
fn wrong_kinds() -> Vec<Row> {
    let mut rows = Vec::new();
    for number in KNOWN {
        for kind in [VARINT, EIGHT, FOUR] {
            let name = format!("field {number} of a function, wire type {kind}");
            rows.push(of_f(&name, &field(number, kind), 4, 21));
            let cut = &field(number, kind)[..1];
            rows.push(of_f(&format!("{name}, and no value"), cut, 4, 21));
        }
        let tag = &field(number, BYTES)[..1];
        // `f` has a name already
        let again = if number == 1 { 5 } else { 1 };
        rows.push(of_f(&format!("field {number} of a function, and no length"), tag, again, 21));
    }
    rows
}

fn repeats() -> Vec<Row> {
    let mut rows = Vec::new();
    for number in ONCE {
        let tag = (number << 3 | 2) as u8;
        let (first, place) = if number == 1 { (vec![], 21) } else { (vec![tag, 1, 0x78], 24) };
        let twice = |second: &[u8]| [&first[..], second].concat();
        rows.push(of_f(&format!("field {number} of a function twice"), &twice(&[tag, 1, 0x79]), 5, place));
        rows.push(of_f(&format!("field {number} of a function twice, empty"), &twice(&[tag, 0]), 5, place));
        rows.push(of_f(&format!("field {number} of a function twice, cut"), &twice(&[tag]), 5, place));
    }
    rows
}

/// A node with graphs in graphs, so many.
fn nest(graphs: usize) -> Tree {
    let graph = || Tree::new(Message::Graph).text(2, "g");
    let outermost = (1..graphs).fold(graph(), |inner, _| graph().tree(1, holder(inner)));
    holder(outermost)
}

/// A function is at depth 1, so that seven graphs may stand in each other in it, in a body or under a default.
fn depths() -> Vec<Row> {
    let body = |graphs: usize| Tree::new(Message::Function).tree(7, nest(graphs));
    let default = |graphs: usize| {
        let attributes = nest(graphs).children(5).next().cloned();
        Tree::new(Message::Function).tree(11, attributes.expect("a node with a body"))
    };
    let of = |name: &str, function: Tree, answer: fn(u64) -> Verdict| {
        let model = [hex(M0), Tree::new(Message::Model).tree(25, named(function)).encode()].concat();
        // Below the innermost graph only its name follows, so that its tag is the last byte 32.
        let place = model.iter().rposition(|byte| *byte == 0x32).expect("there is a g") as u64;
        row(name, model, &L, 0, answer(place))
    };
    vec![
        of("graphs to depth 8 in a function", body(7), |_| accepted(7, 0)),
        of("graphs to depth 9 in a function", body(8), |place| refused(6, place)),
        of("graphs to depth 8 under a default", default(7), |_| refused(32, 22)),
        of("graphs to depth 9 under a default", default(8), |place| refused(6, place)),
    ]
}

/// The function with the name and the import of `f` before what it has.
fn named(mut function: Tree) -> Tree {
    let import = Tree::new(Message::OperatorSetId).number(2, 13);
    let items = std::mem::take(&mut function.items);
    function = function.text(1, "f").tree(9, import);
    function.items.extend(items);
    function
}
