//! Models with known answers: the sample rows of document 01, and rows worked out by hand for its places.

mod by_hand;
mod domains;
mod functions;
mod ir_versions;
mod large;
mod lengths;
mod names;
mod odd;
mod padded;
mod positions;
mod twice;
mod versions;
mod wide;

pub use by_hand::by_hand;
pub use functions::{function_fields, functions, whole_functions};
pub use ir_versions::ir_versions;
pub use large::large;
pub use names::names;
pub use positions::positions;
pub use wide::wide;

use crate::checker::{Counts, Verdict};
use crate::models::lists::L;
use crate::models::proto::Tree;
use crate::schema::Message;

#[derive(Clone, Debug)]
pub struct Row {
    pub name: String,
    pub model: Vec<u8>,
    pub list: Vec<u8>,
    pub cells: usize,
    pub answer: Verdict,
}

pub const M0: &str = "08 08 42 02 10 0D 3A 03 12 01 67";
pub const M1: &str = "08 08 42 02 10 0D 3A 0B 12 01 67 0A 06 12 01 61 22 01 58";
/// M1 with a node that reads its own output, and with one that binds its output twice.
pub const SELF_READER: &str = "08 08 42 02 10 0D 3A 0E 12 01 67 0A 09 0A 01 61 12 01 61 22 01 58";
pub const TWICE: &str = "08 08 42 02 10 0D 3A 0E 12 01 67 0A 09 12 01 61 12 01 61 22 01 58";

pub fn hex(text: &str) -> Vec<u8> {
    text.split_whitespace().map(|byte| u8::from_str_radix(byte, 16).expect("two hex digits")).collect()
}

fn row(name: &str, model: Vec<u8>, list: &[u8], cells: usize, answer: Verdict) -> Row {
    Row { name: name.into(), model, list: list.to_vec(), cells, answer }
}

fn refused(number: u64, place: u64) -> Verdict {
    Verdict::refused(number, place)
}

fn twice(place: u64, first: u64) -> Verdict {
    Verdict::twice(place, first)
}

/// Every name is an identifier.
fn accepted(nodes: u64, names: u64) -> Verdict {
    with_odd(nodes, names, 0)
}

fn with_odd(nodes: u64, names: u64, odd: u64) -> Verdict {
    Verdict::Accepted(Counts { nodes, names, odd })
}

/// The table "Sample models under L" of document 01, all but the two rows of the largest size (`large`).
pub fn document() -> Vec<Row> {
    let nine_ff = "FF FF FF FF FF FF FF FF FF";
    let mut rows: Vec<Row> = [
        ("none", "".into(), 0, refused(10, 0)),
        ("08", "08".into(), 0, refused(1, 0)),
        ("00", "00".into(), 0, refused(3, 0)),
        ("0A", "0A".into(), 0, refused(4, 0)),
        ("08 08 08 08", "08 08 08 08".into(), 0, refused(5, 2)),
        ("ir_version -1", format!("08 {nine_ff} 01"), 0, refused(10, 0)),
        ("tenth byte 2", format!("08 {nine_ff} 02"), 0, refused(2, 0)),
        ("M0", M0.into(), 0, accepted(0, 0)),
        ("M1, 2 cells", M1.into(), 2, accepted(1, 1)),
        ("M1, 1 cell", M1.into(), 1, refused(40, 13)),
        ("M1, 0 cells", M1.into(), 0, refused(40, 13)),
        ("M1 that reads itself", SELF_READER.into(), 1, refused(30, 13)),
        ("M1 that binds twice", TWICE.into(), 2, twice(16, 13)),
    ]
    .into_iter()
    .map(|(name, model, cells, answer): (&str, String, usize, Verdict)| row(name, hex(&model), &L, cells, answer))
    .collect();
    for (version, answer) in [(7, accepted(0, 0)), (21, accepted(0, 0)), (6, refused(14, 2)), (22, refused(14, 2))] {
        rows.push(row("M0 with another import", with_byte(M0, 5, version), &L, 0, answer));
    }
    for (version, answer) in [(3, accepted(0, 0)), (11, accepted(0, 0)), (2, refused(10, 0)), (12, refused(10, 0))] {
        rows.push(row("M0 with another ir_version", with_byte(M0, 1, version), &L, 0, answer));
    }
    rows.push(row("graphs nested to 8", nested(8), &L, 0, accepted(7, 0)));
    let deepest = nested(9);
    // Below the graph at depth 9 only its name follows, so its tag, 32, is the last byte 32.
    let place = deepest.iter().rposition(|byte| *byte == 0x32).expect("there is a g") as u64;
    rows.push(row("graphs nested to 9", deepest, &L, 0, refused(6, place)));
    rows
}

fn with_byte(model: &str, at: usize, byte: u8) -> Vec<u8> {
    let mut model = hex(model);
    model[at] = byte;
    model
}

/// A sound model whose graphs are nested to `depth`.
pub fn nested(depth: usize) -> Vec<u8> {
    at_depth(depth, Tree::new(Message::Graph).text(2, b"g"))
}

/// A node whose one output is left out, with this body.
fn holder(graph: Tree) -> Tree {
    let attribute = Tree::new(Message::Attribute).text(1, b"b").number(20, 5).tree(6, graph);
    Tree::new(Message::Node).text(2, b"").text(4, b"X").tree(5, attribute)
}

/// A model with this graph at `depth`, each body in such a node.
fn at_depth(depth: usize, mut graph: Tree) -> Vec<u8> {
    for _ in 1..depth {
        graph = Tree::new(Message::Graph).text(2, b"g").tree(1, holder(graph));
    }
    let import = Tree::new(Message::OperatorSetId).number(2, 13);
    Tree::new(Message::Model).number(1, 8).tree(8, import).tree(7, graph).encode()
}

#[cfg(test)]
mod tests {
    use super::by_hand::in_graph;
    use super::*;
    use crate::checker::check;
    use crate::checker::Verdict::{Accepted, Refused};
    use crate::odd;
    use crate::runner::{run, End, Read};

    fn holds(rows: impl IntoIterator<Item = Row>) {
        let told = |row: Row| {
            let verdict = check(&row.model, &row.list, row.cells);
            (verdict != row.answer).then(|| format!("{}: {:?}, the checker {verdict:?}", row.name, row.answer))
        };
        let wrong: Vec<String> = rows.into_iter().filter_map(told).collect();
        assert!(wrong.is_empty(), "{wrong:#?}");
    }

    #[test]
    fn the_sample_rows_of_document_01() {
        holds(document());
    }

    #[test]
    fn the_rows_of_the_largest_size() {
        holds(large());
    }

    #[test]
    fn the_rows_by_hand() {
        holds(by_hand());
    }

    #[test]
    fn the_rows_of_ir_versions() {
        holds(ir_versions());
    }

    #[test]
    fn the_rows_of_functions() {
        holds(functions());
    }

    #[test]
    fn each_field_of_a_function() {
        assert!(function_fields().len() > 2_000);
        holds(function_fields());
    }

    #[test]
    fn the_rows_with_long_names_and_many() {
        holds(wide());
    }

    #[test]
    fn each_field_with_each_name() {
        assert!(names().len() > 1_500);
        holds(names());
    }

    #[test]
    fn each_position_of_a_padded_varint() {
        assert!(positions().len() > 1_000);
        holds(positions());
    }

    fn all_rows() -> impl Iterator<Item = Row> {
        let by_hand = document().into_iter().chain(by_hand()).chain(functions()).chain(function_fields());
        by_hand.chain(ir_versions()).chain(names()).chain(wide()).chain(large())
    }

    #[test]
    fn the_third_count_by_itself_on_all_rows() {
        for row in all_rows() {
            if let Accepted(counts) = row.answer {
                assert_eq!(odd::count(&row.model), counts.odd, "{}", row.name);
            }
        }
    }

    /// Demand 3 on the rows: accepted models run to their end, and 23, 30 and 35 stop the run at their place.
    #[test]
    fn the_runner_on_all_rows() {
        for row in all_rows() {
            let expected = match row.answer {
                Accepted(_) => End::Reached,
                Refused { number: 23, place, first } => End::BoundAgain { place, defined: first },
                Refused { number: 30 | 35, place, .. } => End::Unbound { place },
                Refused { .. } => continue,
            };
            assert_eq!(run(&row.model, &[]).end, expected, "{}", row.name);
        }
    }

    /// The checker refuses them, and the runner reads them as it always did.
    #[test]
    fn the_runner_on_padded_varints() {
        let again = End::BoundAgain { place: 17, defined: 13 };
        for (name, graph, end) in [
            ("30 behind a padded tag", "12 01 67 0A 0A 8A 00 01 61 12 01 61 22 01 58", End::Unbound { place: 13 }),
            ("23 of padded names", "12 01 67 0A 0B 92 00 01 61 12 81 00 61 22 01 58", again),
            ("35 in a padded output", "12 01 67 E2 80 00 83 00 0A 01 62", End::Unbound { place: 16 }),
            ("a sound node, padded", "12 01 67 8A 00 87 00 12 81 00 61 22 01 58", End::Reached),
        ] {
            let model = in_graph(graph);
            assert_eq!(check(&model, &L, 9).number(), 9, "{name}");
            assert_eq!(run(&model, &[]).end, end, "{name}");
        }
    }

    /// At IR version 3 a default in a body, which stands at 38, binds nothing new however often it is run, and a read finds the input, at 33.
    #[test]
    fn a_run_with_a_default_in_a_body() {
        let body = "12 01 67 5A 03 0A 01 69 2A 05 42 01 69 10 01 0A 08 0A 01 69 12 00 22 01 58";
        let mut model = in_graph(&format!("12 01 67 0A 28 12 00 22 01 58 2A 21 0A 01 6B A0 01 05 32 19 {body}"));
        model[1] = 3;
        let read = Read { field: 45, defined: 33 };
        for (choices, reads) in [(&[][..], vec![read]), (&[0], vec![]), (&[3], vec![read; 3])] {
            let run = run(&model, choices);
            assert_eq!((run.end, run.reads), (End::Reached, reads));
        }
        for version in [4, 11] {
            model[1] = version;
            assert_eq!(run(&model, &[]).end, End::BoundAgain { place: 38, defined: 33 });
            assert_eq!(run(&model, &[0]).end, End::Reached);
        }
    }

    /// A body at 24 with an input `i`, a node that reads `i` and the outer `a`, and `i` as its output.
    #[test]
    fn a_run_by_hand() {
        let node_a = "0A 06 12 01 61 22 01 58";
        let body = "12 01 67 5A 03 0A 01 69 0A 0B 0A 01 69 0A 01 61 12 00 22 01 58 62 03 0A 01 69";
        let model =
            in_graph(&format!("12 01 67 {node_a} 0A 2A 12 01 62 22 01 58 2A 22 0A 01 6B A0 01 05 32 1A {body}"));
        assert_eq!(check(&model, &L, 4), accepted(3, 2));
        let once = run(&model, &[]);
        let reads: Vec<(u64, u64)> = once.reads.iter().map(|read| (read.field, read.defined)).collect();
        assert_eq!((once.end, reads), (End::Reached, vec![(47, 42), (50, 13), (60, 42)]));
        assert_eq!(run(&model, &[0]).reads, vec![]);
        let twice: Vec<Read> = once.reads.iter().chain(&once.reads).copied().collect();
        assert_eq!(run(&model, &[2]).reads, twice);
    }
}
