//! Rows for versions of more than one byte: the list has them in four bytes, highest first, a model in seven bits each.

use super::{accepted, hex, refused, row, Row};
use crate::models::proto::Tree;
use crate::schema::Message;

/// Each byte is another one, so that none stands for its neighbour.
const MIDDLE: u32 = 0x0102_0304;

/// M0 with this version in its import, whose tag is at 2.
fn importing(version: u64) -> Vec<u8> {
    let import = Tree::new(Message::OperatorSetId).number(2, version);
    let graph = Tree::new(Message::Graph).text(2, b"g");
    Tree::new(Message::Model).number(1, 8).tree(8, import).tree(7, graph).encode()
}

fn list(lowest: u32, highest: u32) -> Vec<u8> {
    [&hex("00 00 00 0B 01 00 08")[..], &lowest.to_be_bytes(), &highest.to_be_bytes()].concat()
}

pub fn versions() -> Vec<Row> {
    let mut rows = by_hand();
    for byte in 0..4 {
        rows.extend(around_a_byte(1 << (8 * byte)));
    }
    rows
}

#[rustfmt::skip]
fn by_hand() -> Vec<Row> {
    // 00 01 00 00 is 65,536, on the wire 80 80 04; 00 00 01 00 is 256, on the wire 80 02.
    let only = |version: &str| hex(&format!("00 00 00 0B 01 00 08 {version} {version}"));
    let import = |version: &str, length: &str| hex(&format!("08 08 42 {length} 10 {version} 3A 03 12 01 67"));
    vec![
        row("65,536 of 65,536", import("80 80 04", "04"), &only("00 01 00 00"), 0, accepted(0, 0)),
        row("65,535 of 65,536", import("FF FF 03", "04"), &only("00 01 00 00"), 0, refused(14, 2)),
        row("65,537 of 65,536", import("81 80 04", "04"), &only("00 01 00 00"), 0, refused(14, 2)),
        row("256 of 65,536", import("80 02", "03"), &only("00 01 00 00"), 0, refused(14, 2)),
        row("256 of 256", import("80 02", "03"), &only("00 00 01 00"), 0, accepted(0, 0)),
        row("255 of 256", import("FF 01", "03"), &only("00 00 01 00"), 0, refused(14, 2)),
        row("257 of 256", import("81 02", "03"), &only("00 00 01 00"), 0, refused(14, 2)),
        row("1 of 256", import("01", "02"), &only("00 00 01 00"), 0, refused(14, 2)),
        row("16,909,060", import("84 86 88 08", "05"), &only("01 02 03 04"), 0, accepted(0, 0)),
        row("67,305,985, its bytes the other way round", import("81 84 8C 20", "05"), &only("01 02 03 04"), 0, refused(14, 2)),
    ]
}

/// Versions and bounds that differ by `step` and in nothing else.
fn around_a_byte(step: u32) -> Vec<Row> {
    let (below, above) = (MIDDLE - step, MIDDLE + step);
    let case = |what: &str, version: u32, lowest: u32, highest: u32, answer| {
        row(&format!("{what}, by {step}"), importing(version.into()), &list(lowest, highest), 0, answer)
    };
    vec![
        case("below the only version", below, MIDDLE, MIDDLE, refused(14, 2)),
        case("above the only version", above, MIDDLE, MIDDLE, refused(14, 2)),
        case("between the lowest and the highest", MIDDLE, below, above, accepted(0, 0)),
        case("the lowest", below, below, above, accepted(0, 0)),
        case("the highest", above, below, above, accepted(0, 0)),
        case("a highest that is below the lowest", MIDDLE, MIDDLE, below, refused(8, 0)),
        case("a lowest that is above the highest", MIDDLE, above, MIDDLE, refused(8, 0)),
    ]
}
