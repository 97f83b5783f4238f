//! Rows for domains so long that the entry's length takes both of its bytes, and the model's lengths two.

use super::{accepted, refused, row, Row};
use crate::models::lists::{encode, Entry};
use crate::models::proto::Tree;
use crate::schema::Message;

/// An entry's length is that of its domain and 8: lengths around 256 and 512 of both.
const LENGTHS: [usize; 10] = [247, 248, 249, 255, 256, 257, 503, 504, 505, 1000];

/// Two domains of this length that differ in their last byte.
fn long(length: usize) -> (Vec<u8>, Vec<u8>) {
    let domain = vec![b'd'; length];
    let mut other = domain.clone();
    other[length - 1] = b'e';
    (domain, other)
}

/// One import, whose tag is at 2, and a node of the same domain.
fn importing(domain: &[u8], version: u64) -> Vec<u8> {
    let import = Tree::new(Message::OperatorSetId).text(1, domain).number(2, version);
    let node = Tree::new(Message::Node).text(2, b"").text(4, b"X").text(7, domain);
    let graph = Tree::new(Message::Graph).text(2, b"g").tree(1, node);
    Tree::new(Message::Model).number(1, 8).tree(8, import).tree(7, graph).encode()
}

pub fn domains() -> Vec<Row> {
    LENGTHS.into_iter().flat_map(of_length).collect()
}

fn of_length(length: usize) -> Vec<Row> {
    let (one, other) = long(length);
    let entry = |domain: &[u8], lowest, highest| Entry { domain: domain.to_vec(), lowest, highest };
    let lists = [
        encode(&[entry(&one, 7, 21), entry(&other, 30, 40), entry(b"", 7, 21)]),
        encode(&[entry(b"", 7, 21), entry(&one, 9, 7)]),
        encode(&[entry(b"", 7, 21), entry(&one, 0, 7)]),
        encode(&[entry(&one, 7, 21), entry(&other, 7, 21), entry(&one, 7, 21)]),
    ];
    let under = |list: usize, domain: &[u8], version: u64, answer| {
        let name = format!("a domain of {length}, version {version}, list {list}");
        row(&name, importing(domain, version), &lists[list], 0, answer)
    };
    vec![
        under(0, &one, 6, refused(14, 2)),
        under(0, &one, 7, accepted(1, 0)),
        under(0, &one, 21, accepted(1, 0)),
        under(0, &one, 22, refused(14, 2)),
        under(0, &other, 29, refused(14, 2)),
        under(0, &other, 40, accepted(1, 0)),
        under(0, b"", 21, accepted(1, 0)),
        under(1, b"", 21, refused(8, 0)),
        under(2, b"", 21, refused(8, 0)),
        under(3, &one, 21, refused(8, 0)),
    ]
}
