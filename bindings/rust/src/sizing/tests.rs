use super::*;
use crate::tests::{damaged, field_of as part};
use crate::{check_with, operators};

/// A model that ends with one node of so many outputs, of nine bytes each.
fn outputs(count: usize) -> Vec<u8> {
    let mut node = b"\x22\x01X".to_vec();
    for i in 0..count {
        node.extend(format!("\x12\x07v{i:06x}").as_bytes());
    }
    let node = part(1, &node);
    [&b"\x08\x08\x42\x02\x10\x0D"[..], &part(7, &[b"\x12\x01g", &node[..]].concat())].concat()
}

/// That there is no cell for the first of its last so many outputs.
fn full(model: &[u8], last: usize) -> String {
    format!("refused 40 at {}", model.len() - 9 * last)
}

fn list() -> Vec<u8> {
    operators::write(&[("", 7, 21)]).unwrap()
}

fn under(options: Options, model: &[u8]) -> (String, usize) {
    let checked = options.check(model, &list()).unwrap();
    (checked.answer.map_or_else(|r| r.to_string(), |a| a.to_string()), checked.cells)
}

#[test]
fn any_number_of_names() {
    let first = FIRST / CELLS_PER_NAME;
    for count in [0, 1, 100, 3000, 4000, first - 1, first, first + 1, 100_000] {
        let model = outputs(count);
        let accepted = Accepted { nodes: 1, names: count as u64, odd: 0 };
        let expected = if count == 0 { Err(34) } else { Ok(accepted) };
        assert_eq!(check(&model, &list()).map_err(|r| r.number), expected, "{count}");
    }
}

/// Small and skimmed, with no limit and with few cells, the answer is that of the plain check.
#[test]
fn answers_are_the_plain_ones() {
    let doc_string = part(6, &[0; SMALL]);
    let (mut accepted, mut refused) = (0, std::collections::BTreeSet::new());
    for model in damaged(40) {
        for model in [&model, &[&model, &doc_string[..]].concat()] {
            for cells in [model.len(), 7, 6, 1] {
                let plain = check_with(model, &list(), &mut vec![0; cells]);
                let options = Options { cells, ..Options::default() };
                assert_eq!(options.check(model, &list()).unwrap().answer, plain, "{model:x?}");
                accepted += usize::from(plain.is_ok());
                refused.extend(plain.err().map(|r| r.number));
            }
        }
    }
    assert!(accepted > 30 && refused.len() > 25, "{accepted} {refused:?}");
}

#[test]
fn limits_are_kept() {
    let small = outputs(50);
    let cells = |cells| Options { cells, seed: Some(3), ..Options::default() };
    assert_eq!(under(cells(101), &small), ("accepted nodes 1 names 50 odd 0".into(), 101));
    assert_eq!(under(cells(100), &small), ("accepted nodes 1 names 50 odd 0".into(), 100));
    assert_eq!(under(cells(99), &small), (full(&small, 1), 99));
    assert_eq!(under(cells(98), &small), (full(&small, 1), 98));
    assert_eq!(under(cells(97), &small), (full(&small, 2), 97));
    assert_eq!(under(cells(1), &small), (full(&small, 50), 1));
    assert_eq!(under(cells(0), &small), (full(&small, 50), 0));
    let large = outputs(100_000);
    assert_eq!(under(cells(200_000), &large), ("accepted nodes 1 names 100000 odd 0".into(), 200_000));
    assert_eq!(under(cells(199_999), &large), (full(&large, 1), 199_999));
}

/// 40 bytes for a name are enough, and a byte less is one name less.
#[test]
fn memory_is_kept() {
    for (model, count) in [(outputs(50), 50), (outputs(100_000), 100_000)] {
        let memory = |memory| Options { memory, ..Options::default() };
        assert_eq!(under(memory(40 * count), &model).0, format!("accepted nodes 1 names {count} odd 0"));
        assert_eq!(under(memory(40 * count - 1), &model), (full(&model, 1), 2 * count - 1));
        assert_eq!(under(memory(40 * (count - 1)), &model), (full(&model, 1), 2 * count - 2));
        assert_eq!(under(memory(0), &model), (full(&model, count), 0));
    }
}

#[test]
fn zeroed_cells() {
    for count in [0, 1, 3, 1000, 1_000_000] {
        let mut cells = zeroed(count).unwrap();
        assert!(cells.len() == count && cells.iter().all(|cell| *cell == 0), "{count}");
        // memory that was used before is zeroed too
        cells.fill(u32::MAX);
        drop(cells);
        assert_eq!(zeroed(count).unwrap().iter().find(|cell| **cell != 0), None, "{count}");
    }
    // what no system has, and what no allocation may be asked for
    for count in [isize::MAX as usize / CELL, isize::MAX as usize / CELL + 1, usize::MAX / CELL + 1, usize::MAX] {
        assert_eq!(zeroed(count), Err(NoMemory { cells: count }));
    }
}

#[test]
fn extra_cells_fit_the_memory() {
    let options = Options { memory: 4 * 100, ..Options::default() };
    assert_eq!(options.most(1_000_000), 20);
    for (cells, lists, extra) in [(20, 9, 80), (20, 10, 80), (19, 9, 76), (19, 99, 81), (0, 3, 14), (0, 99, 100)] {
        assert_eq!(options.extra(cells, lists), extra, "{cells} and {lists}");
    }
}

/// Never fewer than four for each cell; and those that the index leaves are for lists.
#[test]
fn extra_cells_of_use() {
    for (cells, lists, extra) in [(0, 0, 2), (1, 0, 4), (2, 0, 8), (2, 1, 10), (10, 4, 40), (10, 5, 42), (11, 5, 44)] {
        assert_eq!(linear(cells, lists), extra, "{cells} and {lists}");
    }
    assert_eq!(MOST, 10 * (LARGEST_MODEL / 3) + 2);
}

#[test]
fn what_is_needed() {
    let small = Need { names: SMALL / 3, free: SMALL / 3, ..Need::default() };
    assert_eq!(need(&[0; SMALL], &list()), small);
    assert_eq!(need(&[0; SMALL + 1], &list()), Need::default());
    assert_eq!(need(&vec![0; LARGEST_MODEL + 1], &list()), Need::default());
}

/// A model with the graph given, which the wire rules let pass.
fn model(graph: &[u8]) -> Vec<u8> {
    [&b"\x08\x08\x42\x02\x10\x0D"[..], &part(7, &[b"\x12\x01g", graph].concat())].concat()
}

/// An attribute, of eight bytes, that may be kept.
const ATTRIBUTE: &[u8] = b"\x2A\x06\x0A\x01a\xA0\x01\x01";

/// What is counted by the million and cannot be kept costs no memory in proportion.
#[test]
fn hostile_counts() {
    let many = 2 * SHORT;
    let asked = |model: &[u8]| {
        let need = need(model, &list());
        let cells = of_names(need.names).min(FIRST);
        cells + Options::default().extra(cells, need.lists(cells / CELLS_PER_NAME))
    };
    // five for each cell of a first try, in which its lists have room
    let few = 5 * FIRST + 100;
    let import = b"\x42\x05\x0A\x01d\x10\x01";
    for (what, hostile) in [
        ("attributes of no bytes", model(&part(1, &b"\x2A\x00".repeat(many)))),
        ("imports", [model(b""), import.repeat(many)].concat()),
        ("initializers of one name", model(&b"\x2A\x05\x10\x01\x42\x01w".repeat(many))),
        ("initializers of a body", model(&part(1, &part(5, &part(6, &b"\x2A\x05\x10\x01\x42\x01w".repeat(many)))))),
        ("nodes of one name", model(&b"\x0A\x09\x12\x01a\x1A\x01n\x22\x01X".repeat(many))),
        ("attributes of many nodes", model(&part(1, ATTRIBUTE).repeat(many))),
        ("attributes before a fault of the wire", model(&[part(1, &ATTRIBUTE.repeat(many)), vec![0]].concat())),
        ("attributes without an import", part(7, &part(1, &ATTRIBUTE.repeat(many)))),
        ("imports of a function", [model(b""), part(25, &b"\x4A\x05\x0A\x01d\x10\x01".repeat(many))].concat()),
        ("functions of no bytes", [model(b""), part(25, b"").repeat(many)].concat()),
        ("a function's attributes of no bytes", [model(b""), part(25, &b"\x32\x00".repeat(many))].concat()),
    ] {
        assert!(asked(&hostile) <= few, "{what}: {}", asked(&hostile));
        assert!(check(&hostile, &list()).is_err(), "{what}");
    }
    let kept = model(&part(1, &ATTRIBUTE.repeat(many)));
    assert_eq!(asked(&kept), 2 + 4 * many, "as many as may be kept");
    assert_eq!(need(&kept, &[]), Need::default(), "under a list that is not sound");
    for (number, fault) in [(3, &b"\x00"[..]), (5, b"\x12\x01g"), (9, b"\x52\x80\x00")] {
        let refused = model(&[&part(1, &ATTRIBUTE.repeat(many)), fault].concat());
        assert_eq!(need(&refused, &list()), Need::default(), "before a {number}");
        assert_eq!(check(&refused, &list()).map_err(|r| r.number), Err(number));
    }
}

/// At IR version 3: a body with so many inputs, and a default for each.
fn nested_defaults(count: usize) -> Vec<u8> {
    let name = |number, at: usize| part(number, format!("i{at:06x}").as_bytes());
    let input = |at| part(11, &name(1, at));
    let default = |at| part(5, &[name(8, at), b"\x10\x01".to_vec()].concat());
    let inside: Vec<u8> = (0..count).map(input).chain((0..count).rev().map(default)).flatten().collect();
    let body = part(6, &[b"\x12\x01h", &inside[..]].concat());
    let attribute = part(5, &[b"\x0A\x01k\xA0\x01\x05", &body[..]].concat());
    let mut model = model(&part(1, &[b"\x12\x00\x22\x01X", &attribute[..]].concat()));
    model[1] = 3;
    model
}

/// Lists that are longer than any first try has room for take no longer, name for name.
#[test]
fn long_lists() {
    let name = |field: u8, first: char, i: usize| [&[field, 7][..], format!("{first}{i:06x}").as_bytes()].concat();
    let attribute = |i| part(5, &[&name(0x0A, 'a', i)[..], b"\xA0\x01\x01"].concat());
    let count = SHORT + 1_000;
    let attributes: Vec<u8> = (0..count).flat_map(attribute).collect();
    let node = part(1, &[b"\x12\x01y\x22\x01X", &attributes[..]].concat());
    assert_eq!(check(&model(&node), &list()), Ok(Accepted { nodes: 1, names: 1, odd: 0 }));
    let nodes = |output, count| -> Vec<u8> {
        let node = |i| part(1, &[name(0x12, output, i), name(0x1A, 'n', i), b"\x22\x01X".to_vec()].concat());
        (0..count).flat_map(node).collect()
    };
    let all = Accepted { nodes: count as u64, names: count as u64, odd: 0 };
    assert_eq!(check(&model(&nodes('v', count)), &list()), Ok(all));
    assert_eq!(check(&nested_defaults(count), &list()), Ok(Accepted { nodes: 1, names: count as u64, odd: 0 }));
    let twice = [nodes('v', count), nodes('w', 1)].concat();
    assert_eq!(check(&model(&twice), &list()).map_err(|r| r.number), Err(29));
}

/// So many functions; and one with so many attributes, to which a node refers one by one, as the last or the first.
fn functions(count: usize, first: bool) -> Vec<u8> {
    let name = |number, at: usize| part(number, format!("a{at:06x}").as_bytes());
    let function = |at| part(25, &[&name(1, at)[..], b"\x4A\x02\x10\x0D"].concat());
    let attributes: Vec<u8> = (0..count).flat_map(|at| name(6, at)).collect();
    let reference = |at| part(5, &[&name(1, at)[..], b"\xA0\x01\x01", &name(21, at)].concat());
    let node = [&b"\x12\x01y\x22\x01X"[..], &(0..count).flat_map(reference).collect::<Vec<u8>>()].concat();
    let one = part(25, &[&b"\x0A\x01f\x4A\x02\x10\x0D"[..], &attributes, &part(7, &node)].concat());
    let others = (0..count).flat_map(function).collect();
    if first { [model(b""), one, others].concat() } else { [model(b""), others, one].concat() }
}

/// 41, 42 and 33 find names as quickly as the others do, and name for name.
#[test]
fn long_lists_of_functions() {
    let count = SHORT + 1_000;
    for first in [false, true] {
        let model = functions(count, first);
        let found = need(&model, &list());
        assert_eq!((found.names, found.functions, found.bound, found.free), (1, 1 + count, 0, 2 * count));
        assert_eq!(check(&model, &list()), Ok(Accepted { nodes: 1, names: 1, odd: 0 }));
        for (number, after) in [(41, &b"\x0A\x07a000000\x4A\x02\x10\x0D"[..]), (22, b"")] {
            let expected = Err(Refusal { number, place: model.len(), first: None });
            assert_eq!(check(&[&model[..], &part(25, after)].concat(), &list()), expected);
        }
    }
}

/// All tries together have at most three times the cells of the last.
#[test]
fn tries_grow() {
    let most = of_names(LARGEST_MODEL / 3);
    for counted in [0, 2, FIRST, FIRST + 2, 8 * FIRST + 2, 2_000_000, most] {
        let mut tries = vec![counted.min(FIRST)];
        while let Some(cells) = next(tries[tries.len() - 1], counted, most).filter(|n| *n <= counted) {
            tries.push(cells);
        }
        assert_eq!(tries.last(), Some(&counted));
        assert!(tries.iter().sum::<usize>() <= 3 * counted && tries.len() <= 6, "{tries:?}");
    }
    // should the count be wrong, everything that can help is tried
    assert_eq!((next(0, 0, 50), next(50, 50, 50), next(60_000, 60_000, 60_001)), (Some(50), None, Some(60_001)));
}

#[test]
fn seeds_differ() {
    assert_ne!(random(), random());
    let model = outputs(3000);
    for seed in [0, 1, u64::MAX] {
        let seeded = Options { seed: Some(seed), ..Options::default() };
        assert_eq!(under(seeded, &model).0, "accepted nodes 1 names 3000 odd 0");
    }
}
