use std::collections::BTreeMap;

use crate::checker::{check, Verdict};
use crate::models;
use crate::parts::whole;
use crate::wire::{fields, Field};

/// The numbers of the fields from the model down to the one that begins at `place`.
fn way_to(model: &[u8], message: Field, place: usize) -> Option<Vec<u32>> {
    for field in fields(model, message.start, message.end) {
        if field.place == place {
            return Some(vec![field.number]);
        }
        if (field.start..field.end).contains(&place) {
            let inside = way_to(model, field, place)?;
            return Some([vec![field.number], inside].concat());
        }
    }
    None
}

/// A graph within a graph of a node stands for that graph, and one of several for the only one.
fn folded(mut way: Vec<u32>) -> Vec<u32> {
    while let [25, 7, 5, 6 | 11, 1, 5, 6 | 11, ..] = way[..] {
        way.drain(3..6);
    }
    if let [25, 7, 5, graph @ 11, ..] = &mut way[..] {
        *graph = 6;
    }
    way
}

/// Which function of the model a place is in.
fn position_of(model: &[u8], place: usize) -> usize {
    fields(model, 0, model.len()).filter(|field| field.number == 25).take_while(|field| field.end <= place).count()
}

/// Each number of the request with the field that it is at.
#[rustfmt::skip]
const PLACES: &[(u64, &[u32])] = &[
    (22, &[25]), (22, &[25, 1]), (21, &[25, 1]), (41, &[25]),
    (22, &[25, 6]), (21, &[25, 6]), (42, &[25, 6]),
    (22, &[25, 11]), (22, &[25, 11, 1]), (21, &[25, 11, 1]), (42, &[25, 11, 1]), (33, &[25, 11]), (32, &[25, 11]),
    (12, &[25]), (13, &[25, 9]), (14, &[25, 9]),
    (22, &[25, 4]), (21, &[25, 4]), (23, &[25, 4]),
    (27, &[25, 7]), (27, &[25, 7, 4]), (21, &[25, 7, 4]), (28, &[25, 7]), (28, &[25, 7, 7]), (21, &[25, 7, 3]), (29, &[25, 7, 3]),
    (21, &[25, 7, 1]), (30, &[25, 7, 1]), (22, &[25, 7, 5]), (22, &[25, 7, 5, 1]), (21, &[25, 7, 5, 1]), (31, &[25, 7, 5, 1]),
    (33, &[25, 7, 5]), (32, &[25, 7, 5]), (34, &[25, 7]), (21, &[25, 7, 2]), (23, &[25, 7, 2]),
    (22, &[25, 5]), (21, &[25, 5]), (35, &[25, 5]),
    // in a graph of a node, at any depth
    (20, &[25, 7, 5, 6]), (16, &[25, 7, 5, 6, 15]), (43, &[25, 7, 5, 6, 5, 8]), (23, &[25, 7, 5, 6, 5, 8]),
    (30, &[25, 7, 5, 6, 1, 1]), (33, &[25, 7, 5, 6, 1, 5]), (32, &[25, 7, 5, 6, 1, 5]), (35, &[25, 7, 5, 6, 12, 1]),
];

/// Each is met in the first function of a model, and in a later one.
#[test]
fn each_number_at_each_place() {
    let mut met: BTreeMap<(u64, Vec<u32>), [u64; 2]> = BTreeMap::new();
    for number in 0..100_000 {
        let case = models::case(13, number);
        let Verdict::Refused { number, place, .. } = check(&case.model, &case.list, usize::MAX) else {
            continue;
        };
        let way = way_to(&case.model, whole(&case.model), place as usize).unwrap_or_default();
        if way.first() == Some(&25) {
            let later = position_of(&case.model, place as usize) > 0;
            met.entry((number, folded(way))).or_default()[usize::from(later)] += 1;
        }
    }
    let rare = |(number, way): &(u64, &[u32])| {
        let [first, later] = met.get(&(*number, way.to_vec())).copied().unwrap_or_default();
        let few = later < 4 || first < 4 && *number != 41;
        few.then(|| format!("{number} at {way:?}: {first} times in a first function, {later} times in a later one"))
    };
    let rare: Vec<String> = PLACES.iter().filter_map(rare).collect();
    assert!(rare.is_empty(), "{rare:#?}");
}
