//! Models and operator lists for the tests: sound ones, ones with faults, damaged bytes and random bytes.
//! Everything follows from the seed and the number of the case.

pub mod damage;
pub mod faults;
pub mod lists;
pub mod names;
pub mod proto;
pub mod sparse;
pub mod valid;
pub mod wild;

use crate::rng::Rng;
use crate::schema::Message;
use crate::verdict::Counts;
use proto::{Tree, Value};

/// One model under one list. `expected` are the counts of its acceptance, where it was made sound.
#[derive(Clone, Debug)]
pub struct Case {
    pub label: String,
    pub model: Vec<u8>,
    pub list: Vec<u8>,
    pub expected: Option<Counts>,
}

/// The case of a seed and a number. Faults go round with the number, so that each has its turn.
pub fn case(seed: u64, number: u64) -> Case {
    let mut rng = Rng::of_case(seed, number);
    let rng = &mut rng;
    let mut case = match number % 16 {
        0..=3 => sound(rng),
        4..=8 => one_fault(rng, number),
        9..=11 => more_faults(rng),
        12..=13 => damaged(rng),
        14 => wild_model(rng),
        _ => random(rng),
    };
    if rng.chance(1, 25) {
        spoil_list(rng, &mut case);
    }
    case
}

/// The bytes of a tree that need not be sound. A few get a padded field too, before or behind what else is wrong.
fn unsound(mut tree: Tree, rng: &mut Rng) -> Vec<u8> {
    if rng.chance(1, 12) {
        faults::pad(&mut tree, rng);
    }
    tree.encode()
}

fn sound(rng: &mut Rng) -> Case {
    let made = valid::valid(rng);
    let list = lists::encode(&made.entries);
    Case { label: "sound".into(), model: made.tree.encode(), list, expected: Some(made.counts) }
}

/// The fault whose turn it is, on sound models until one has a place for it.
fn one_fault(rng: &mut Rng, number: u64) -> Case {
    let faults = faults::all();
    // Of 16 numbers 5 come here; counting them all lets the faults go round evenly.
    let turn = number / 16 * 5 + number % 16;
    let fault = faults[turn as usize % faults.len()];
    with_fault(rng, fault)
}

pub fn with_fault(rng: &mut Rng, fault: &faults::Fault) -> Case {
    let mut made = valid::valid(rng);
    for _ in 0..20 {
        if (fault.apply)(&mut made.tree, rng) {
            break;
        }
        made = valid::valid(rng);
    }
    let model = unsound(made.tree, rng);
    Case { label: fault.name.into(), model, list: lists::encode(&made.entries), expected: None }
}

/// Two or three faults, mostly in a small model, where they fall on one message: then the order of the rules decides.
/// A fault of the wire hides all others, so most of these have none.
fn more_faults(rng: &mut Rng) -> Case {
    let mut faults = faults::all();
    if rng.chance(4, 5) {
        faults.retain(|fault| !fault.of_the_wire());
    }
    let room = *rng.pick(&[1, 1, 2, 3, 8]);
    let mut made = valid::of_size(rng, room);
    let mut label = Vec::new();
    for _ in 0..2 + rng.below(2) {
        let fault = *rng.pick(&faults);
        if (fault.apply)(&mut made.tree, rng) {
            label.push(fault.name);
        }
    }
    let model = unsound(made.tree, rng);
    Case { label: label.join(" + "), model, list: lists::encode(&made.entries), expected: None }
}

fn damaged(rng: &mut Rng) -> Case {
    let made = valid::valid(rng);
    let other = valid::valid(rng).tree.encode();
    let mut model = unsound(made.tree, rng);
    for _ in 0..1 + rng.below(3) {
        damage::damage(rng, &mut model, &other);
    }
    Case { label: "damaged".into(), model, list: lists::encode(&made.entries), expected: None }
}

/// Keeps the rows and no rule; half of them with a sound header, so that the graph is judged, and half of these with a sound graph, so
/// that the functions are.
fn wild_model(rng: &mut Rng) -> Case {
    let depth = 1 + rng.below(6);
    let mut tree = wild::tree(rng, Message::Model, depth);
    if rng.chance(1, 2) {
        let import = Tree::new(Message::OperatorSetId).number(2, 13);
        tree.items.retain(|item| matches!(item.number, 7 | 25));
        tree = tree.number(1, *rng.pick(&[3, 8, 11])).tree(8, import);
        if rng.chance(1, 2) {
            tree.set(7, Value::Tree(Tree::new(Message::Graph).text(2, b"g")));
        }
    }
    wild::sprinkle(&mut tree, rng);
    Case { label: "wild".into(), model: unsound(tree, rng), list: lists::L.to_vec(), expected: None }
}

fn random(rng: &mut Rng) -> Case {
    let count = rng.below(40);
    let model = if rng.chance(1, 2) { rng.bytes(count) } else { damage::likely_bytes(rng, count) };
    Case { label: "random bytes".into(), model, list: lists::L.to_vec(), expected: None }
}

/// Another list: an unsound one, one with no entries, or one made for another model.
fn spoil_list(rng: &mut Rng, case: &mut Case) {
    let entries = lists::sound(rng);
    case.list = match rng.below(5) {
        0 => lists::encode(&[]),
        1 => lists::encode(&entries),
        _ => lists::unsound(rng, &entries),
    };
    case.label.push_str(", another list");
    case.expected = None;
}
