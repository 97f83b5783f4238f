//! The runner on functions: "after the main graph the runner runs each body alone, in list order: from no bound names".

use super::{behind, with_graph, F};
use crate::checker::check;
use crate::models::lists::L;
use crate::rows::accepted;
use crate::runner::{run, End, Plan};

/// A node with a body that reads `a`, but for its tag.
const READS_A: &str = "1C 12 00 22 01 58 2A 15 0A 01 6B A0 01 05 32 0D 12 01 67 0A 08 0A 01 61 12 00 22 01 58";

/// The main graph binds `a` at 13 and reads it in a body at 41. The function has an input `a` at 59, reads it in a body at 84, and lists it at 92.
fn two_bodies() -> Vec<u8> {
    let graph = format!("12 01 67 0A 06 12 01 61 22 01 58 0A {READS_A}");
    behind(&with_graph(&graph), &[&format!("{F} 22 01 61 3A {READS_A} 2A 01 61")])
}

fn reads(model: &[u8], choices: &[u64]) -> (End, Vec<(u64, u64)>) {
    let run = run(model, choices);
    (run.end, run.reads.iter().map(|read| (read.field, read.defined)).collect())
}

#[test]
fn one_list_of_choices_for_the_whole_run() {
    let model = two_bodies();
    assert_eq!(check(&model, &L, 2), accepted(5, 1));
    assert_eq!(Plan::read(&model).bodies(), 2);
    let (main, inner, output) = ((41, 13), (84, 59), (92, 59));
    for (choices, expected) in [
        (&[][..], vec![main, inner, output]),
        (&[0], vec![inner, output]),
        (&[0, 0], vec![output]),
        (&[1, 0], vec![main, output]),
        (&[2, 3], vec![main, main, inner, inner, inner, output]),
    ] {
        assert_eq!(reads(&model, choices), (End::Reached, expected), "{choices:?}");
    }
    let once = run(&model, &[]);
    assert_eq!((once.nodes_run, once.most_bound), (5, 1));
}

#[test]
fn where_a_run_stops() {
    let reads_a = format!("{F} 3A 08 0A 01 61 12 00 22 01 58");
    let binds_a = "0A 01 67 4A 02 10 0D 3A 06 12 01 61 22 01 58 2A 01 61";
    let graph = with_graph("12 01 67 0A 06 12 01 61 22 01 58");
    // What the main graph or an earlier function bound is gone.
    assert_eq!(reads(&behind(&graph, &[&reads_a]), &[]), (End::Unbound { place: 31 }, vec![]));
    let second = End::Unbound { place: 52 };
    assert_eq!(reads(&behind(&graph, &[binds_a, &reads_a]), &[]), (second, vec![(37, 31)]));
    // A run that stops in the main graph, or in a function, comes to none behind it.
    let stops = with_graph("12 01 67 62 03 0A 01 7A");
    assert_eq!(reads(&behind(&stops, &[binds_a]), &[]), (End::Unbound { place: 13 }, vec![]));
    let again = End::BoundAgain { place: 32, defined: 29 };
    let bound_again = format!("{F} 22 01 61 22 01 61");
    assert_eq!(reads(&behind(&graph, &[&bound_again, binds_a]), &[]), (again, vec![]));
}

/// 11 is no refusal that demand 3 ties to a stop.
#[test]
fn functions_of_a_model_with_no_graph() {
    let model = behind("08 08 42 02 10 0D", &[&format!("{F} 22 01 61 2A 01 61"), &format!("{F} 2A 01 61")]);
    assert_eq!(check(&model, &L, 9).number(), 11);
    assert_eq!(reads(&model, &[]), (End::Unbound { place: 32 }, vec![(19, 16)]));
}
