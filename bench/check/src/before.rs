//! Both checks beside those of another clone, in turn in one process: what a change did to their time. The other library answers as this
//! one does: it is from Req 03 or later. One from before Req 06 refuses IR version 3, and one from before Req 01 functions; it is not
//! timed on such models.

use std::hint::black_box;
use std::time::Duration;

use gate_tests::gate::Answer;

use crate::clock::timed;
use crate::given::Given;
use crate::markdown::{head, ratio, table, time};
use crate::report::{Run, NONE};
use crate::timing::{in_turn, Plan, ONCE};
use crate::workloads::Workload;

extern "C" {
    fn before_check(
        model_ptr: *const u8,
        model_len: usize,
        list_ptr: *const u8,
        list_len: usize,
        cells_ptr: *mut u32,
        cells_len: usize,
    ) -> Answer;
    fn before_check_indexed(
        model_ptr: *const u8,
        model_len: usize,
        list_ptr: *const u8,
        list_len: usize,
        cells_ptr: *mut u32,
        cells_len: usize,
        extra_ptr: *mut u32,
        extra_len: usize,
        seed: u64,
    ) -> Answer;
}

const HEAD: [&str; 8] = [
    "indexed, after ÷ before",
    "plain, after ÷ before",
    "workload",
    "indexed before",
    "indexed after",
    "plain before",
    "plain after",
    "plain on",
];

pub fn rows(run: &Run, workloads: &[&Workload]) -> String {
    let rows = workloads.iter().map(|workload| row(run, workload));
    table(&[head(&HEAD)].into_iter().chain(rows).collect::<Vec<_>>(), &[2, 7])
}

/// Where the plain check would be too long to be called often, it is timed on a quarter.
fn row(run: &Run, workload: &Workload) -> Vec<String> {
    eprintln!("{}", workload.name);
    let whole = run.given(workload, 1);
    if let Some(number) = refused_before(&whole) {
        let mut row = vec![NONE.to_string(); HEAD.len()];
        (row[2], row[3]) = (workload.name.to_string(), format!("refused with {number}"));
        return row;
    }
    let quarter = workload.size.is_some().then(|| run.given(workload, 4));
    let quarter = quarter.filter(|quarter| quarter.plain()() * 16 > ONCE);
    let indexed = pair(indexed(&whole), whole.indexed(), run.plan);
    let part = quarter.as_ref().unwrap_or(&whole);
    let plain = pair(plain(part), part.plain(), run.plan);
    let mut row = vec![ratio(indexed[1], indexed[0]), ratio(plain[1], plain[0]), workload.name.to_string()];
    row.extend(indexed.into_iter().chain(plain).map(time));
    row.push(if quarter.is_some() { "a quarter" } else { "the whole" }.to_string());
    row
}

/// The best times of both.
fn pair<'a>(before: impl FnMut() -> Duration + 'a, after: impl FnMut() -> Duration + 'a, plan: Plan) -> [Duration; 2] {
    let calls: [Box<dyn FnMut() -> Duration + 'a>; 2] = [Box::new(before), Box::new(after)];
    in_turn(calls, plan).map(|times| times.best())
}

fn plain(given: &Given) -> impl FnMut() -> Duration + '_ {
    let mut cells = vec![0; given.cells];
    move || {
        let (model, list) = (black_box(&given.model), &given.list);
        // SAFETY: the three slices live through the call, and the library has no other way to reach memory of ours.
        let (taken, answer) = timed(|| unsafe {
            before_check(model.as_ptr(), model.len(), list.as_ptr(), list.len(), cells.as_mut_ptr(), cells.len())
        });
        given.accepts(answer);
        taken
    }
}

fn indexed(given: &Given) -> impl FnMut() -> Duration + '_ {
    let (mut cells, mut extra) = (vec![0; given.cells], vec![0; given.extra]);
    move || {
        let (taken, answer) = timed(|| call_indexed(given, &mut cells, &mut extra));
        given.accepts(answer);
        taken
    }
}

fn call_indexed(given: &Given, cells: &mut [u32], extra: &mut [u32]) -> Answer {
    let (model, list) = (black_box(&given.model), &given.list);
    // SAFETY: as above, and the two slices that are written are two.
    unsafe {
        before_check_indexed(
            model.as_ptr(),
            model.len(),
            list.as_ptr(),
            list.len(),
            cells.as_mut_ptr(),
            cells.len(),
            extra.as_mut_ptr(),
            extra.len(),
            given.seed,
        )
    }
}

/// 10 for an IR version, 15 for functions. Any other refusal is one that `accepts` does not let pass.
fn refused_before(given: &Given) -> Option<u64> {
    let answer = call_indexed(given, &mut vec![0; given.cells], &mut vec![0; given.extra]);
    Some(answer.refusal).filter(|number| matches!(number, 10 | 15))
}
