//! The proved first walk and varint reader against ones written by hand in Rust, timed in one process.
//! A word on the command line picks the workloads whose names contain it.
mod damage;
mod generate;
mod rattle;
mod walker;

use generate::{Message, Random};
use rattle::Answer;
use std::hint::black_box;
use std::time::{Duration, Instant};

const SIZE: usize = 100_000_000;
const DAMAGED: usize = 200_000;
const RUNS: usize = 15;

/// What to walk or count, and how many times to make one timing of it.
struct Workload {
    name: &'static str,
    calls: u32,
    make: fn() -> Message,
}

const fn workload(name: &'static str, calls: u32, make: fn() -> Message) -> Workload {
    Workload { name, calls, make }
}

const COUNTED: [Workload; 2] = [
    workload("varints, 1 to 10 bytes", 1, || {
        generate::varints(&mut Random(1), SIZE, 10)
    }),
    workload("varints, 1 or 2 bytes", 1, || {
        generate::varints(&mut Random(2), SIZE, 2)
    }),
];

const WALKED: [Workload; 5] = [
    workload("flat graph of small nodes", 1, || {
        generate::flat(&mut Random(3), SIZE)
    }),
    workload("unknown fields", 1, || {
        generate::unknown(&mut Random(4), SIZE)
    }),
    workload("nested to depth 8", 1, || {
        generate::nested(&mut Random(5), SIZE, 8)
    }),
    workload("functions of small nodes", 1, || {
        generate::functions(&mut Random(6), SIZE)
    }),
    workload("one bytes field", 1_000_000, || generate::one_field(SIZE)),
];

/// What the hand-written walker answers, in the same numbers.
fn by_hand(model: &[u8]) -> Answer {
    match walker::first_walk(model) {
        Ok(()) => Answer {
            number: 0,
            place: 0,
        },
        Err(r) => Answer {
            number: r.rule as u64,
            place: r.place as u64,
        },
    }
}

/// What both walkers answer, and both varint loops count.
fn agree(model: &[u8]) -> (Answer, u64) {
    let both = (rattle::first_walk(model), rattle::varints(model));
    assert!(
        both == (by_hand(model), walker::varints(model)),
        "they differ on {:02X?}",
        &model[..model.len().min(1000)]
    );
    both
}

/// They agree on damaged models, among which every refusal occurs.
fn check_damaged() {
    let mut r = Random(0);
    let mut given = [0; 10];
    for _ in 0..DAMAGED {
        let (answer, _) = agree(&damage::damaged(&mut r));
        given[answer.number as usize] += 1;
    }
    // 7 and 8 are no refusals of the walk
    let [passed, refused @ .., 0, 0, padded] = given else {
        panic!("7 or 8 from a walk");
    };
    println!(
        "agree on {DAMAGED} damaged models: {passed} pass, {refused:?} are refused with 1 to 6, {padded} with 9\n"
    );
    assert!(passed > 0 && refused.iter().all(|&n| n > 0) && padded > 0);
}

fn time<T>(bytes: &[u8], calls: u32, f: fn(&[u8]) -> T) -> Duration {
    let start = Instant::now();
    for _ in 0..calls {
        black_box(f(black_box(bytes)));
    }
    start.elapsed() / calls
}

/// The proved side, the one by hand and, where one was given, the proved side of before.
#[cfg(not(feature = "before"))]
const COUNTS: &[fn(&[u8]) -> u64] = &[rattle::varints, walker::varints];
#[cfg(not(feature = "before"))]
const WALKS: &[fn(&[u8]) -> Answer] = &[rattle::first_walk, by_hand];
#[cfg(feature = "before")]
const COUNTS: &[fn(&[u8]) -> u64] = &[rattle::varints, walker::varints, rattle::before::varints];
#[cfg(feature = "before")]
const WALKS: &[fn(&[u8]) -> Answer] = &[rattle::first_walk, by_hand, rattle::before::first_walk];

/// A line of the table: the best of several runs of each, taken in turn.
fn compare<T>(w: &Workload, load: &Message, sides: &[fn(&[u8]) -> T]) {
    let mut best = vec![Duration::MAX; sides.len()];
    for _ in 0..RUNS {
        for (best, side) in best.iter_mut().zip(sides) {
            *best = (*best).min(time(&load.bytes, w.calls, *side));
        }
    }
    let seconds: Vec<f64> = best.iter().map(Duration::as_secs_f64).collect();
    let per_field = |t: f64| t * 1e9 / load.fields as f64;
    // where nearly all bytes are passed over at once, there is no speed in bytes
    let speed = |t: f64| match w.calls {
        1 => format!("{:.0}", load.bytes.len() as f64 / t / 1e6),
        _ => "-".into(),
    };
    print!(
        "{:5.2}  {:26} {:10} {:>7} {:>6} {:8.1} {:6.1}",
        seconds[0] / seconds[1],
        w.name,
        load.fields,
        speed(seconds[0]),
        speed(seconds[1]),
        per_field(seconds[0]),
        per_field(seconds[1])
    );
    if let Some(&before) = seconds.get(2) {
        print!(" {:8.1} {:6.2}", per_field(before), seconds[0] / before);
    }
    println!();
}

fn main() {
    let word = std::env::args().nth(1).unwrap_or_default();
    let picked = |w: &&Workload| w.name.contains(&word);
    check_damaged();

    let more = if cfg!(feature = "before") {
        "   before  ratio"
    } else {
        ""
    };
    println!("                                                  MB/s       ns per field");
    println!("ratio  workload of 100 MB             fields  Rattle   Rust   Rattle   Rust{more}");
    for w in COUNTED.iter().filter(picked) {
        let load = (w.make)();
        assert_eq!(agree(&load.bytes).1, load.fields);
        compare(w, &load, COUNTS);
    }
    for w in WALKED.iter().filter(picked) {
        let load = (w.make)();
        assert_eq!(agree(&load.bytes).0.number, 0);
        compare(w, &load, WALKS);
    }
}
