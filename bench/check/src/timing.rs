//! Times of all sides on one model, taken in turn in one process.

use std::hint::black_box;
use std::time::Duration;

use crate::clock::timed;
use crate::given::Given;
use crate::onnx::Onnx;

/// How long to go on: `runs` of each side, fewer once a side has taken `budget`.
#[derive(Clone, Copy)]
pub struct Plan {
    pub runs: usize,
    pub budget: Duration,
}

/// Shorter calls are repeated until one timing takes this long.
const ONE_TIMING: Duration = Duration::from_millis(2);
/// Longer calls are made once.
pub const ONCE: Duration = Duration::from_secs(1);
/// The plain check is not run where it would take longer, by the square of what it took at a smaller size.
pub const CAP: Duration = Duration::from_secs(10);

#[derive(Clone, Default)]
pub struct Times(Vec<Duration>);

impl Times {
    pub fn best(&self) -> Duration {
        self.0.iter().min().copied().unwrap_or_default()
    }

    pub fn median(&self) -> Duration {
        let mut sorted = self.0.clone();
        sorted.sort();
        sorted.get(sorted.len() / 2).copied().unwrap_or_default()
    }
}

/// The plain check, or how long it took at a quarter of the size.
pub enum Plain {
    Run(Times),
    Quarter(Duration),
}

/// What was measured of one model. `told` is what onnx::checker has against it, if it has anything.
pub struct Measured {
    pub indexed: Times,
    pub plain: Plain,
    pub rust: Times,
    pub onnx: Option<(Times, Times)>,
    pub told: Option<String>,
}

/// One side: a call gives the time of each of its steps (the C++ side has two, parse and checker).
struct Side<'a> {
    call: Box<dyn FnMut() -> [Duration; 2] + 'a>,
    calls: u32,
    once: bool,
    spent: Duration,
    times: [Times; 2],
}

impl<'a> Side<'a> {
    /// The first call is not counted: it warms the caches, and says how often to call for one timing. A long one is
    /// counted, and the only one.
    fn new(call: impl FnMut() -> [Duration; 2] + 'a) -> Side<'a> {
        let mut call = Box::new(call);
        let taken = call();
        let first: Duration = taken.iter().sum();
        let calls = (ONE_TIMING.as_nanos() / first.as_nanos().max(1)).clamp(1, 10_000) as u32;
        let once = first > ONCE;
        let times = taken.map(|step| Times(if once { vec![step] } else { Vec::new() }));
        Side { call, calls, once, spent: Duration::ZERO, times }
    }

    fn of(mut call: impl FnMut() -> Duration + 'a) -> Side<'a> {
        Side::new(move || [call(), Duration::ZERO])
    }

    /// Before the timing stands a call that is not timed: caches and heap are then as the side itself leaves them, not
    /// as the side before it did. In the heap that C++ leaves behind, Rust's first call takes half as long again.
    fn run(&mut self, plan: Plan) {
        if self.once || self.spent >= plan.budget {
            return;
        }
        (self.call)();
        let mut sums = [Duration::ZERO; 2];
        for _ in 0..self.calls {
            let taken = (self.call)();
            sums = [sums[0] + taken[0], sums[1] + taken[1]];
        }
        self.spent += sums[0] + sums[1];
        for (times, sum) in self.times.iter_mut().zip(sums) {
            times.0.push(sum / self.calls);
        }
    }

    fn only(self) -> Times {
        let [times, _] = self.times;
        times
    }
}

/// Calls in turn: round after round, each once, so that a machine that slows down for a while slows all of them.
pub fn in_turn<'a, const N: usize>(calls: [impl FnMut() -> Duration + 'a; N], plan: Plan) -> [Times; N] {
    let mut sides = calls.map(Side::of);
    for _ in 0..plan.runs {
        sides.iter_mut().for_each(|side| side.run(plan));
    }
    sides.map(Side::only)
}

/// One side alone.
pub fn alone<'a>(call: impl FnMut() -> Duration + 'a, plan: Plan) -> Times {
    let [times] = in_turn([call], plan);
    times
}

/// Times all sides in turn: round after round, each side once. `smaller` is how long the plain check took on a smaller
/// model, and how much longer it would take on this one by the square.
pub fn measure(given: &Given, smaller: Option<(Duration, u32)>, onnx: Option<&Onnx>, plan: Plan) -> Measured {
    let skipped = smaller.filter(|(taken, times)| *taken * *times > CAP);
    let mut indexed = Side::of(given.indexed());
    let mut rust = Side::of(given.rust());
    let mut plain = skipped.is_none().then(|| Side::of(given.plain()));
    // Asked before the times are taken: what C++ sets up once, and the pages of a model that no one has read, are no part
    // of the first call, which may be the only one.
    let told = onnx.and_then(|onnx| complaint(onnx, &given.model));
    let mut cpp = onnx.map(|onnx| Side::new(move || parse_and_check(onnx, &given.model)));
    for _ in 0..plan.runs {
        for side in [Some(&mut indexed), Some(&mut rust), cpp.as_mut()].into_iter().flatten() {
            side.run(plan);
        }
        // It would take most of the time, and differs from the others by far.
        plain.iter_mut().for_each(|side| side.run(Plan { budget: plan.budget / 8, ..plan }));
    }
    let plain = match (plain, skipped) {
        (Some(side), _) => Plain::Run(side.only()),
        (None, taken) => Plain::Quarter(taken.unwrap_or_default().0),
    };
    let onnx_times = cpp.map(|side| {
        let [parse, checker] = side.times;
        (parse, checker)
    });
    Measured { indexed: indexed.only(), plain, rust: rust.only(), onnx: onnx_times, told }
}

/// The times of the parse and of the checker; freeing the parsed model is no part of either.
fn parse_and_check(onnx: &Onnx, model: &[u8]) -> [Duration; 2] {
    let (parse, parsed) = timed(|| onnx.parse(black_box(model)));
    match parsed {
        Some(parsed) => [parse, timed(|| black_box(parsed.check().is_ok())).0],
        None => [parse, Duration::ZERO],
    }
}

fn complaint(onnx: &Onnx, model: &[u8]) -> Option<String> {
    match onnx.parse(model) {
        Some(parsed) => parsed.check().err(),
        None => Some("the parse fails".to_string()),
    }
}
