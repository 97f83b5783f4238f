//! A model with all that is lent for it, and the calls that are timed.

use std::hint::black_box;
use std::time::Duration;

use gate_tests::checker::{check, Counts, Verdict, CELLS_PER_NAME};
use gate_tests::gate::{raw_check, raw_check_indexed, Answer};

use crate::clock::timed;
use crate::lists::open_at_once;

pub struct Given {
    pub model: Vec<u8>,
    pub list: Vec<u8>,
    pub counts: Counts,
    /// As many as the model needs, and as many extra ones as the index can use for it.
    pub cells: usize,
    pub extra: usize,
    pub seed: u64,
}

impl Given {
    /// The Rust checker says what is needed; each call of the proved check must count the same.
    pub fn new(model: Vec<u8>, list: Vec<u8>, seed: u64) -> Given {
        let Verdict::Accepted(counts) = check(&model, &list, usize::MAX) else {
            panic!("a workload is refused: {:?}", check(&model, &list, usize::MAX));
        };
        let names = counts.names as usize;
        let cells = CELLS_PER_NAME * names;
        // With fewer than four for each cell it is 65. The visible names use four for each name and one, the lists the others.
        let extra = (4 * cells).max(4 * names + 2 + 4 * open_at_once(&model));
        Given { model, list, counts, cells, extra, seed }
    }

    pub fn accepts(&self, answer: Answer) {
        assert_eq!(answer.verdict(), Ok(Verdict::Accepted(self.counts)));
    }

    /// Cells are lent as the call before left them: it makes no difference, since each call clears them itself.
    pub fn indexed(&self) -> impl FnMut() -> Duration + '_ {
        let (mut cells, mut extra) = (vec![0; self.cells], vec![0; self.extra]);
        move || {
            let call = || raw_check_indexed(black_box(&self.model), &self.list, &mut cells, &mut extra, self.seed);
            let (taken, answer) = timed(call);
            self.accepts(answer);
            taken
        }
    }

    pub fn plain(&self) -> impl FnMut() -> Duration + '_ {
        let mut cells = vec![0; self.cells];
        move || {
            let (taken, answer) = timed(|| raw_check(black_box(&self.model), &self.list, &mut cells));
            self.accepts(answer);
            taken
        }
    }

    pub fn rust(&self) -> impl FnMut() -> Duration + '_ {
        move || timed(|| black_box(check(black_box(&self.model), &self.list, self.cells))).0
    }

    /// The indexed check of an empty model: 10 at once, so that clearing these cells is all that takes time.
    pub fn clearing(&self) -> impl FnMut() -> Duration + '_ {
        let (mut cells, mut extra) = (vec![0; self.cells], vec![0; self.extra]);
        move || {
            let call = || raw_check_indexed(black_box(&[]), &self.list, &mut cells, &mut extra, self.seed);
            let (taken, answer) = timed(call);
            assert_eq!((answer.refusal, answer.place), (10, 0));
            taken
        }
    }
}
