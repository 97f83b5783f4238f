//! What is compared for each case: both checks of the library with the checker, the checker with the runner, and the
//! checker with what the case was made to be.

use std::collections::{BTreeMap, HashMap};

use crate::checker::{check, unbounded};
use crate::lending::{self, Combination, Lending, Tries};
use crate::library::{indexed_agrees, indexed_answer, plain_agrees};
use crate::models::Case;
use crate::odd;
use crate::rng::Rng;
use crate::rows::Row;
use crate::runner::{End, Plan, Run};
use crate::verdict::{Counts, Verdict, REFUSALS};
use crate::wire::fields;

/// What was done so far.
#[derive(Default)]
pub struct Tally {
    pub cases: u64,
    /// The length of all generated models together.
    pub bytes: u64,
    /// Verdicts asked for, and how often each number was the answer; 0 is an acceptance.
    pub verdicts: u64,
    pub numbers: BTreeMap<u64, u64>,
    /// Calls of the indexed check, how many of them answered 65, and how often each kind of call was made.
    pub indexed: u64,
    pub short: u64,
    pub combinations: BTreeMap<Combination, u64>,
    pub runs: u64,
    pub reads: u64,
    /// Answers of 23 whose `first` was held to the runner's defining place, and how many of these have it behind their own place.
    pub twice: u64,
    pub behind: u64,
    /// Generated models with functions, and how many of these were made sound.
    pub with_functions: u64,
    pub sound_functions: u64,
    /// Acceptances whose third count was held to a count of its own, and how many of these have odd names.
    pub counted: u64,
    pub odd: u64,
}

/// A failed comparison, with all that is needed to make it again.
#[derive(Debug)]
pub struct Failure {
    pub label: String,
    /// None where it is too long to be shown. A row makes it again.
    pub model: Option<Vec<u8>>,
    pub list: Vec<u8>,
    pub cells: usize,
    pub told: String,
}

const SHOWN: usize = 1 << 20;

pub type Outcome = Result<(), Box<Failure>>;

/// Up to this need every number of cells is tried, in a generated case and in a row.
const FEW_CELLS: usize = 8;
const ROW_CELLS: usize = 200;

/// Calls of the indexed check for each call of the plain one in a generated case; rows are tried with every kind of call.
const TRIES: usize = 2;

impl Tally {
    /// The refusal numbers that no comparison has met.
    pub fn never_met(&self) -> Vec<u64> {
        REFUSALS.into_iter().filter(|number| !self.numbers.contains_key(number)).collect()
    }

    /// The kind of call of the indexed check that was made least often.
    pub fn rarest(&self) -> (u64, Combination) {
        let counted = lending::all().map(|kind| (self.combinations.get(&kind).copied().unwrap_or(0), kind));
        counted.min().unwrap_or_default()
    }

    pub fn generated(&mut self, case: &Case, rng: &mut Rng) -> Outcome {
        let has_functions = fields(&case.model, 0, case.model.len()).any(|field| field.number == 25);
        self.with_functions += u64::from(has_functions);
        self.sound_functions += u64::from(has_functions && case.expected.is_some());
        self.case(case, rng)
    }

    /// A case at several numbers of cells, and on the runner.
    pub fn case(&mut self, case: &Case, rng: &mut Rng) -> Outcome {
        self.cases += 1;
        self.bytes += case.model.len() as u64;
        let at = |told: String| failure(&case.label, &case.model, &case.list, usize::MAX, told);
        let most = self.each_count(&case.label, &case.model, &case.list, FEW_CELLS, rng)?;
        if let Some(counts) = case.expected {
            if most != Verdict::Accepted(counts) {
                return Err(at(format!("made sound with {counts:?}; the checker says {most:?}")));
            }
        }
        self.demand_3(&case.model, most, rng).map_err(at)
    }

    /// The answer with numbers of cells around what it takes: 40 with fewer, with as many or more what it is with no bound.
    fn each_count(
        &mut self,
        label: &str,
        model: &[u8],
        list: &[u8],
        all: usize,
        rng: &mut Rng,
    ) -> Result<Verdict, Box<Failure>> {
        let (most, need) = unbounded(model, list);
        for cells in cell_counts(need, all, rng) {
            let verdict = self.verdict(label, model, list, cells, Tries::Some(TRIES, rng))?;
            let right = if cells < need { verdict.number() == 40 } else { verdict == most };
            if !right {
                let told = format!("with no bound {most:?}, which takes {need} cells, with {cells} {verdict:?}");
                return Err(failure(label, model, list, cells, told));
            }
        }
        Ok(most)
    }

    /// A row with a known answer, and then at other numbers of cells.
    pub fn row(&mut self, row: &Row) -> Outcome {
        self.cases += 1;
        let verdict = self.verdict(&row.name, &row.model, &row.list, row.cells, Tries::All)?;
        if verdict != row.answer {
            let told = format!("the row says {:?}, the checker {verdict:?}", row.answer);
            return Err(failure(&row.name, &row.model, &row.list, row.cells, told));
        }
        let mut rng = Rng::of_case(row.cells as u64, row.model.len() as u64);
        self.each_count(&row.name, &row.model, &row.list, ROW_CELLS, &mut rng).map(|_| ())
    }

    /// The checker's verdict, which that of the library must equal, plain and indexed, and the runner must bear out.
    pub fn verdict(
        &mut self,
        label: &str,
        model: &[u8],
        list: &[u8],
        cells: usize,
        tries: Tries,
    ) -> Result<Verdict, Box<Failure>> {
        let verdict = check(model, list, cells);
        self.verdicts += 1;
        *self.numbers.entry(verdict.number()).or_default() += 1;
        let at = |told: String| failure(label, model, list, cells, told);
        plain_agrees(model, list, cells, verdict).map_err(at)?;
        self.stops(model, verdict).map_err(at)?;
        self.counts_odd(model, verdict).map_err(at)?;
        for (kind, lending) in tries.lendings(cells, model.len()) {
            *self.combinations.entry(kind).or_default() += 1;
            self.indexed(model, list, cells, lending, verdict).map_err(at)?;
        }
        Ok(verdict)
    }

    /// One call of the indexed check, where the plain one has this verdict.
    pub(crate) fn indexed(
        &mut self,
        model: &[u8],
        list: &[u8],
        cells: usize,
        lending: Lending,
        plain: Verdict,
    ) -> Result<(), String> {
        self.indexed += 1;
        self.short += u64::from(indexed_answer(plain, cells, lending) != plain);
        indexed_agrees(model, list, cells, lending, plain)
    }

    fn demand_3(&mut self, model: &[u8], verdict: Verdict, rng: &mut Rng) -> Result<(), String> {
        match verdict {
            Verdict::Accepted(counts) => self.every_run_ends(model, counts, rng),
            Verdict::Refused { .. } => self.stops(model, verdict),
        }
    }

    /// 23 stops the run that enters every body once, on a binding, and `first` is the defining place that this finds; 30 and 35 stop
    /// it on a read. No other answer has a `first`.
    fn stops(&mut self, model: &[u8], verdict: Verdict) -> Result<(), String> {
        if !verdict.tells_first(model.len()) {
            return Err(format!("a place of the first definition is amiss: {verdict:?}"));
        }
        let expected = match verdict {
            Verdict::Refused { number: 23, place, first } => {
                self.twice += 1;
                self.behind += u64::from(first > place);
                End::BoundAgain { place, defined: first }
            }
            Verdict::Refused { number: 30 | 35, place, .. } => End::Unbound { place },
            _ => return Ok(()),
        };
        self.runs += 1;
        match Plan::read(model).run(&[]).end {
            end if end == expected => Ok(()),
            end => Err(format!("{verdict:?}, and the run that enters every body once: {end:?}")),
        }
    }

    /// The third count of an acceptance is that of the fields by themselves.
    fn counts_odd(&mut self, model: &[u8], verdict: Verdict) -> Result<(), String> {
        let Verdict::Accepted(counts) = verdict else {
            return Ok(());
        };
        self.counted += 1;
        self.odd += u64::from(counts.odd > 0);
        match odd::count(model) {
            odd if odd == counts.odd => Ok(()),
            odd => Err(format!("accepted with {counts:?}, and {odd} of its fields are odd")),
        }
    }

    fn every_run_ends(&mut self, model: &[u8], counts: Counts, rng: &mut Rng) -> Result<(), String> {
        let plan = Plan::read(model);
        let mut found: HashMap<u64, u64> = HashMap::new();
        for choices in choice_lists(plan.bodies(), rng) {
            let run = plan.run(&choices);
            self.runs += 1;
            self.reads += run.reads.len() as u64;
            if run.end != End::Reached {
                return Err(format!("accepted, and the run under {choices:?} ends {:?}", run.end));
            }
            for read in &run.reads {
                let before = *found.entry(read.field).or_insert(read.defined);
                if before != read.defined {
                    let both = format!("finds {before} and, under {choices:?}, {}", read.defined);
                    return Err(format!("the field at {} {both}", read.field));
                }
            }
            counts_agree(&run, &choices, counts)?;
        }
        Ok(())
    }
}

/// The run that enters every body once meets the true nodes and names of an acceptance: an independent count of both.
fn counts_agree(run: &Run, choices: &[u64], counts: Counts) -> Result<(), String> {
    if !choices.is_empty() || (run.nodes_run, run.most_bound) == (counts.nodes, counts.names) {
        return Ok(());
    }
    Err(format!("accepted with {counts:?}; the run counts {} nodes, {} names", run.nodes_run, run.most_bound))
}

pub(crate) fn failure(label: &str, model: &[u8], list: &[u8], cells: usize, told: String) -> Box<Failure> {
    let model = (model.len() <= SHOWN).then(|| model.to_vec());
    Box::new(Failure { label: label.into(), model, list: list.to_vec(), cells, told })
}

/// From none to twice the need and one more, odd and even, and many: all of them where the need is at most `all`, else those at both
/// ends, around the need, and some between.
fn cell_counts(need: usize, all: usize, rng: &mut Rng) -> Vec<usize> {
    let last = 2 * need + 1;
    let mut counts: Vec<usize> = if need <= all {
        (0..=last).collect()
    } else {
        let drawn = 2 + rng.below(last - 3);
        vec![0, 1, need - 2, need - 1, need, need + 1, drawn, drawn + 1, last - 1, last]
    };
    counts.push(last + if rng.chance(1, 8) { 4096 } else { 60 + rng.below(60) });
    counts.sort_unstable();
    counts.dedup();
    counts
}

/// Lists of choices for a plan with so many bodies, the empty one first. Long lists stay cheap: a number above 1
/// repeats one body, and the visits inside it take further numbers.
fn choice_lists(bodies: usize, rng: &mut Rng) -> Vec<Vec<u64>> {
    let mut lists = vec![Vec::new()];
    if bodies == 0 {
        return lists;
    }
    lists.extend([vec![0; bodies], vec![2; bodies], vec![0], vec![3]]);
    for _ in 0..4 {
        let count = rng.below(2 * bodies + 2);
        lists.push((0..count).map(|_| rng.below(4) as u64).collect());
    }
    lists
}

#[cfg(test)]
mod tests;
