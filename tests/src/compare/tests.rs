use super::*;
use crate::models::{self, faults};

#[test]
fn a_few_thousand_cases() {
    let mut tally = Tally::default();
    for number in 0..6000 {
        let case = models::case(7, number);
        tally.case(&case, &mut Rng::of_case(7, !number)).unwrap_or_else(|failure| panic!("{number}: {failure:?}"));
    }
    let unmet: Vec<u64> = tally.never_met().into_iter().filter(|number| *number != 7).collect();
    assert_eq!(unmet, [], "numbers that no case met");
}

/// Every fault reaches the number that it is aimed at, in several models.
#[test]
fn faults_hit_their_aims() {
    for fault in faults::all() {
        let hits = (0..200).filter(|number| {
            let case = models::with_fault(&mut Rng::of_case(3, *number), fault);
            check(&case.model, &case.list, usize::MAX).number() == fault.aims
        });
        let hits = hits.count();
        assert!(hits >= 10, "{}: {hits} of 200 models answer {}", fault.name, fault.aims);
    }
}
