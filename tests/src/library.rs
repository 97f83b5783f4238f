//! Both checks of the proved library, held to a verdict.

#[cfg(feature = "library")]
use crate::gate::{raw_check, raw_check_indexed, Answer};
#[cfg(feature = "library")]
use crate::lent::Lent;

use crate::checker::Verdict;
use crate::lending::Lending;

/// The answer of the indexed check, given that of the plain one.
pub fn indexed_answer(plain: Verdict, cells: usize, lending: Lending) -> Verdict {
    if lending.is_short(cells) {
        Verdict::refused(65, 0)
    } else {
        plain
    }
}

#[cfg(feature = "library")]
pub fn plain_agrees(model: &[u8], list: &[u8], cells: usize, expected: Verdict) -> Result<(), String> {
    let mut lent = Lent::new(cells, 0);
    let answer = raw_check(model, list, lent.cells());
    agrees(answer, expected, "library")?;
    lent.left_clean("cell").map_err(|told| format!("after {expected:?} {told}"))
}

/// `plain` is the verdict without the index.
#[cfg(feature = "library")]
pub fn indexed_agrees(model: &[u8], list: &[u8], cells: usize, lending: Lending, plain: Verdict) -> Result<(), String> {
    let expected = indexed_answer(plain, cells, lending);
    let kind = (lending.seed >> 7) as usize ^ lending.extra;
    let (mut lent, mut extra) = (Lent::new(cells, 0), Lent::new(lending.extra, kind));
    let answer = raw_check_indexed(model, list, lent.cells(), extra.cells(), lending.seed);
    let clean = |told: String| format!("after {expected:?} {told} ({lending:?})");
    agrees(answer, expected, "indexed check").map_err(|told| format!("{told} ({lending:?})"))?;
    lent.left_clean("cell").map_err(clean)?;
    extra.left_clean("extra cell").map_err(clean)
}

#[cfg(feature = "library")]
fn agrees(answer: Answer, expected: Verdict, who: &str) -> Result<(), String> {
    match answer.verdict()? {
        got if got == expected => Ok(()),
        got => Err(format!("the checker says {expected:?}, the {who} {got:?}")),
    }
}

/// Without the library only the checker, the runner and the generator are compared.
#[cfg(not(feature = "library"))]
pub fn plain_agrees(_: &[u8], _: &[u8], _: usize, _: Verdict) -> Result<(), String> {
    Ok(())
}

#[cfg(not(feature = "library"))]
pub fn indexed_agrees(_: &[u8], _: &[u8], _: usize, _: Lending, _: Verdict) -> Result<(), String> {
    Ok(())
}
