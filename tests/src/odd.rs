//! The third count of an acceptance by itself: every field that the second walk tests for 21, found by what holds it, in wire
//! order, with no scope and no rule. It shares only `wire.rs` with the checker.

use crate::wire::{fields, Field};

/// A message that holds such fields: their numbers, and those of the messages in it that hold more.
struct Holder {
    what: &'static str,
    names: &'static [u32],
    inside: &'static [(u32, &'static Holder)],
}

static MODEL: Holder = Holder { what: "model", names: &[], inside: &[(7, &MAIN), (25, &FUNCTION)] };
/// Neither domain nor overload is tested, and a default holds no graph.
static FUNCTION: Holder =
    Holder { what: "function", names: &[1, 4, 5, 6], inside: &[(7, &FUNCTION_NODE), (11, &DEFAULT)] };
static FUNCTION_NODE: Holder =
    Holder { what: "function's node", names: &[1, 2, 3, 4], inside: &[(5, &FUNCTION_ATTRIBUTE)] };
static FUNCTION_ATTRIBUTE: Holder =
    Holder { what: "attribute in a function", names: &[1], inside: &[(6, &BODY), (11, &BODY)] };
static DEFAULT: Holder = Holder { what: "function's default", names: &[1], inside: &[] };
static MAIN: Holder =
    Holder { what: "main graph", names: &[2], inside: &[(1, &NODE), (5, &TENSOR), (11, &INPUT), (12, &OUTPUT)] };
static BODY: Holder = Holder {
    what: "body",
    names: &[2],
    inside: &[(1, &NODE), (5, &BODY_TENSOR), (11, &BODY_INPUT), (12, &BODY_OUTPUT)],
};
static NODE: Holder = Holder { what: "node", names: &[1, 2, 3, 4], inside: &[(5, &ATTRIBUTE)] };
static ATTRIBUTE: Holder = Holder { what: "attribute", names: &[1], inside: &[(6, &BODY), (11, &BODY)] };
static TENSOR: Holder = Holder { what: "initializer", names: &[8], inside: &[] };
static INPUT: Holder = Holder { what: "input", names: &[1], inside: &[(2, &TYPE)] };
static OUTPUT: Holder = Holder { what: "output", names: &[1], inside: &[(2, &TYPE)] };
/// No type of a body is judged.
static BODY_TENSOR: Holder = Holder { what: "body's initializer", names: &[8], inside: &[] };
static BODY_INPUT: Holder = Holder { what: "body's input", names: &[1], inside: &[] };
static BODY_OUTPUT: Holder = Holder { what: "body's output", names: &[1], inside: &[] };
static TYPE: Holder = Holder { what: "type", names: &[], inside: &[(1, &TYPE_TENSOR)] };
static TYPE_TENSOR: Holder = Holder { what: "type.tensor", names: &[], inside: &[(2, &SHAPE)] };
static SHAPE: Holder = Holder { what: "shape", names: &[], inside: &[(1, &DIMENSION)] };
static DIMENSION: Holder = Holder { what: "dim", names: &[2], inside: &[] };

/// A field that is tested, and what holds it.
pub type Tested = (&'static str, Field);

pub fn tested(model: &[u8]) -> Vec<Tested> {
    let mut found = Vec::new();
    find(model, 0, model.len(), &MODEL, &mut found);
    found
}

fn find(model: &[u8], start: usize, end: usize, holder: &'static Holder, found: &mut Vec<Tested>) {
    for field in fields(model, start, end) {
        if holder.names.contains(&field.number) {
            found.push((holder.what, field));
        }
        for (_, inner) in holder.inside.iter().filter(|(number, _)| *number == field.number) {
            find(model, field.start, field.end, inner, found);
        }
    }
}

const LETTERS: &[u8] = b"ABCDEFGHIJKLMNOPQRSTUVWXYZ_abcdefghijklmnopqrstuvwxyz";
const DIGITS: &[u8] = b"0123456789";

/// Is it nonempty and no identifier?
pub fn is_odd(name: &[u8]) -> bool {
    let strange = |byte: &u8| !LETTERS.contains(byte) && !DIGITS.contains(byte);
    name.first().is_some_and(|first| DIGITS.contains(first)) || name.iter().any(strange)
}

/// The fields that are tested and odd, of a model that the first walk passes.
pub fn count(model: &[u8]) -> u64 {
    tested(model).iter().filter(|(_, field)| is_odd(&model[field.start..field.end])).count() as u64
}

#[cfg(test)]
mod tests {
    use super::*;
    use crate::checker::{check, Verdict};
    use crate::models;
    use crate::parts::identifier;
    use std::collections::BTreeMap;

    #[test]
    fn odd_is_no_identifier() {
        assert!(!is_odd(b""));
        for first in 0..=255u8 {
            assert_eq!(is_odd(&[first]), !identifier(&[first]));
            for second in 0..=255u8 {
                assert_eq!(is_odd(&[first, second]), !identifier(&[first, second]));
            }
        }
    }

    /// How often sound models have a field of a kind with an identifier, an odd name, and one that is long besides; and how often it is the
    /// field that is refused with 21.
    #[derive(Debug, Default)]
    struct Seen {
        identifiers: u64,
        odd: u64,
        long: u64,
        malformed: u64,
    }

    /// Each kind of field is met with each kind of name, so that a library which counts one kind wrongly is noticed.
    #[test]
    fn each_kind_of_field_has_each_kind_of_name() {
        let mut kinds: BTreeMap<(&str, u32), Seen> = BTreeMap::new();
        for number in 0..60_000 {
            let case = models::case(11, number);
            let answer = check(&case.model, &case.list, usize::MAX);
            for (what, field) in tested(&case.model) {
                let (seen, name) =
                    (kinds.entry((what, field.number)).or_default(), &case.model[field.start..field.end]);
                let odd = is_odd(name);
                if case.expected.is_some() {
                    seen.identifiers += u64::from(!odd && !name.is_empty());
                    seen.odd += u64::from(odd);
                    seen.long += u64::from(odd && name.len() > 120);
                }
                seen.malformed += u64::from(answer == Verdict::refused(21, field.place as u64));
            }
        }
        assert_eq!(kinds.len(), 24, "{kinds:#?}");
        for (kind, seen) in &kinds {
            let enough = seen.identifiers > 500 && seen.odd > 500 && seen.long > 20 && seen.malformed > 20;
            assert!(enough, "{kind:?}: {seen:?}");
        }
    }
}
