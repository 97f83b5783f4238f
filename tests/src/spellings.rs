//! Rows in other spellings. A field that no row of document 01 names, beside another one, changes nothing that a model says: a row keeps its
//! number and its counts, whatever the fault in it. A padded tag, number or length is a fault of its own: 9, unless the row's comes before.

use crate::checker::Verdict::{self, Accepted, Refused};
use crate::compare::{failure, Outcome, Tally};
use crate::lending::Tries;
use crate::models::proto::{Item, Tree, Value};
use crate::rng::Rng;
use crate::rows::Row;
use crate::schema::{self, Form, Message};
use crate::wire::{fields, varint, Field, BYTES, EIGHT, FOUR, PADDED, VARINT};

/// Spells the field at this place of a message in another way.
type Spelling = fn(&mut Tree, usize);

const BESIDE: [(&str, Spelling); 5] = [
    ("behind an unknown number", |tree, at| put_unknown(tree, at, Value::Varint(u64::MAX))),
    ("behind unknown bytes", |tree, at| put_unknown(tree, at, Value::Bytes(vec![0xff; 3]))),
    ("behind four unknown bytes", |tree, at| put_unknown(tree, at, Value::Four([0xff; 4]))),
    ("behind eight unknown bytes", |tree, at| put_unknown(tree, at, Value::Eight([0xff; 8]))),
    ("before an unknown number", |tree, at| put_unknown(tree, after(tree, at), Value::Varint(0))),
];

/// By up to nine bytes, which is all that a varint of one byte can take.
const TAGS: [(&str, Spelling); 5] = [
    ("a tag with a needless byte", |tree, at| tree.items[at].tag_padding = 1),
    ("a tag with two", |tree, at| tree.items[at].tag_padding = 2),
    ("a tag with three", |tree, at| tree.items[at].tag_padding = 3),
    ("a tag with eight", |tree, at| tree.items[at].tag_padding = 8),
    ("a tag with nine", |tree, at| tree.items[at].tag_padding = 9),
];
const VALUES: [(&str, Spelling); 5] = [
    ("a number or length with a needless byte", |tree, at| tree.items[at].padding = 1),
    ("a number or length with two", |tree, at| tree.items[at].padding = 2),
    ("a number or length with three", |tree, at| tree.items[at].padding = 3),
    ("a number or length with eight", |tree, at| tree.items[at].padding = 8),
    ("a number or length with nine", |tree, at| tree.items[at].padding = 9),
];

/// The place behind a field; what cannot be read runs to the end of its message, and nothing can stand behind it.
fn after(tree: &Tree, at: usize) -> usize {
    match tree.items[at].value {
        Value::Raw(_) => at,
        _ => at + 1,
    }
}

/// Field 100, which no message has.
fn put_unknown(tree: &mut Tree, at: usize, value: Value) {
    tree.items.insert(at, Item::new(100, value));
}

/// The message in `start..end` as a tree; what cannot be read stays as it is.
fn read(model: &[u8], message: Message, start: usize, end: usize) -> Tree {
    let mut tree = Tree::new(message);
    let mut at = start;
    for field in fields(model, start, end) {
        tree.items.push(item(model, message, field));
        at = field.end;
    }
    if at < end {
        tree.items.push(Item::raw(model[at..end].to_vec()));
    }
    tree
}

fn item(model: &[u8], message: Message, field: Field) -> Item {
    let mut item = Item::new(field.number, value(model, message, field));
    let (needless, next) = padding(model, field.place);
    item.tag_padding = needless;
    if matches!(field.kind, VARINT | BYTES) {
        item.padding = padding(model, next).0;
    }
    item
}

/// How many bytes of the varint at `at` are needless, and the place after it.
fn padding(model: &[u8], at: usize) -> (usize, usize) {
    let next = varint(model, at, model.len()).expect("it was read before").next;
    let needless = model[at + 1..next].iter().rev().take_while(|byte| **byte & 0x7f == 0);
    (needless.count(), next)
}

fn value(model: &[u8], message: Message, field: Field) -> Value {
    let bytes = &model[field.start..field.end];
    match (field.kind, schema::row(message, field.number).map(|row| row.form)) {
        (VARINT, _) => Value::Varint(field.value),
        (FOUR, _) => Value::Four(bytes.try_into().expect("four bytes")),
        (EIGHT, _) => Value::Eight(bytes.try_into().expect("eight bytes")),
        (_, Some(Form::Open(inner))) => Value::Tree(read(model, inner, field.start, field.end)),
        _ => Value::Bytes(bytes.to_vec()),
    }
}

/// Spells the field that `left` others come before, in wire order; false where there are not so many.
fn respell(tree: &mut Tree, left: &mut usize, spelling: Spelling) -> bool {
    for at in 0..tree.items.len() {
        if *left == 0 {
            spelling(tree, at);
            return true;
        }
        *left -= 1;
        if let Value::Tree(inner) = &mut tree.items[at].value {
            if respell(inner, left, spelling) {
                return true;
            }
        }
    }
    false
}

/// The tree with its field number `nth` spelled so, while it has one.
fn spelled(tree: &Tree, nth: usize, spelling: Spelling) -> Option<Tree> {
    let mut other = tree.clone();
    respell(&mut other, &mut nth.clone(), spelling).then_some(other)
}

fn each_spelled(tree: &Tree, spelling: Spelling) -> impl Iterator<Item = Tree> + '_ {
    (0..).map_while(move |nth| spelled(tree, nth, spelling))
}

/// The places of all fields in wire order, where the tree begins at `start`.
fn places(tree: &Tree, start: usize) -> Vec<usize> {
    let (mut found, mut at) = (Vec::new(), start);
    for item in &tree.items {
        found.push(at);
        at += item.length();
        if let Value::Tree(inner) = &item.value {
            found.extend(places(inner, at - inner.encode().len()));
        }
    }
    found
}

/// But for the place, which other bytes have moved.
fn says_the_same(one: Verdict, other: Verdict) -> bool {
    match (one, other) {
        (Accepted(_), _) => one == other,
        (Refused { number, .. }, _) => other.number() == number,
    }
}

/// The answer where field number `nth` of a row is padded: 9 there, unless the row's own fault comes before: an unsound list, a fault of an
/// earlier field, or 4 or 5 of this field, which come before its number or length.
fn answer_padded(row: &Row, tree: &Tree, padded: &Tree, nth: usize, tag: bool) -> Verdict {
    let now = places(padded, 0);
    let nine = Verdict::refused(PADDED, now[nth] as u64);
    let Refused { number: number @ (1..=6 | 8 | 9), place, .. } = row.answer else {
        return nine;
    };
    if number == 8 {
        return row.answer;
    }
    let own = places(tree, 0).into_iter().position(|at| at as u64 == place).expect("a field is at fault");
    if own < nth || own == nth && !tag && matches!(number, 4 | 5) {
        Verdict::refused(number, now[own] as u64)
    } else {
        nine
    }
}

impl Tally {
    /// A row in each of its other spellings.
    pub fn spellings(&mut self, row: &Row) -> Outcome {
        let tree = read(&row.model, Message::Model, 0, row.model.len());
        let mut rng = Rng::new(row.model.len() as u64);
        for (how, spelling) in BESIDE {
            for other in each_spelled(&tree, spelling) {
                // Where the fault stands then is the checker's to say.
                self.spelling(row, how, &other.encode(), row.answer, says_the_same, &mut rng)?;
            }
        }
        for (tag, (how, spelling)) in TAGS.map(|how| (true, how)).into_iter().chain(VALUES.map(|how| (false, how))) {
            for (nth, other) in each_spelled(&tree, spelling).enumerate() {
                let model = other.encode();
                // Some fields have no number or length, and some numbers no longer form.
                let same = model == row.model;
                let answer = if same { row.answer } else { answer_padded(row, &tree, &other, nth, tag) };
                self.spelling(row, how, &model, answer, |one, other| one == other, &mut rng)?;
            }
        }
        Ok(())
    }

    fn spelling(
        &mut self,
        row: &Row,
        how: &str,
        model: &[u8],
        answer: Verdict,
        agree: fn(Verdict, Verdict) -> bool,
        rng: &mut Rng,
    ) -> Outcome {
        self.cases += 1;
        let label = format!("{}, {how}", row.name);
        let verdict = self.verdict(&label, model, &row.list, row.cells, Tries::Some(1, rng))?;
        if agree(answer, verdict) {
            return Ok(());
        }
        let told = format!("the row says {:?}, and so {answer:?}, but this spelling of it {verdict:?}", row.answer);
        Err(failure(&label, model, &row.list, row.cells, told))
    }
}

#[cfg(test)]
mod tests {
    use super::*;
    use crate::{aimed, rows};

    #[test]
    fn a_row_is_read_and_written_as_it_was() {
        let rows = rows::document().into_iter().chain(rows::by_hand()).chain(rows::functions());
        for row in rows.chain(rows::positions()).chain(aimed::small()) {
            let tree = read(&row.model, Message::Model, 0, row.model.len());
            assert_eq!(tree.encode(), row.model, "{}", row.name);
        }
    }

    #[test]
    fn every_field_is_spelled() {
        let m1 = rows::hex(rows::M1);
        let tree = read(&m1, Message::Model, 0, m1.len());
        let tags: Vec<Vec<u8>> = each_spelled(&tree, TAGS[0].1).map(|tree| tree.encode()).collect();
        assert_eq!(tags.len(), 8, "ir_version, import, its version, graph, its name, node, its output, its op_type");
        assert_eq!(tags[6], rows::hex("08 08 42 02 10 0D 3A 0C 12 01 67 0A 07 92 00 01 61 22 01 58"));
        assert_eq!(places(&tree, 0), [0, 2, 4, 6, 8, 11, 13, 16]);
        let mut tally = Tally::default();
        let rows = rows::by_hand().into_iter().chain(rows::functions());
        rows.for_each(|row| tally.spellings(&row).unwrap_or_else(|failure| panic!("{failure:?}")));
        assert!(tally.cases > 50_000, "{} spellings", tally.cases);
        assert!(tally.numbers[&PADDED] > 10_000, "{} of them padded", tally.numbers[&PADDED]);
    }
}
