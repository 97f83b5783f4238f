//! Parts of a message that the first walk has passed, and the small tests that many rules share.

use std::ops::RangeInclusive;

use crate::verdict::Refusal;
use crate::wire::{fields, Field, BYTES};

pub type Step = Result<(), Refusal>;

pub fn refuse<T>(number: u64, place: usize) -> Result<T, Refusal> {
    Err(Refusal { number, place: place as u64, first: 0 })
}

/// The model as a field that begins at 0, so that what it lacks is refused at 0.
pub fn whole(model: &[u8]) -> Field {
    Field { place: 0, number: 0, kind: BYTES, value: 0, start: 0, end: model.len() }
}

/// The field `number` of `message`, read as a signed number, lies in `range`. An absent one reads as 0.
pub fn number_in(model: &[u8], message: Field, number: u32, range: RangeInclusive<i64>, refusal: u64) -> Step {
    let (value, place) = match first(model, message, number) {
        Some(field) => (field.value as i64, field.place),
        None => (0, message.place),
    };
    if range.contains(&value) {
        Ok(())
    } else {
        refuse(refusal, place)
    }
}

pub fn all<'m>(model: &'m [u8], message: Field, number: u32) -> impl Iterator<Item = Field> + 'm {
    fields(model, message.start, message.end).filter(move |field| field.number == number)
}

pub fn first(model: &[u8], message: Field, number: u32) -> Option<Field> {
    all(model, message, number).next()
}

pub fn contents(model: &[u8], field: Field) -> &[u8] {
    &model[field.start..field.end]
}

/// The bytes of the first field `number`. Absent ones read as empty.
pub fn bytes_of(model: &[u8], message: Field, number: u32) -> &[u8] {
    first(model, message, number).map_or(&model[..0], |field| contents(model, field))
}

/// A letter or underscore, then letters, digits, underscores, ASCII only.
pub fn identifier(name: &[u8]) -> bool {
    let letter = |byte: &u8| byte.is_ascii_alphabetic() || *byte == b'_';
    match name.split_first() {
        Some((head, tail)) => letter(head) && tail.iter().all(|byte| letter(byte) || byte.is_ascii_digit()),
        None => false,
    }
}
