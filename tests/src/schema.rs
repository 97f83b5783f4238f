//! The rows of document 01 and of Req 01's functions, and the first walk.

use crate::checker::Refusal;
use crate::wire::{self, Padding, BYTES, FOUR, VARINT};

const WRONG_KIND: u64 = 4;
const REPEATED: u64 = 5;
const TOO_DEEP: u64 = 6;

/// The main graph is at depth 1, and so is a function; no graph may be at depth 9.
pub const DEEPEST_GRAPH: u32 = 8;

#[derive(Clone, Copy, Debug, PartialEq, Eq, Hash)]
pub enum Message {
    Model,
    OperatorSetId,
    Function,
    Graph,
    Node,
    Attribute,
    Tensor,
    ValueInfo,
    Type,
    TypeTensor,
    Shape,
    Dimension,
}

/// What a row asks of a field: v, s, f, m, and v or f that may also come packed.
#[derive(Clone, Copy, Debug, PartialEq, Eq)]
pub enum Form {
    Varint,
    Bytes,
    Four,
    Open(Message),
    PackableVarint,
    PackableFour,
}

/// How often a field may occur. The members of a "one of" share one occurrence.
#[derive(Clone, Copy, Debug, PartialEq, Eq)]
pub enum Often {
    Once,
    Many,
    OneOf,
}

#[derive(Clone, Copy, Debug)]
pub struct Row {
    pub number: u32,
    pub form: Form,
    pub often: Often,
}

const fn one(number: u32, form: Form) -> Row {
    Row { number, form, often: Often::Once }
}

const fn many(number: u32, form: Form) -> Row {
    Row { number, form, often: Often::Many }
}

const fn member(number: u32, form: Form) -> Row {
    Row { number, form, often: Often::OneOf }
}

use Form::{Bytes as S, Four as F, Open, PackableFour, PackableVarint, Varint as V};

const MODEL: &[Row] = &[
    one(1, V),
    one(7, Open(Message::Graph)),
    many(8, Open(Message::OperatorSetId)),
    many(25, Open(Message::Function)),
];
const OPERATOR_SET_ID: &[Row] = &[one(1, S), one(2, V)];
const FUNCTION: &[Row] = &[
    one(1, S),
    many(4, S),
    many(5, S),
    many(6, S),
    many(7, Open(Message::Node)),
    many(9, Open(Message::OperatorSetId)),
    one(10, S),
    many(11, Open(Message::Attribute)),
    one(13, S),
];
const GRAPH: &[Row] = &[
    many(1, Open(Message::Node)),
    one(2, S),
    many(5, Open(Message::Tensor)),
    many(11, Open(Message::ValueInfo)),
    many(12, Open(Message::ValueInfo)),
    many(13, Open(Message::ValueInfo)),
    many(15, S),
];
const NODE: &[Row] = &[many(1, S), many(2, S), one(3, S), one(4, S), many(5, Open(Message::Attribute)), one(7, S)];
const ATTRIBUTE: &[Row] = &[
    one(1, S),
    one(2, F),
    one(3, V),
    one(4, S),
    one(5, Open(Message::Tensor)),
    one(6, Open(Message::Graph)),
    many(7, PackableFour),
    many(8, PackableVarint),
    many(9, S),
    many(10, Open(Message::Tensor)),
    many(11, Open(Message::Graph)),
    one(14, S),
    many(15, S),
    one(20, V),
    one(21, S),
    one(22, S),
    many(23, S),
];
const TENSOR: &[Row] = &[one(2, V), one(8, S)];
const VALUE_INFO: &[Row] = &[one(1, S), one(2, Open(Message::Type))];
const TYPE: &[Row] =
    &[member(1, Open(Message::TypeTensor)), member(4, S), member(5, S), member(7, S), member(8, S), member(9, S)];
const TYPE_TENSOR: &[Row] = &[one(1, V), one(2, Open(Message::Shape))];
const SHAPE: &[Row] = &[many(1, Open(Message::Dimension))];
const DIMENSION: &[Row] = &[member(1, V), member(2, S)];

pub fn rows(message: Message) -> &'static [Row] {
    match message {
        Message::Model => MODEL,
        Message::OperatorSetId => OPERATOR_SET_ID,
        Message::Function => FUNCTION,
        Message::Graph => GRAPH,
        Message::Node => NODE,
        Message::Attribute => ATTRIBUTE,
        Message::Tensor => TENSOR,
        Message::ValueInfo => VALUE_INFO,
        Message::Type => TYPE,
        Message::TypeTensor => TYPE_TENSOR,
        Message::Shape => SHAPE,
        Message::Dimension => DIMENSION,
    }
}

pub fn row(message: Message, number: u32) -> Option<Row> {
    rows(message).iter().copied().find(|row| row.number == number)
}

pub fn takes(form: Form, kind: u8) -> bool {
    match form {
        Form::Varint => kind == VARINT,
        Form::Bytes | Form::Open(_) => kind == BYTES,
        Form::Four => kind == FOUR,
        Form::PackableVarint => kind == VARINT || kind == BYTES,
        Form::PackableFour => kind == FOUR || kind == BYTES,
    }
}

/// The first walk over the whole model: the first wire fault in byte order, depth first.
pub fn first_walk(model: &[u8]) -> Result<(), Refusal> {
    walk(model, Message::Model, 0, model.len(), 0)
}

/// Walks one message. `depth` is that of the graph or function around it, 0 outside of both.
fn walk(model: &[u8], message: Message, start: usize, end: usize, depth: u32) -> Result<(), Refusal> {
    // Bit n: the single field n has occurred; bit 0: some member of the message's "one of" has.
    let mut seen = 0u32;
    let mut at = start;
    while at < end {
        let refuse = |number| Refusal { number, place: at as u64, first: 0 };
        let tag = wire::tag(model, at, end, Padding::Refused).map_err(refuse)?;
        let row = row(message, tag.number);
        if let Some(row) = row {
            if !takes(row.form, tag.kind) {
                return Err(refuse(WRONG_KIND));
            }
            let bit = match row.often {
                Often::Once => 1 << row.number,
                Often::Many => 0,
                Often::OneOf => 1,
            };
            if seen & bit != 0 {
                return Err(refuse(REPEATED));
            }
            seen |= bit;
        }
        let field = wire::value(model, tag, end, Padding::Refused).map_err(refuse)?;
        if let Some(Row { form: Form::Open(inner), .. }) = row {
            let depth = if matches!(inner, Message::Graph | Message::Function) { depth + 1 } else { depth };
            if depth > DEEPEST_GRAPH {
                return Err(refuse(TOO_DEEP));
            }
            walk(model, inner, field.start, field.end, depth)?;
        }
        at = field.end;
    }
    Ok(())
}
