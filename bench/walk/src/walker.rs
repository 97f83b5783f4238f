//! The first walk of documents 01 and 02 as one would write it in Rust.

/// The rules that the first walk can find broken, with document 01's numbers.
#[derive(Clone, Copy)]
pub enum Rule {
    PastEnd = 1,
    TenthByte = 2,
    BadTag = 3,
    WrongWire = 4,
    Repeated = 5,
    TooDeep = 6,
    Padded = 9,
}

/// A broken rule, and the place of the tag of the field that breaks it.
pub struct Refusal {
    pub rule: Rule,
    pub place: usize,
}

const VARINT: u64 = 0;
const I64: u64 = 1;
const LEN: u64 = 2;
const I32: u64 = 5;

const DEEPEST: u32 = 8;

#[derive(Clone, Copy)]
enum Kind {
    Model,
    OperatorSetId,
    Function,
    Graph,
    Node,
    Attribute,
    Tensor,
    ValueInfo,
    Type,
    TensorType,
    Shape,
    Dimension,
}

/// How often a field may stand in its message.
#[derive(Clone, Copy)]
enum Times {
    Once,
    Many,
    OneOf,
}

/// What document 01 asks of a field: how often, a bit for each wire type that fits, and the message that it opens.
#[derive(Clone, Copy)]
struct Row(Times, u8, Option<Kind>);

const V: u8 = 1 << VARINT;
const S: u8 = 1 << LEN;
const F: u8 = 1 << I32;
const ANY: u8 = 0xFF;

fn row(kind: Kind, number: u64) -> Row {
    use Kind::*;
    use Times::*;
    match (kind, number) {
        (Model, 1) => Row(Once, V, None),
        (Model, 7) => Row(Once, S, Some(Graph)),
        (Model, 8) => Row(Many, S, Some(OperatorSetId)),
        (Model, 25) => Row(Many, S, Some(Function)),
        (OperatorSetId, 1) => Row(Once, S, None),
        (OperatorSetId, 2) => Row(Once, V, None),
        (Function, 1 | 10 | 13) => Row(Once, S, None),
        (Function, 4..=6) => Row(Many, S, None),
        (Function, 7) => Row(Many, S, Some(Node)),
        (Function, 9) => Row(Many, S, Some(OperatorSetId)),
        (Function, 11) => Row(Many, S, Some(Attribute)),
        (Graph, 1) => Row(Many, S, Some(Node)),
        (Graph, 2) => Row(Once, S, None),
        (Graph, 5) => Row(Many, S, Some(Tensor)),
        (Graph, 11..=13) => Row(Many, S, Some(ValueInfo)),
        (Graph, 15) => Row(Many, S, None),
        (Node, 1 | 2) => Row(Many, S, None),
        (Node, 3 | 4 | 7) => Row(Once, S, None),
        (Node, 5) => Row(Many, S, Some(Attribute)),
        (Attribute, 1 | 4 | 14 | 21 | 22) => Row(Once, S, None),
        (Attribute, 2) => Row(Once, F, None),
        (Attribute, 3 | 20) => Row(Once, V, None),
        (Attribute, 5) => Row(Once, S, Some(Tensor)),
        (Attribute, 6) => Row(Once, S, Some(Graph)),
        (Attribute, 7) => Row(Many, F | S, None),
        (Attribute, 8) => Row(Many, V | S, None),
        (Attribute, 9 | 15 | 23) => Row(Many, S, None),
        (Attribute, 10) => Row(Many, S, Some(Tensor)),
        (Attribute, 11) => Row(Many, S, Some(Graph)),
        (Tensor, 2) => Row(Once, V, None),
        (Tensor, 8) => Row(Once, S, None),
        (ValueInfo, 1) => Row(Once, S, None),
        (ValueInfo, 2) => Row(Once, S, Some(Type)),
        (Type, 1) => Row(OneOf, S, Some(TensorType)),
        (Type, 4 | 5 | 7 | 8 | 9) => Row(OneOf, S, None),
        (TensorType, 1) => Row(Once, V, None),
        (TensorType, 2) => Row(Once, S, Some(Shape)),
        (Shape, 1) => Row(Many, S, Some(Dimension)),
        (Dimension, 1) => Row(OneOf, V, None),
        (Dimension, 2) => Row(OneOf, S, None),
        _ => Row(Many, ANY, None),
    }
}

/// The varint at `pos`, where it ends, and whether it is padded: a last byte of 0 behind others is needless.
#[inline]
fn varint(bytes: &[u8], mut pos: usize) -> Result<(u64, usize, bool), Rule> {
    let mut value = 0;
    for shift in (0..63).step_by(7) {
        let byte = *bytes.get(pos).ok_or(Rule::PastEnd)?;
        pos += 1;
        value |= u64::from(byte & 0x7F) << shift;
        if byte < 0x80 {
            return Ok((value, pos, shift > 0 && byte == 0));
        }
    }
    match *bytes.get(pos).ok_or(Rule::PastEnd)? {
        byte @ 0..=1 => Ok((value | u64::from(byte) << 63, pos + 1, byte == 0)),
        _ => Err(Rule::TenthByte),
    }
}

/// A varint that must not be padded.
#[inline]
fn shortest(bytes: &[u8], pos: usize) -> Result<(u64, usize), Rule> {
    match varint(bytes, pos)? {
        (value, next, false) => Ok((value, next)),
        _ => Err(Rule::Padded),
    }
}

/// How many varints stand one after the other, padded or not.
pub fn varints(bytes: &[u8]) -> u64 {
    let mut count = 0;
    let mut pos = 0;
    while let Ok((_, next, _)) = varint(bytes, pos) {
        count += 1;
        pos = next;
    }
    count
}

/// The fields of a message from `start` to `end`, and the messages that they open.
fn walk(model: &[u8], kind: Kind, depth: u32, start: usize, end: usize) -> Result<(), Refusal> {
    let bytes = &model[..end];
    let mut seen = 0u32;
    let mut pos = start;
    while pos < end {
        let place = pos;
        let refuse = |rule| Refusal { rule, place };

        let (tag, after) = shortest(bytes, pos).map_err(refuse)?;
        let (number, wire) = (tag >> 3, tag & 7);
        if tag > u64::from(u32::MAX) || number == 0 || !matches!(wire, VARINT | I64 | LEN | I32) {
            return Err(refuse(Rule::BadTag));
        }
        let Row(times, wires, opens) = row(kind, number);
        if wires & 1 << wire == 0 {
            return Err(refuse(Rule::WrongWire));
        }
        let slot = match times {
            Times::Once => 1 << number,
            Times::OneOf => 1,
            Times::Many => 0,
        };
        if seen & slot != 0 {
            return Err(refuse(Rule::Repeated));
        }
        seen |= slot;

        let (inside, size) = match wire {
            VARINT => (shortest(bytes, after).map_err(refuse)?.1, 0),
            LEN => {
                let (size, next) = shortest(bytes, after).map_err(refuse)?;
                (next, size)
            }
            I64 => (after, 8),
            _ => (after, 4),
        };
        if size > (end - inside) as u64 {
            return Err(refuse(Rule::PastEnd));
        }
        pos = inside + size as usize;

        if let Some(inner) = opens {
            let depth = depth + u32::from(matches!(inner, Kind::Graph | Kind::Function));
            if depth > DEEPEST {
                return Err(refuse(Rule::TooDeep));
            }
            walk(model, inner, depth, inside, pos)?;
        }
    }
    Ok(())
}

/// The first walk over a whole model.
pub fn first_walk(model: &[u8]) -> Result<(), Refusal> {
    walk(model, Kind::Model, 0, 0, model.len())
}
