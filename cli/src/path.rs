//! From a byte's offset to the path in the model's own terms: `graph > node[3] "conv1" > output[0]`.
use crate::schema::{Holds, Kind, Row};
use crate::text;
use crate::wire::{self, Field};

/// Eight graphs, each in an attribute of a node, and the dim of a type: the library names nothing deeper.
pub const DEEPEST: usize = 64;

/// A field on the way.
#[derive(Clone, Copy)]
pub struct Step<'a> {
    /// The message that the field stands in, and where that starts and ends.
    pub of: Kind,
    pub from: usize,
    pub within: usize,
    pub field: Field,
    /// How many of its number stand before it in its message.
    index: usize,
    /// The name that the message in the field has, if it is one that has names.
    pub label: Option<&'a [u8]>,
    /// For a node with no name.
    op_type: Option<&'a [u8]>,
}

impl<'a> Step<'a> {
    /// A field of the message `model[from..within]`, before which so many of its number stand.
    pub fn new(model: &'a [u8], of: Kind, (from, within): (usize, usize), field: Field, index: usize) -> Step<'a> {
        let mut step = Step { of, from, within, field, index, label: None, op_type: None };
        if let (Some((_, _, _, Holds::Message(kind))), 2, Some(stop)) = (step.row(), field.wire, field.end) {
            let part = |number| wire::contents(model, field.value, stop, number);
            step.label = kind.label().and_then(part);
            step.op_type = Some(4).filter(|_| *kind == Kind::Node).and_then(part);
        }
        step
    }

    pub fn row(&self) -> Option<&'static Row> {
        self.of.row(self.field.number)
    }

    pub fn is(&self, of: Kind, number: u64) -> bool {
        self.of == of && self.field.number == number
    }

    fn shown(&self) -> String {
        let Some((_, name, many, _)) = self.row() else {
            return format!("field {}", self.field.number);
        };
        let index = if *many { format!("[{}]", self.index) } else { String::new() };
        let label = match (self.label, self.op_type) {
            (Some(label), _) if !label.is_empty() => format!(" {}", text::quoted(label)),
            (_, Some(op)) => format!(" ({})", text::bare(op)),
            _ => String::new(),
        };
        format!("{name}{index}{label}")
    }
}

/// The way to a place. `exact` where a field starts there; `unreadable` where bytes stand there that are no tag.
#[derive(Default)]
pub struct Path<'a> {
    pub steps: Vec<Step<'a>>,
    pub exact: bool,
    pub unreadable: bool,
}

impl<'a> Path<'a> {
    /// The field that starts at the place.
    pub fn target(&self) -> Option<&Step<'a>> {
        self.steps.last().filter(|_| self.exact)
    }

    /// What stands at the place is no tag, whatever field it would be.
    pub fn without_tag(&mut self) {
        if self.exact {
            self.steps.pop();
            (self.exact, self.unreadable) = (false, true);
        }
    }

    pub fn shown(&self) -> String {
        let mut parts: Vec<String> = self.steps.iter().map(Step::shown).collect();
        if parts.is_empty() {
            parts.push("model".into());
        }
        if self.unreadable {
            parts.push("(unreadable tag)".into());
        }
        parts.join(" > ")
    }
}

/// Follows the fields around `place` from the model down.
pub fn find(model: &[u8], place: usize) -> Path<'_> {
    let mut path = Path::default();
    let (mut kind, mut at, mut end) = (Kind::Model, 0, model.len());
    while path.steps.len() < DEEPEST {
        let Some(field) = around(model, at, end, place) else {
            path.unreadable = (at..end).contains(&place);
            return path;
        };
        path.steps.push(step(model, kind, (at, end), field));
        path.exact = field.tag == place;
        let inner = kind.row(field.number).map(|r| r.3);
        match (inner, field.wire, field.end) {
            (Some(Holds::Message(inner)), 2, Some(stop)) if !path.exact && field.value <= place => {
                (kind, at, end) = (inner, field.value, stop);
            }
            _ => return path,
        }
    }
    path
}

/// The field of the message `model[at..end]` that `place` lies in.
fn around(model: &[u8], at: usize, end: usize, place: usize) -> Option<Field> {
    wire::fields(model, at, end).take_while(|f| f.tag <= place).find(|f| f.end.is_none_or(|stop| place < stop))
}

fn step(model: &[u8], of: Kind, (at, end): (usize, usize), field: Field) -> Step<'_> {
    let before = wire::fields(model, at, end).take_while(|f| f.tag < field.tag);
    Step::new(model, of, (at, end), field, before.filter(|f| f.number == field.number).count())
}

#[cfg(test)]
mod tests {
    use super::*;

    fn model() -> Vec<u8> {
        crate::samples::bytes("08 08 42 02 10 0D 3A 0E 12 01 67 0A 09 0A 01 61 12 01 61 22 01 58")
    }

    #[test]
    fn paths_of_a_small_model() {
        let m = model();
        let shown = |place| find(&m, place).shown();
        assert_eq!(shown(0), "ir_version");
        assert_eq!(shown(2), "opset_import[0]");
        assert_eq!(shown(4), "opset_import[0] > version");
        assert_eq!(shown(11), "graph > node[0] (X)");
        assert_eq!(shown(13), "graph > node[0] (X) > input[0]");
        assert_eq!(shown(16), "graph > node[0] (X) > output[0]");
        assert_eq!(shown(999), "model");
    }

    #[test]
    fn paths_in_functions() {
        let part = crate::samples::part;
        let (node, proto) = (part(7, b"\x12\x01y\x22\x01X"), part(11, b"\x0A\x01k"));
        let fields = [part(1, b"f"), part(4, b"x"), part(5, b"y"), part(6, b"a"), node, part(9, b"\x0A\x01d"), proto];
        let m = [part(25, b""), part(25, &fields.concat())].concat();
        let shown = |place| find(&m, place).shown();
        assert_eq!((shown(0), shown(3)), ("functions[0]".into(), r#"functions[1] "f""#.into()));
        for (place, rest) in [
            (6, "name"),
            (9, "input[0]"),
            (12, "output[0]"),
            (15, "attribute[0]"),
            (18, "node[0] (X)"),
            (20, "node[0] (X) > output[0]"),
            (26, r#"opset_import[0] "d""#),
            (31, r#"attribute_proto[0] "k""#),
            (33, r#"attribute_proto[0] "k" > name"#),
        ] {
            assert_eq!(shown(place), format!(r#"functions[1] "f" > {rest}"#));
        }
    }

    #[test]
    fn what_cannot_be_read() {
        let cut = &model()[..12];
        assert_eq!(find(cut, 6).shown(), "graph");
        assert!(find(&[0xFF; 3], 0).unreadable);
        assert_eq!(find(&[0x00], 0).shown(), "field 0");
        assert_eq!(find(&[], 0).shown(), "model");
    }
}
