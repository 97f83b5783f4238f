//! What is said of 41, 42 and 33, for which the function around is looked at.
use super::{contents, earlier, few, with_path};
use crate::path::{Path, Step};
use crate::schema::Kind;
use crate::text::quoted;
use crate::wire::{self, Field};
use onnx_gate::operators::canonical;

/// From this IR version on an overload tells two functions apart.
const OVERLOADS: u64 = 10;

/// The function that a place lies in, or is.
pub fn around<'p, 'm>(path: &'p Path<'m>) -> Option<&'p Step<'m>> {
    path.steps.first().filter(|step| step.is(Kind::Model, 25))
}

/// The earlier function that is the same one, and why an overload does not help.
pub fn twice(model: &[u8], target: &Step) -> Vec<String> {
    let part = |f: &Field, number| wire::contents(model, f.value, f.end.unwrap_or(0), number).unwrap_or_default();
    let identity = |f: &Field| (part(f, 1), canonical(part(f, 10)));
    let version = wire::number(model, 0, model.len(), 1).unwrap_or(0);
    // read once: a hostile function has millions of fields
    let (own, overload) = (identity(&target.field), part(&target.field, 13));
    let alike = |f: &Field| identity(f) == own && (version < OVERLOADS || part(f, 13) == overload);
    let Some(first) = earlier(model, target, |f| f.number == 25 && f.wire == 2 && alike(f)) else {
        return vec![];
    };
    let mut notes = vec![format!("first at {}", with_path(model, first.tag))];
    if part(&first, 13) != overload {
        let apart = format!("an overload tells functions apart from IR version {OVERLOADS} on");
        notes.push(format!("{apart}, and ir_version is {version}"));
    }
    notes
}

/// The attribute of the function that has the same name. Those without a default are judged first, wherever they stand.
pub fn attribute_twice(model: &[u8], path: &Path) -> Option<String> {
    let (function, own, target) = (around(path)?, path.steps.get(1)?, path.target()?);
    let held = contents(model, &target.field);
    let named = |number| attributes(model, function).find(|(f, name)| f.number == number && *name == held);
    let (first, _) = named(6).or_else(|| named(11)).filter(|(f, _)| f.tag != own.field.tag)?;
    Some(format!("first at {}", with_path(model, first.tag)))
}

/// What an attribute refers to, and why it may not.
pub fn reference(model: &[u8], path: &Path) -> Option<String> {
    let target = path.target()?;
    let name = wire::contents(model, target.field.value, target.field.end?, 21)?;
    let why = match around(path) {
        None => ", and stands in no function".into(),
        Some(_) if target.is(Kind::Function, 11) => ", and a default may not be a reference".into(),
        Some(f) => format!("; {}", few("attribute", "function", || attributes(model, f).map(|(_, name)| name))),
    };
    Some(format!("it refers to {}{why}", quoted(name)))
}

/// The attributes of a function with their names, of both kinds.
fn attributes<'m>(model: &'m [u8], function: &Step) -> impl Iterator<Item = (Field, Option<&'m [u8]>)> {
    let fields = wire::fields(model, function.field.value, function.field.end.unwrap_or(0)).filter(|f| f.wire == 2);
    fields.filter_map(move |f| match f.number {
        6 => Some((f, contents(model, &f))),
        11 => Some((f, wire::contents(model, f.value, f.end?, 1))),
        _ => None,
    })
}
