//! Lines that say more about one refusal: the value found, what the list allows, where a name is defined.
mod functions;

use crate::definitions;
use crate::explain::Given;
use crate::lists;
use crate::path::{self, Path, Step};
use crate::schema::{Holds, Kind};
use crate::text::{bare, quoted, signed};
use crate::wire;
use onnx_gate::operators::canonical;
use onnx_gate::{Refusal, CELLS_PER_NAME};

/// How many definitions are named.
const NAMED: usize = 3;

/// For 7, 8 and 65, which are not about the model's fields.
pub fn of_arguments(given: &Given, refusal: Refusal) -> Vec<String> {
    lists::fault(given.operators).filter(|_| refusal.number == 8).into_iter().collect()
}

pub fn of(given: &Given, refusal: Refusal, path: &Path, name: Option<&[u8]>) -> Vec<String> {
    let target = path.target();
    let note = match refusal.number {
        1 => target.and_then(too_long),
        3 => no_tag(given.model, refusal.place),
        4 => target.map(|t| format!("it has wire type {}", t.field.wire)),
        5 => target.and_then(|t| first(given.model, t, |f| f.number == t.field.number)),
        9 => padded(given.model, refusal.place),
        10 => Some(value("ir_version", target.filter(|t| t.is(Kind::Model, 1)))),
        21 => target.and_then(|t| not_text(given.model, t)),
        23 => refusal.first.map(|first| format!("defined first at {}", with_path(given.model, first))),
        29 | 31 => path.steps.iter().nth_back(1).and_then(|t| namesake(given.model, t)),
        12 => target.map(|_| "the imports of the model do not serve a function".into()),
        13 | 14 => target.and_then(|t| import(given, refusal.number, t)),
        25 => Some(value("elem_type", target.filter(|t| t.is(Kind::TensorType, 1)))),
        26 => Some(value("data_type", target.filter(|t| t.is(Kind::Tensor, 2)))),
        28 => target.map(|t| imports(given.model, t, functions::around(path))),
        32 => target.and_then(|t| attribute(given.model, t)),
        33 => functions::reference(given.model, path),
        38 => Some(value("dim_value", target)),
        40 => Some(format!("there are {} cells, {CELLS_PER_NAME} for each name", given.cells)),
        42 => functions::attribute_twice(given.model, path),
        30 | 35 => return name.map_or(vec![], |n| defined(given.model, path, n)),
        41 => return target.map_or(vec![], |t| functions::twice(given.model, t)),
        43 => return not_input(given.model, path, name),
        _ => None,
    };
    note.into_iter().collect()
}

/// A length that runs past its message, as in a file that was cut.
fn too_long(target: &Step) -> Option<String> {
    let f = target.field;
    let left = target.within.checked_sub(f.value)?;
    let cut = f.wire == 2 && f.end.is_none() && f.varint > left as u64;
    cut.then(|| format!("the field says {} bytes, and {left} are left in its message", f.varint))
}

fn no_tag(model: &[u8], place: usize) -> Option<String> {
    let (tag, _) = wire::varint(model, place, model.len())?;
    Some(format!("as a tag it says field {} of wire type {}", tag >> 3, tag & 7))
}

/// Which varint of the field is padded. That of its tag is told first.
fn padded(model: &[u8], place: usize) -> Option<String> {
    let (tag, next) = wire::varint(model, place, model.len())?;
    let longer = |what: &str, at: usize| {
        let (number, end) = wire::varint(model, at, model.len())?;
        let (takes, needs) = (end - at, wire::shortest(number));
        (takes > needs).then(|| format!("its {what}, at {at}, takes {takes} bytes and needs {needs}"))
    };
    longer("tag", place).or_else(|| match tag & 7 {
        0 => longer("value", next),
        2 => longer("length", next),
        _ => None,
    })
}

/// The first field before `step` in its message that is alike.
fn earlier(model: &[u8], step: &Step, alike: impl Fn(&wire::Field) -> bool) -> Option<wire::Field> {
    wire::fields(model, step.from, step.within).take_while(|f| f.tag < step.field.tag).find(alike)
}

/// Where that is.
fn first(model: &[u8], step: &Step, alike: impl Fn(&wire::Field) -> bool) -> Option<String> {
    earlier(model, step, alike).map(|f| format!("first at {}", with_path(model, f.tag)))
}

fn contents<'m>(model: &'m [u8], field: &wire::Field) -> Option<&'m [u8]> {
    model.get(field.value..field.end?)
}

fn with_path(model: &[u8], place: usize) -> String {
    format!("{place}, {}", path::find(model, place).shown())
}

/// Where a name stops being UTF-8, and why.
fn not_text(model: &[u8], target: &Step) -> Option<String> {
    let value = target.field.value;
    let held = contents(model, &target.field)?;
    if held.is_empty() && target.is(Kind::Dim, 2) {
        return Some("the dim_param is empty".into());
    }
    let at = std::str::from_utf8(held).err()?.valid_up_to();
    let why = malformed(held[at], held.get(at + 1).copied());
    Some(format!("not UTF-8 at {}, offset {at} in the name: {why}", value + at))
}

/// Why no character of UTF-8 begins with these bytes, of which a name may have one. What follows them may be at fault.
fn malformed(first: u8, next: Option<u8>) -> &'static str {
    match (first, next) {
        (0x80..=0xBF, _) => "a tail with no lead before it",
        (0xC0 | 0xC1, _) | (0xE0, Some(0x80..=0x9F)) | (0xF0, Some(0x80..=0x8F)) => "an overlong form",
        (0xED, Some(0xA0..=0xBF)) => "a surrogate",
        (0xF4, Some(0x90..=0xBF)) | (0xF5..=0xFD, _) => "above U+10FFFF",
        (0xFE | 0xFF, _) => "a byte that no character has",
        _ => "a character that is cut off",
    }
}

/// The earlier node or attribute that has the same name.
fn namesake(model: &[u8], step: &Step) -> Option<String> {
    let Holds::Message(kind) = step.row()?.3 else { return None };
    let number = kind.label()?;
    let named = |f: &wire::Field| f.end.and_then(|end| wire::contents(model, f.value, end, number));
    first(model, step, |f| f.number == step.field.number && f.wire == 2 && named(f) == step.label)
}

fn value(field: &str, target: Option<&Step>) -> String {
    match target {
        Some(t) => format!("{field} is {}", signed(t.field.varint)),
        None => format!("{field} is absent"),
    }
}

/// Domain and version of an import.
fn imported(model: &[u8], at: usize, end: usize) -> (&[u8], u64) {
    let domain = wire::contents(model, at, end, 1).unwrap_or_default();
    (canonical(domain), wire::number(model, at, end, 2).unwrap_or(0))
}

fn import(given: &Given, number: u64, target: &Step) -> Option<String> {
    let (domain, version) = imported(given.model, target.field.value, target.field.end?);
    let found = format!("{} version {}", bare(domain), signed(version));
    if number == 13 {
        return Some(format!("{found}, imported before"));
    }
    Some(match lists::versions(given.operators, domain) {
        Some((lowest, highest)) => format!("{found}; the list allows {lowest} to {highest}"),
        None => format!("{found}; the list does not have this domain"),
    })
}

/// The domain of a node that is not imported, and those that are: by the function around it, or by the model.
fn imports(model: &[u8], target: &Step, function: Option<&Step>) -> String {
    let held = contents(model, &target.field).filter(|_| target.is(Kind::Node, 7));
    let domain = bare(canonical(held.unwrap_or_default()));
    let (from, to, number) = function.map_or((0, model.len(), 8), |f| (f.field.value, f.field.end.unwrap_or(0), 9));
    let imports = wire::fields(model, from, to).filter(|f| f.number == number && f.wire == 2);
    let shown = |f: wire::Field| f.end.map(|end| bare(imported(model, f.value, end).0));
    let shown: Vec<String> = imports.filter_map(shown).take(8).collect();
    let (who, more) = match function {
        Some(_) => ("its function", "; the imports of the model do not serve it"),
        None => ("the model", ""),
    };
    format!("the node's domain is {domain}; {who} imports {}{more}", shown.join(", "))
}

/// The type that an attribute gives, and the values that it holds.
fn attribute(model: &[u8], target: &Step) -> Option<String> {
    let (at, end) = (target.field.value, target.field.end?);
    let kind = wire::number(model, at, end, 20).map_or("absent".into(), |t| signed(t).to_string());
    // a bit for each field number, since a hostile attribute has millions of fields
    let carriers = wire::fields(model, at, end).filter(|f| matches!(f.number, 2..=11 | 14 | 15 | 22 | 23));
    let met = carriers.fold(0u32, |met, f| met | 1 << f.number);
    let names = (0..32).filter(|n| met >> n & 1 == 1).filter_map(|n| Kind::Attribute.row(n));
    let mut held: Vec<&str> = names.map(|row| row.1).collect();
    held.sort_unstable();
    let held = if held.is_empty() { "nothing".into() } else { held.join(", ") };
    let refers = wire::contents(model, at, end, 21).filter(|name| !name.is_empty());
    let refers = refers.map_or(String::new(), |name| format!(", and refers to {}", quoted(name)));
    Some(format!("type is {kind}; the attribute holds {held}{refers}"))
}

/// The inputs of an initializer's graph, and what else has its name: mostly an input of a graph around it.
fn not_input(model: &[u8], path: &Path, name: Option<&[u8]>) -> Vec<String> {
    let Some(step) = path.steps.iter().nth_back(1).filter(|s| s.is(Kind::Graph, 5)) else {
        return vec![];
    };
    let mut notes = vec![inputs(model, step)];
    let places = name.map_or(vec![], |n| definitions::of(model, n, NAMED + 1));
    let others = places.iter().filter(|p| **p != step.field.tag).take(NAMED);
    notes.extend(others.map(|p| format!("the name is also that of {}", path::find(model, *p).shown())));
    notes
}

/// The first inputs of the graph that the field stands in, and how many more there are.
fn inputs(model: &[u8], step: &Step) -> String {
    let inputs = || wire::fields(model, step.from, step.within).filter(|f| f.number == 11 && f.wire == 2);
    let named = |f: wire::Field| f.end.and_then(|end| wire::contents(model, f.value, end, 1));
    few("input", "graph", || inputs().map(named))
}

/// The first things of the graph or function that something stands in, and how many more there are.
fn few<'m, I: Iterator<Item = Option<&'m [u8]>>>(thing: &str, whole: &str, things: impl Fn() -> I) -> String {
    let named: Vec<String> = things().take(NAMED).flatten().map(quoted).collect();
    match things().count() {
        0 => format!("its {whole} has no {thing}s"),
        count if count > NAMED => {
            format!("the {thing}s of its {whole} are {} and {} more", named.join(", "), count - NAMED)
        }
        1 => format!("the {thing} of its {whole} is {}", named.join("")),
        _ => format!("the {thing}s of its {whole} are {}", named.join(", ")),
    }
}

/// Where the name is defined all the same: later, in another branch or function, or nowhere.
fn defined(model: &[u8], path: &Path, name: &[u8]) -> Vec<String> {
    let places = definitions::of(model, name, NAMED);
    if places.is_empty() {
        return vec![format!("nothing in the model defines {}", quoted(name))];
    }
    let mut notes: Vec<String> =
        places.iter().map(|p| format!("defined at {}", path::find(model, *p).shown())).collect();
    let outside = |f: &&Step| places.iter().all(|p| !(f.field.value..f.field.end.unwrap_or(0)).contains(p));
    notes.extend(functions::around(path).filter(outside).map(|_| "a function sees no name from outside it".into()));
    notes
}
