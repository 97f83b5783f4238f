//! What is shown with a refusal. The refusal comes from the library and is not changed here.
use crate::notes;
use crate::path::{self, Path};
use crate::schema::{Holds, Kind};
use crate::wire;
use onnx_gate::Refusal;
use std::ops::Range;
use std::panic::{catch_unwind, UnwindSafe};

/// How many bytes are shown before the place, and in all.
const BEFORE: usize = 4;
const SHOWN: usize = 16;

/// A few bytes of the model around a place, and which of them are the field at fault.
#[derive(Debug, PartialEq, Eq)]
pub struct Window<'a> {
    pub start: usize,
    pub bytes: &'a [u8],
    /// Offsets in the model; empty where nothing that stands there is at fault. It may end after what is shown.
    pub field: Range<usize>,
}

#[derive(Default)]
pub struct Explanation<'a> {
    /// Absent where the fault is not in the model's fields: 7, 8 and 65.
    pub path: Option<String>,
    pub name: Option<&'a [u8]>,
    pub notes: Vec<String>,
    pub window: Option<Window<'a>>,
}

/// What the notes need to know besides the model.
pub struct Given<'a> {
    pub model: &'a [u8],
    pub operators: &'a [u8],
    pub cells: usize,
}

/// More memory than any explanation takes, or a line of a list: they show names cut, and nothing in them grows with the
/// model.
pub const ROOM: usize = 4 << 20;

/// What can be said about a refusal, or one line why nothing can.
pub fn explain<'a>(given: &Given<'a>, refusal: Refusal) -> Explanation<'a> {
    let none = |why| Explanation { notes: vec![format!("no explanation: {why}")], ..Explanation::default() };
    guarded(ROOM, || found(given, refusal)).unwrap_or_else(none)
}

/// What `find` finds. That no memory is left, or that it has a mistake, must cost neither this verdict nor the next. So
/// memory is asked for before: an allocation that fails would end the process.
pub fn guarded<T>(room: usize, find: impl FnOnce() -> T + UnwindSafe) -> Result<T, &'static str> {
    let mut bytes = Vec::<u8>::new();
    let had = bytes.try_reserve_exact(room);
    // or the compiler would leave it out
    drop(std::hint::black_box(bytes));
    had.map_err(|_| "there is no memory for one")?;
    catch_unwind(find).map_err(|_| "a mistake in this command")
}

fn found<'a>(given: &Given<'a>, refusal: Refusal) -> Explanation<'a> {
    if matches!(refusal.number, 7 | 8 | 65) {
        return Explanation { notes: notes::of_arguments(given, refusal), ..Explanation::default() };
    }
    let mut path = path::find(given.model, refusal.place);
    if lacks_a_field(given.model, refusal.number, &path) {
        path = Path::default();
    }
    // a padded tag may be none besides, and is refused for its padding first
    if refusal.number == 3 || refusal.number == 9 && path.target().is_some_and(|t| !t.field.has_tag()) {
        path.without_tag();
    }
    let name = name(given.model, refusal.number, &path);
    Explanation {
        path: Some(path.shown()),
        name,
        notes: notes::of(given, refusal, &path, name),
        window: Some(window(given.model, refusal.place, &path)),
    }
}

/// 10, 11 and 12 are at 0 when the model itself lacks something, whatever field stands at 0. A function that has no
/// imports may stand there too, but is judged only in a model that has some.
fn lacks_a_field(model: &[u8], number: u64, path: &Path) -> bool {
    match number {
        10 => !path.target().is_some_and(|t| t.is(Kind::Model, 1)),
        11 => true,
        12 => wire::fields(model, 0, model.len()).all(|f| f.number != 8),
        _ => false,
    }
}

/// The name at the place, or that of the innermost thing around it that has one. Shown by the library's name service.
fn name<'a>(model: &'a [u8], number: u64, path: &Path<'a>) -> Option<&'a [u8]> {
    if number < 12 || matches!(number, 16 | 20) {
        return None;
    }
    let target = path.target()?;
    if let (Some((_, _, _, Holds::Name)), 2, Some(end)) = (target.row(), target.field.wire, target.field.end) {
        let value = target.field.value;
        let held = onnx_gate::show_name(model, value, end - value);
        if !held.is_empty() || number == 22 {
            return Some(held).filter(|n| !n.is_empty());
        }
    }
    path.steps.iter().rev().find_map(|s| s.label).filter(|n| !n.is_empty())
}

fn window<'a>(model: &'a [u8], place: usize, path: &Path) -> Window<'a> {
    let start = place.saturating_sub(BEFORE).min(model.len());
    let end = (start + SHOWN).min(model.len());
    let field = match path.target() {
        Some(t) => place..t.field.end.unwrap_or(t.within),
        None if path.unreadable => place..tag_end(model, place),
        None => place..place,
    };
    Window { start, bytes: &model[start..end], field }
}

/// Where what stands for a tag ends, as a varint does or as far as one goes.
fn tag_end(model: &[u8], place: usize) -> usize {
    wire::varint(model, place, model.len()).map_or((place + 10).min(model.len()), |(_, end)| end)
}

#[cfg(test)]
mod tests;
