//! The odd names of an accepted model: those that are not C identifiers, as exporters write them. How many there are is
//! the library's to say. Which they are is found here, and held to its count.
use crate::explain::{guarded, ROOM};
use crate::path::{Path, Step, DEEPEST};
use crate::schema::{Holds, Kind, Row};
use crate::wire;
use std::io;
use std::panic::AssertUnwindSafe;

/// The numbers of all fields that are walked lie below.
const NUMBERS: usize = 26;

/// Tells each odd name with its path, in the order of the bytes; and what is wrong, where they are not as many as the
/// library counts.
pub fn list<'a>(
    model: &'a [u8],
    counted: u64,
    mut tell: impl FnMut(&Path, &'a [u8]) -> io::Result<()>,
) -> io::Result<Option<String>> {
    let mut told = 0;
    let tell = |path: &Path, name| {
        told += 1;
        tell(path, name)
    };
    let mut walk = Walk { model, path: Path { exact: true, ..Path::default() }, tell };
    let walked = guarded(ROOM, AssertUnwindSafe(|| walk.message(Kind::Model, (0, model.len()), true)));
    Ok(match walked {
        Err(why) => Some(format!("no whole list of odd names: {why}")),
        Ok(done) => done.map(|()| differs(told, counted))?,
    })
}

fn differs(told: u64, counted: u64) -> Option<String> {
    let why = || format!("internal error: --odd finds {told} odd names, and the library counts {counted}");
    (told != counted).then(why)
}

struct Walk<'a, T> {
    model: &'a [u8],
    path: Path<'a>,
    tell: T,
}

impl<'a, T: FnMut(&Path, &'a [u8]) -> io::Result<()>> Walk<'a, T> {
    /// The odd names in the message `model[at..end]`. Nothing but the path is kept: a file may have millions.
    fn message(&mut self, kind: Kind, (at, end): (usize, usize), main: bool) -> io::Result<()> {
        let mut met = [0; NUMBERS];
        for field in wire::fields(self.model, at, end).filter(|f| f.wire == 2) {
            let Some(stop) = field.end else { break };
            let Some((_, _, many, holds)) = walked(kind, field.number, main) else { continue };
            let Some(next) = met.get_mut(field.number as usize) else { continue };
            let index = *next;
            *next += 1;
            // of a field that may stand once the library reads the first
            if index > 0 && !many {
                continue;
            }
            let step = |model| Step::new(model, kind, (at, end), field, index);
            match holds {
                Holds::Name if is_odd(&self.model[field.value..stop]) => {
                    self.path.steps.push(step(self.model));
                    (self.tell)(&self.path, &self.model[field.value..stop])?;
                    self.path.steps.pop();
                }
                Holds::Message(inner) if self.path.steps.len() < DEEPEST => {
                    self.path.steps.push(step(self.model));
                    self.message(*inner, (field.value, stop), main && kind != Kind::Attribute)?;
                    self.path.steps.pop();
                }
                _ => {}
            }
        }
        Ok(())
    }
}

/// The row of a field that the library tests for 21, or looks for names in. It passes over imports, value_info,
/// domains, the tensors and the reference of an attribute, and types in nested graphs.
fn walked(kind: Kind, number: u64, main: bool) -> Option<&'static Row> {
    let passed_over = match (kind, number) {
        (Kind::Model, 8) | (Kind::Function, 9 | 10) | (Kind::Graph, 13) | (Kind::Node, 7) => true,
        (Kind::Attribute, 5 | 10 | 21) => true,
        (Kind::ValueInfo, 2) => !main,
        _ => false,
    };
    kind.row(number).filter(|_| !passed_over)
}

/// Whether it is something other than a C identifier. An empty name is none at all.
fn is_odd(name: &[u8]) -> bool {
    let letter = |b: &u8| b.is_ascii_alphabetic() || *b == b'_';
    name.first().is_some_and(|first| !letter(first) || !name.iter().all(|b| letter(b) || b.is_ascii_digit()))
}

#[cfg(test)]
mod tests;
