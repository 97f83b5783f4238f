//! Options and other words. A file's name that a shell put among the words, as `*` does, must never act as an option:
//! the file would go unchecked, or others would be judged by other rules. Where a word may be either, nothing is done.
use super::{values, Command};
use crate::folders::is_model_name;
use crate::output::Form;
use crate::{help, text};
use std::ffi::{OsStr, OsString};
use std::os::unix::ffi::OsStrExt;
use std::slice::Iter;

/// What a command takes.
pub struct Grammar {
    pub options: &'static [&'static str],
    /// Whether the other words are models. Options stand before the first of them.
    pub models: bool,
    pub help: &'static str,
    pub made: fn(Words) -> Result<Command, String>,
}

/// The options and the other words of a command.
#[derive(Default)]
pub struct Words {
    pub operators: Option<OsString>,
    pub allowed: Vec<(String, u32, u32)>,
    pub cells: Option<usize>,
    pub seed: Option<u64>,
    pub form: Form,
    pub rest: Vec<OsString>,
}

/// What `--help` or `--version` prints, which stand alone: beside a model they would hide that it is not checked.
pub fn said(words: &[OsString], help: &'static str) -> Result<Option<&'static str>, String> {
    let [word] = words else { return Ok(None) };
    let text = match word.to_str() {
        Some("-h" | "--help") => help,
        Some("-V" | "--version") => help::VERSION,
        _ => return Ok(None),
    };
    no_file(word).map(|()| Some(text))
}

/// Takes the words apart.
pub fn split(words: &[OsString], grammar: &Grammar) -> Result<Words, String> {
    let mut w = Words::default();
    let mut words = words.iter();
    let mut ended = false;
    while let Some(word) = words.next() {
        let dashed = word.as_bytes().starts_with(b"-") && !ended;
        if word == "-" || dashed {
            no_file(word)?;
        }
        if word == "-" || !dashed {
            w.rest.push(word.clone());
        } else if grammar.models && !w.rest.is_empty() {
            return Err(either(word, "stands behind a model, where no option may"));
        } else if word == "--" {
            ended = true;
        } else {
            w.option(word, &mut words, grammar)?;
        }
    }
    Ok(w)
}

/// Refuses a word that may be a file's name.
fn no_file(word: &OsStr) -> Result<(), String> {
    if is_model_name(word) {
        return Err(either(word, "ends as the name of a model does"));
    }
    if std::fs::symlink_metadata(word).is_ok() {
        return Err(either(word, "is the name of a file here as well"));
    }
    Ok(())
}

fn either(word: &OsStr, why: &str) -> String {
    let also = if word == "-" || word == "--" { "" } else { ", or put -- before the models" };
    format!("{} {why}: for a file write ./{}{also}", shown(word), text::bare(word.as_bytes()))
}

fn shown(word: &OsStr) -> String {
    text::quoted(word.as_bytes())
}

/// `--operators=FILE` as two words. A file's name may be any bytes.
fn at_equals(word: &OsStr) -> (&OsStr, Option<&OsStr>) {
    let bytes = word.as_bytes();
    match bytes.iter().position(|b| *b == b'=') {
        Some(at) => (OsStr::from_bytes(&bytes[..at]), Some(OsStr::from_bytes(&bytes[at + 1..]))),
        None => (word, None),
    }
}

impl Words {
    fn option(&mut self, word: &OsStr, more: &mut Iter<OsString>, grammar: &Grammar) -> Result<(), String> {
        let (option, value) = at_equals(word);
        let option = option.to_str().unwrap_or_default();
        match (option, value) {
            ("-h" | "--help" | "-V" | "--version", _) => return Err(format!("{option} stands alone, with no value")),
            _ if !grammar.options.contains(&option) => {
                return Err(format!("there is no option {} here. Try --help.", shown(word)));
            }
            ("--json" | "--odd" | "-q" | "--quiet", Some(_)) => return Err(format!("{option} takes no value")),
            ("--json", None) => self.form.json = true,
            ("--odd", None) => self.form.odd = true,
            ("-q" | "--quiet", None) => self.form.quiet = true,
            (_, Some(value)) => self.set(option, value)?,
            (_, None) => {
                let value = more.next().ok_or_else(|| format!("{option} needs a value"))?;
                if (option != "--operators" || value == "-") && no_file(value).is_err() {
                    let bare = text::bare(value.as_bytes());
                    return Err(format!("{} may be a file: if none is meant, write {option}={bare}", shown(value)));
                }
                self.set(option, value)?;
            }
        }
        Ok(())
    }

    fn set(&mut self, option: &str, value: &OsStr) -> Result<(), String> {
        let again = match option {
            "--operators" if is_model_name(value) => {
                return Err(format!("--operators {}: that is the name of a model, and not of a list", shown(value)));
            }
            "--operators" => self.operators.replace(value.into()).is_some(),
            "--cells" => self.cells.replace(values::cells(value)?).is_some(),
            "--seed" => self.seed.replace(values::seed(value)?).is_some(),
            _ => {
                self.allowed.push(values::allowed(value)?);
                false
            }
        };
        if again {
            Err(format!("{option} stands twice"))
        } else {
            Ok(())
        }
    }
}
