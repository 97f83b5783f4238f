//! The command line.
mod values;
mod words;

use crate::output::Form;
use crate::{help, text};
use onnx_gate::operators::{self, ListFault};
use std::ffi::{OsStr, OsString};
use std::os::unix::ffi::OsStrExt;
use words::{said, split, Grammar, Words};

/// What is allowed where nothing is said: the operators of ONNX 1.2 to 1.16, whatever the IR version.
pub const DEFAULT: [(&str, u32, u32); 2] = [("ai.onnx", 7, 21), ("ai.onnx.ml", 1, 5)];

#[derive(Debug, PartialEq, Eq)]
pub enum Command {
    /// Print this and end.
    Say(&'static str),
    Check(Check),
    Pass(Pass),
    Write {
        file: OsString,
        list: Vec<u8>,
    },
    Show {
        file: OsString,
    },
    Rules,
}

#[derive(Debug, PartialEq, Eq)]
pub struct Check {
    pub terms: Terms,
    pub form: Form,
    pub models: Vec<OsString>,
}

#[derive(Debug, PartialEq, Eq)]
pub struct Pass {
    pub terms: Terms,
    pub model: OsString,
}

/// What a model is judged by.
#[derive(Debug, PartialEq, Eq)]
pub struct Terms {
    pub operators: Operators,
    pub cells: Option<usize>,
    pub seed: Option<u64>,
}

#[derive(Debug, PartialEq, Eq)]
pub enum Operators {
    File(OsString),
    List(Vec<u8>),
}

const CHECK: Grammar = Grammar {
    options: &["--operators", "--allow", "--cells", "--seed", "--odd", "--json", "-q", "--quiet"],
    models: true,
    help: help::CHECK,
    made: check,
};
const PASS: Grammar =
    Grammar { options: &["--operators", "--allow", "--cells", "--seed"], models: true, help: help::PASS, made: pass };
const OPERATORS: Grammar = Grammar { options: &["--allow"], models: false, help: help::OPERATORS, made: lists };
const RULES: Grammar = Grammar { options: &[], models: false, help: help::RULES, made: rules };

pub fn parse(words: impl Iterator<Item = OsString>) -> Result<Command, String> {
    let words: Vec<OsString> = words.collect();
    let (command, rest) = words.split_first().ok_or("which command? Try `onnx-gate --help`.")?;
    if let Some(text) = said(&words, help::MAIN)? {
        return Ok(Command::Say(text));
    }
    let grammar = match command.to_str() {
        Some("help") if rest.is_empty() => return Ok(Command::Say(help::MAIN)),
        Some("check") => CHECK,
        Some("pass") => PASS,
        Some("operators") => OPERATORS,
        Some("rules") => RULES,
        _ => return Err(format!("there is no command {}. Try `onnx-gate --help`.", text::quoted(command.as_bytes()))),
    };
    match said(rest, grammar.help)? {
        Some(text) => Ok(Command::Say(text)),
        None => (grammar.made)(split(rest, &grammar)?),
    }
}

fn check(mut w: Words) -> Result<Command, String> {
    if w.rest.is_empty() {
        return Err("which model? Usage: onnx-gate check [OPTIONS] MODEL...".into());
    }
    if w.form.json && w.form.quiet {
        return Err("--json and --quiet exclude each other: with --json there is a line for each file".into());
    }
    if w.form.odd && w.form.quiet {
        return Err(
            "--odd and --quiet exclude each other: names are listed under the lines that --quiet leaves out".into()
        );
    }
    let models = std::mem::take(&mut w.rest);
    if models.iter().chain(&w.operators).filter(|word| *word == "-").count() > 1 {
        return Err("standard input can be read once, and is named again".into());
    }
    Ok(Command::Check(Check { form: w.form, models, terms: terms(w)? }))
}

fn pass(mut w: Words) -> Result<Command, String> {
    let [model] = w.rest.as_mut_slice() else {
        return Err("one model, and not more or less. Usage: onnx-gate pass [OPTIONS] MODEL >OUT".into());
    };
    let model = std::mem::take(model);
    if model == "-" && w.operators.as_deref() == Some(OsStr::new("-")) {
        return Err("standard input can be read once, and is named again".into());
    }
    Ok(Command::Pass(Pass { model, terms: terms(w)? }))
}

fn terms(w: Words) -> Result<Terms, String> {
    let operators = match (w.operators, w.allowed.as_slice()) {
        (Some(_), [_, ..]) => return Err("--operators and --allow exclude each other".into()),
        (Some(file), []) => Operators::File(file),
        (None, []) => Operators::List(operators::write(&DEFAULT).map_err(|f| f.to_string())?),
        (None, allowed) => Operators::List(list(allowed)?),
    };
    Ok(Terms { operators, cells: w.cells, seed: w.seed })
}

fn list(allowed: &[(String, u32, u32)]) -> Result<Vec<u8>, String> {
    operators::write(allowed).map_err(|fault: ListFault| format!("--allow: {}", text::cut(&fault.to_string())))
}

fn lists(w: Words) -> Result<Command, String> {
    let words: Vec<&OsStr> = w.rest.iter().map(OsString::as_os_str).collect();
    match words.as_slice() {
        [verb, file] if *verb == "show" && w.allowed.is_empty() => Ok(Command::Show { file: (*file).into() }),
        [verb, _] if *verb == "write" && w.allowed.is_empty() => {
            Err("a list of what? Give --allow DOMAIN:LO-HI".into())
        }
        [verb, file] if *verb == "write" => Ok(Command::Write { file: (*file).into(), list: list(&w.allowed)? }),
        _ => Err("usage: onnx-gate operators write FILE --allow DOMAIN:LO-HI..., or operators show FILE".into()),
    }
}

fn rules(w: Words) -> Result<Command, String> {
    match w.rest.first() {
        None => Ok(Command::Rules),
        Some(word) => Err(format!("rules takes no {}", text::quoted(word.as_bytes()))),
    }
}

#[cfg(test)]
mod tests;
