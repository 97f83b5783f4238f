//! `onnx-gate`: one command for people over the proved gate.
mod args;
mod check;
mod definitions;
mod explain;
mod folders;
mod help;
mod input;
mod json;
mod judge;
mod lists;
mod mapped;
mod notes;
mod odd;
mod output;
mod pass;
mod path;
mod report;
#[cfg(test)]
mod samples;
mod schema;
mod text;
mod wire;

use args::Command;
use std::io::{IsTerminal, Write};
use std::process::ExitCode;

/// Exit statuses.
pub const DONE: u8 = 0;
pub const REFUSED: u8 = 1;
pub const WRONG: u8 = 2;

/// A message for the one who runs the command. Where it cannot be written there is nobody to tell. On a terminal it
/// stands in place of the progress line.
pub fn complain(message: &str) {
    let mut err = std::io::stderr();
    let over = if err.is_terminal() { "\r\x1b[K" } else { "" };
    let _ = writeln!(err, "{over}onnx-gate: {}", text::message(message));
}

fn main() -> ExitCode {
    // what a mistake in this command says of itself may quote a model, too
    std::panic::set_hook(Box::new(|why| complain(&why.to_string())));
    let command = match args::parse(std::env::args_os().skip(1)) {
        Ok(command) => command,
        Err(why) => {
            complain(&why);
            return ExitCode::from(WRONG);
        }
    };
    let done = match &command {
        Command::Say(text) => output::standard().and_then(|mut out| out.write_all(text.as_bytes())).map(|()| DONE),
        Command::Check(what) => check::run(what),
        Command::Pass(what) => pass::run(what),
        Command::Write { file, list } => lists::write(file, list),
        Command::Show { file } => lists::show(file),
        Command::Rules => lists::rules(),
    };
    ExitCode::from(done.unwrap_or_else(|why| {
        // a reader that has seen enough, as head, needs no message
        if why.kind() != std::io::ErrorKind::BrokenPipe {
            complain(&format!("cannot write: {why}"));
        }
        WRONG
    }))
}
