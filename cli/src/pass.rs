//! `onnx-gate pass`: the bytes that were checked, for whoever would else read the file a second time.
use crate::args::Pass;
use crate::judge::Judge;
use crate::output::{self, Form, Output};
use crate::{complain, input, WRONG};
use std::io::{self, IsTerminal, Write};

/// The verdict goes to standard error. Not a byte goes to standard output before the model is accepted.
pub fn run(pass: &Pass) -> io::Result<u8> {
    let mut out = output::standard()?;
    if out.is_terminal() {
        complain("standard output is a terminal: send the model to a file or a program");
        return Ok(WRONG);
    }
    let judge = match Judge::new(&pass.terms) {
        Ok(judge) => judge,
        Err(why) => {
            complain(&why);
            return Ok(WRONG);
        }
    };
    let mut verdict = Output::new(output::errors()?, Form::default());
    let file = pass.model.as_os_str();
    // a copy, whose bytes are there to be written however long the reader takes
    match input::copy(file).and_then(|model| judge.judge(file, model)) {
        Err(why) => verdict.not_judged(file, &why)?,
        Ok(judged) => match judged.answer {
            Err(refusal) => verdict.refused(file, refusal, &judge.given(&judged))?,
            Ok(accepted) => {
                verdict.accepted(file, accepted, &judged.model)?;
                out.write_all(&judged.model)?;
            }
        },
    }
    Ok(verdict.status())
}
