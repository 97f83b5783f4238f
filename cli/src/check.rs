//! `onnx-gate check`.
use crate::args::Check;
use crate::folders::{self, Found};
use crate::judge::{Judge, Judged};
use crate::output::{self, Output};
use crate::{complain, input, text, WRONG};
use std::io::{self, IsTerminal, Write};

/// Judges every file and gives the exit status: not judged before refused before accepted.
pub fn run(check: &Check) -> io::Result<u8> {
    let mut output = Output::new(output::standard()?, check.form);
    let judge = match Judge::new(&check.terms) {
        Ok(judge) => judge,
        Err(why) => return without_list(check, &why, &mut output),
    };
    let models = folders::find(&check.models);
    let progress = io::stderr().is_terminal() && models.len() > 1;
    for (i, found) in models.iter().enumerate() {
        if progress {
            let name: String = text::file(&found.file).chars().take(60).collect();
            over(&format!("[{}/{}] {name}", i + 1, models.len()));
        }
        one(&judge, found, progress, &mut output)?;
    }
    if !matches!(models.as_slice(), [Found { file, fault: None }] if *file == check.models[0]) {
        output.counts()?;
    }
    Ok(output.status())
}

/// No model is judged then, and with --json there is a line for each all the same.
fn without_list(check: &Check, why: &str, output: &mut Output) -> io::Result<u8> {
    if !check.form.json {
        complain(why);
        return Ok(WRONG);
    }
    check.models.iter().try_for_each(|file| output.not_judged(file, why))?;
    Ok(WRONG)
}

fn one(judge: &Judge, found: &Found, progress: bool, output: &mut Output) -> io::Result<()> {
    let file = found.file.as_os_str();
    let judged = judged(judge, found);
    if progress {
        over("");
    }
    let judged = match judged {
        Ok(judged) => judged,
        Err(why) => return output.not_judged(file, &why),
    };
    match judged.answer {
        Ok(accepted) => output.accepted(file, accepted, &judged.model),
        Err(refusal) => output.refused(file, refusal, &judge.given(&judged)),
    }
}

fn judged(judge: &Judge, found: &Found) -> Result<Judged, String> {
    match &found.fault {
        Some(why) => Err(why.clone()),
        None => judge.judge(&found.file, input::read(&found.file)?),
    }
}

/// Writes over the progress line.
fn over(text: &str) {
    let _ = write!(io::stderr(), "\r\x1b[K{text}");
}
