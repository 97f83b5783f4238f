//! Verdicts as lines, for people or as JSON.
use crate::explain::{explain, Given};
use crate::json::{self, Verdict};
use crate::text::{self, Paint};
use crate::{complain, report, DONE, REFUSED, WRONG};
use onnx_gate::{Accepted, Refusal};
use std::ffi::OsStr;
use std::fs::File;
use std::io::{self, BufWriter, IsTerminal, Write};
use std::os::fd::AsFd;

/// Standard output. Rust's own handle would count bytes as written that its descriptor does not take.
pub fn standard() -> io::Result<File> {
    Ok(io::stdout().as_fd().try_clone_to_owned()?.into())
}

/// Standard error, for what is more than a message.
pub fn errors() -> io::Result<File> {
    Ok(io::stderr().as_fd().try_clone_to_owned()?.into())
}

/// What is written of a verdict: where nothing is asked for, its line and what explains it.
#[derive(Clone, Copy, Debug, Default, PartialEq, Eq)]
pub struct Form {
    pub json: bool,
    pub quiet: bool,
    /// The odd names of what is accepted as well.
    pub odd: bool,
}

/// How lines are written, where to, and how many verdicts there were.
pub struct Output {
    out: File,
    paint: Paint,
    form: Form,
    accepted: usize,
    refused: usize,
    not_judged: usize,
    /// Lists of odd names that are not whole.
    flawed: usize,
}

impl Output {
    pub fn new(out: File, form: Form) -> Self {
        let paint = Paint::wanted(out.is_terminal());
        Output { out, paint, form, accepted: 0, refused: 0, not_judged: 0, flawed: 0 }
    }

    /// The verdict of a text is out before any name is listed.
    pub fn accepted(&mut self, file: &OsStr, accepted: Accepted, model: &[u8]) -> io::Result<()> {
        self.accepted += 1;
        let paint = self.paint;
        match self.form {
            Form { json: true, odd: false, .. } => self.line(&json::object(file, &Verdict::Accepted(accepted))),
            Form { json: true, .. } => self.list(file, |out| json::listed(out, file, accepted, model)),
            Form { quiet: true, .. } => Ok(()),
            Form { odd, .. } => {
                self.line(&format!("{}: {}", text::file(file), paint.good(&accepted.to_string())))?;
                if odd {
                    self.list(file, |out| report::odd_names(out, accepted, model, paint))?;
                }
                Ok(())
            }
        }
    }

    /// What is wrong with a list of names is told: it must not pass for a whole one.
    fn list(
        &mut self,
        file: &OsStr,
        write: impl FnOnce(&mut BufWriter<&File>) -> io::Result<Option<String>>,
    ) -> io::Result<()> {
        let mut out = BufWriter::new(&self.out);
        let flaw = write(&mut out)?;
        out.flush()?;
        if let Some(why) = flaw {
            self.flawed += 1;
            complain(&format!("{}: {why}", text::file(file)));
        }
        Ok(())
    }

    /// The verdict of a text is out before anything is sought that explains it.
    pub fn refused(&mut self, file: &OsStr, refusal: Refusal, given: &Given) -> io::Result<()> {
        self.refused += 1;
        if self.form.json {
            return self.line(&json::object(file, &Verdict::Refused(refusal, explain(given, refusal))));
        }
        self.line(&format!("{}: {}", text::file(file), self.paint.bad(&refusal.to_string())))?;
        if self.form.quiet {
            return Ok(());
        }
        self.line(&report::lines(refusal, &explain(given, refusal), self.paint).join("\n"))
    }

    pub fn not_judged(&mut self, file: &OsStr, why: &str) -> io::Result<()> {
        self.not_judged += 1;
        complain(&format!("{}: {why}", text::file(file)));
        if self.form.json {
            return self.line(&json::object(file, &Verdict::NotJudged(why)));
        }
        Ok(())
    }

    /// The last line for people. For programs each line is a file.
    pub fn counts(&mut self) -> io::Result<()> {
        if self.form.json {
            return Ok(());
        }
        self.line(&format!("{} accepted, {} refused, {} not judged", self.accepted, self.refused, self.not_judged))
    }

    /// 0 only where something was accepted and all else as well.
    pub fn status(&self) -> u8 {
        match (self.accepted, self.refused, self.not_judged + self.flawed) {
            (1.., 0, 0) => DONE,
            (_, 1.., 0) => REFUSED,
            _ => WRONG,
        }
    }

    fn line(&mut self, text: &str) -> io::Result<()> {
        self.out.write_all(format!("{text}\n").as_bytes())
    }
}

#[cfg(test)]
mod tests {
    use super::*;
    use std::io::Read;
    use std::os::fd::OwnedFd;

    /// What is written for a model with one odd name, and the exit status, if the library counts so many.
    fn written(odd: u64, form: Form) -> (String, u8) {
        let (mut ours, theirs) = io::pipe().unwrap();
        let mut output = Output::new(OwnedFd::from(theirs).into(), form);
        let model = crate::samples::bytes("3A 03 12 01 2F");
        output.accepted(OsStr::new("m"), Accepted { nodes: 0, names: 0, odd }, &model).unwrap();
        let status = output.status();
        drop(output);
        let mut text = String::new();
        ours.read_to_string(&mut text).unwrap();
        (text, status)
    }

    #[test]
    fn a_list_that_differs_from_the_count() {
        let line = |odd| format!("m: accepted nodes 0 names 0 odd {odd}\n");
        let list = |odd| line(odd) + "  odd    graph > name: \"/\"\n";
        let form = Form { odd: true, ..Form::default() };
        assert_eq!(written(1, form), (list(1), DONE));
        assert_eq!(written(2, form), (list(2), WRONG));
        assert_eq!(written(2, Form::default()), (line(2), DONE));
        let json = Form { json: true, ..form };
        for (odd, status, error) in [(1, DONE, r#""error":null}"#), (0, WRONG, r#""error":"internal error: "#)] {
            let (text, found) = written(odd, json);
            assert!(found == status && text.contains(error) && text.contains(r#""accepted":true,"#), "{text}");
        }
    }
}
