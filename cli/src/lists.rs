//! `onnx-gate operators` and `onnx-gate rules`, and what messages say of a list.
use crate::{complain, input, output, text, DONE, REFUSED, WRONG};
use onnx_gate::operators::{self, canonical};
use std::ffi::OsStr;
use std::io::{self, Write};

/// A longer list is not taken apart to say what is wrong with it: that takes memory in proportion.
const LONGEST: usize = 1 << 16;

pub fn write(file: &OsStr, list: &[u8]) -> io::Result<u8> {
    if file == "-" {
        output::standard()?.write_all(list)?;
        return Ok(DONE);
    }
    if let Err(why) = std::fs::write(file, list) {
        complain(&format!("{}: {why}", text::file(file)));
        return Ok(WRONG);
    }
    Ok(DONE)
}

pub fn show(file: &OsStr) -> io::Result<u8> {
    let list = match input::read_list(file) {
        Ok(list) => list,
        Err(why) => {
            complain(&format!("{}: {why}", text::file(file)));
            return Ok(WRONG);
        }
    };
    if !operators::is_sound(&list) {
        complain(&unsound(file, &list));
        return Ok(REFUSED);
    }
    let mut out = io::BufWriter::new(output::standard()?);
    for (domain, (lowest, highest)) in entries(&list) {
        writeln!(out, "{}:{lowest}-{highest}", text::bare(canonical(domain)))?;
    }
    out.flush().map(|()| DONE)
}

pub fn rules() -> io::Result<u8> {
    let mut out = io::BufWriter::new(output::standard()?);
    for r in onnx_gate::RULES {
        writeln!(out, "{:2}  {:24}  {}", r.number, r.name, r.explanation)?;
    }
    out.flush().map(|()| DONE)
}

/// A message about a list that the library finds unsound.
pub fn unsound(file: &OsStr, list: &[u8]) -> String {
    let why = fault(list).map_or(String::new(), |fault| format!(": {fault}"));
    format!("{} is not a sound operator list{why}", text::file(file))
}

/// What is wrong with a list, where that can be said.
pub fn fault(list: &[u8]) -> Option<String> {
    if list.len() > LONGEST {
        return Some(format!("it has {} bytes, too many to say why", list.len()));
    }
    operators::read(list).err().map(|fault| text::cut(&fault.to_string()))
}

/// The lowest and highest version that a sound list allows of a domain.
pub fn versions(list: &[u8], domain: &[u8]) -> Option<(u32, u32)> {
    entries(list).find(|(listed, _)| canonical(listed) == domain).map(|(_, versions)| versions)
}

/// The entries of a sound list, one after the other: there may be millions.
fn entries(list: &[u8]) -> impl Iterator<Item = (&[u8], (u32, u32))> {
    let mut rest = list.get(5..).unwrap_or_default();
    std::iter::from_fn(move || {
        let (length, after) = rest.split_first_chunk::<2>()?;
        let (entry, after) = after.split_at_checked(u16::from_be_bytes(*length).into())?;
        let (start, highest) = entry.split_last_chunk::<4>()?;
        let (domain, lowest) = start.split_last_chunk::<4>()?;
        rest = after;
        Some((domain, (u32::from_be_bytes(*lowest), u32::from_be_bytes(*highest))))
    })
}

#[cfg(test)]
mod tests {
    use super::*;

    #[test]
    fn entries_of_a_list() {
        let list = operators::write(&[("", 7, 21), ("x.y", 1, u32::MAX)]).unwrap();
        assert_eq!(versions(&list, b"ai.onnx"), Some((7, 21)));
        assert_eq!(versions(&list, b"x.y"), Some((1, u32::MAX)));
        assert_eq!(versions(&list, b"x"), None);
        for end in 0..list.len() {
            assert!(entries(&list[..end]).count() < 2);
        }
    }

    #[test]
    fn faults_are_short() {
        let long = "\u{85}".repeat(30_000);
        let list = [&[0, 0, 0xEA, 0x6B, 1, 0xEA, 0x68][..], long.as_bytes(), &[0; 8]].concat();
        let why = fault(&list).unwrap();
        assert!(why.is_ascii() && why.len() < 1000, "{why}");
        assert!(fault(&vec![0; LONGEST + 1]).unwrap().ends_with("too many to say why"));
    }
}
