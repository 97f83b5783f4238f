//! One JSON object on a line for each file, always with the same keys. Only ASCII comes out.
use crate::explain::{Explanation, Window};
use crate::odd;
use crate::path::Path;
use onnx_gate::{Accepted, Refusal};
use std::ffi::OsStr;
use std::io::{self, Write};
use std::os::unix::ffi::OsStrExt;

/// What is known of a file.
pub enum Verdict<'a> {
    Accepted(Accepted),
    Refused(Refusal, Explanation<'a>),
    NotJudged(&'a str),
}

/// Longer names are cut. Their length is not.
const LONGEST: usize = 1024;

/// What does not apply is null. Names and file names may be any bytes, so that they stand in hex as well.
pub fn object(file: &OsStr, verdict: &Verdict) -> String {
    let error = if let Verdict::NotJudged(why) = verdict { Some(*why) } else { None };
    start(file, verdict).raw("odd_names", None).text("error", error).end()
}

/// Writes the object of an accepted model with its odd names, one by one: there may be millions. What is wrong with the
/// list is known at its end.
pub fn listed(out: &mut impl Write, file: &OsStr, accepted: Accepted, model: &[u8]) -> io::Result<Option<String>> {
    write!(out, "{}", start(file, &Verdict::Accepted(accepted)).raw("odd_names", Some("[")).0)?;
    let mut comma = "";
    let flaw = odd::list(model, accepted.odd, |path, name| {
        write!(out, "{comma}{}", odd_name(path, name))?;
        comma = ",";
        Ok(())
    })?;
    writeln!(out, "{}", Object("]".into()).text("error", flaw.as_deref()).end())?;
    Ok(flaw)
}

fn odd_name(path: &Path, name: &[u8]) -> String {
    Object::new()
        .number("place", path.target().map(|t| t.field.tag as u64))
        .text("path", Some(&path.shown()))
        .name(Some(name))
        .end()
}

/// All members but the last two.
fn start(file: &OsStr, verdict: &Verdict) -> Object {
    let accepted = if let Verdict::Accepted(a) = verdict { Some(a) } else { None };
    let refusal = if let Verdict::Refused(r, _) = verdict { Some(r) } else { None };
    let found = if let Verdict::Refused(_, e) = verdict { Some(e) } else { None };
    let notes: Vec<String> = found.iter().flat_map(|e| &e.notes).map(|note| string(note)).collect();
    Object::new()
        .bytes("file", "file_hex", Some(file.as_bytes()))
        .raw("accepted", accepted.map(|_| "true").or(refusal.map(|_| "false")))
        .number("nodes", accepted.map(|a| a.nodes))
        .number("names", accepted.map(|a| a.names))
        .number("odd", accepted.map(|a| a.odd))
        .number("refusal", refusal.map(|r| r.number))
        .number("place", refusal.map(|r| r.place as u64))
        .number("first", refusal.and_then(|r| r.first).map(|first| first as u64))
        .text("rule", refusal.map(|r| r.name()))
        .text("explanation", refusal.map(|r| r.explanation()))
        .text("path", found.and_then(|e| e.path.as_deref()))
        .name(found.and_then(|e| e.name))
        .raw("notes", Some(&format!("[{}]", notes.join(","))))
        .raw("bytes", found.and_then(|e| e.window.as_ref()).map(window).as_deref())
}

fn window(w: &Window) -> String {
    Object::new()
        .number("start", Some(w.start as u64))
        .text("hex", Some(&hex(w.bytes)))
        .number("field_start", Some(w.field.start as u64))
        .number("field_end", Some(w.field.end as u64))
        .end()
}

/// A JSON object under construction.
struct Object(String);

impl Object {
    fn new() -> Self {
        Object("{".into())
    }

    /// A member whose value is JSON already.
    fn raw(mut self, key: &str, value: Option<&str>) -> Self {
        if !self.0.ends_with('{') {
            self.0.push(',');
        }
        self.0.push_str(&format!("{}:{}", string(key), value.unwrap_or("null")));
        self
    }

    fn number(self, key: &str, value: Option<u64>) -> Self {
        self.raw(key, value.map(|n| n.to_string()).as_deref())
    }

    fn text(self, key: &str, value: Option<&str>) -> Self {
        self.raw(key, value.map(string).as_deref())
    }

    /// As text, in which U+FFFD stands for what is not UTF-8, and as hex.
    fn bytes(self, key: &str, hex_key: &str, value: Option<&[u8]>) -> Self {
        let text = value.map(String::from_utf8_lossy);
        self.text(key, text.as_deref()).text(hex_key, value.map(hex).as_deref())
    }

    /// A name of a model, cut where it is too long.
    fn name(self, name: Option<&[u8]>) -> Self {
        let cut = name.map(|name| &name[..name.len().min(LONGEST)]);
        self.bytes("name", "name_hex", cut).number("name_length", name.map(|n| n.len() as u64))
    }

    fn end(self) -> String {
        self.0 + "}"
    }
}

fn string(text: &str) -> String {
    let mut out = String::from("\"");
    for unit in text.encode_utf16() {
        match unit {
            0x22 => out.push_str("\\\""),
            0x5C => out.push_str("\\\\"),
            0x20..=0x7E => out.push(unit as u8 as char),
            _ => out.push_str(&format!("\\u{unit:04x}")),
        }
    }
    out + "\""
}

fn hex(bytes: &[u8]) -> String {
    bytes.iter().map(|b| format!("{b:02x}")).collect()
}

#[cfg(test)]
mod tests {
    use super::*;

    #[test]
    fn strings_are_escaped() {
        assert_eq!(string("a\"b\\c\n"), "\"a\\\"b\\\\c\\u000a\"");
        assert_eq!(string("é\u{1F600}\u{7f}"), "\"\\u00e9\\ud83d\\ude00\\u007f\"");
    }

    /// A second place is a number with 23 alone.
    #[test]
    fn both_places() {
        for (refusal, expected) in [
            (Refusal { number: 23, place: 16, first: Some(13) }, r#""refusal":23,"place":16,"first":13,"rule":"#),
            (Refusal { number: 30, place: 13, first: None }, r#""refusal":30,"place":13,"first":null,"rule":"#),
        ] {
            let found = object(OsStr::new("m"), &Verdict::Refused(refusal, Explanation::default()));
            assert!(found.contains(expected), "{found}");
        }
        let found = object(OsStr::new("m"), &Verdict::Accepted(Accepted { nodes: 1, names: 1, odd: 0 }));
        assert!(found.contains(r#""place":null,"first":null"#), "{found}");
    }

    #[test]
    fn an_object() {
        let found = object(OsStr::from_bytes(b"m\xff"), &Verdict::NotJudged("gone"));
        let expected = r#"{"file":"m\ufffd","file_hex":"6dff","accepted":null,"nodes":null,"names":null,"odd":null,
"refusal":null,"place":null,"first":null,"rule":null,"explanation":null,"path":null,"name":null,"name_hex":null,
"name_length":null,"notes":[],"bytes":null,"odd_names":null,"error":"gone"}"#;
        assert_eq!(found, expected.replace('\n', ""));
    }

    /// With a list in it an object has the same keys.
    #[test]
    fn an_object_with_a_list() {
        let model = crate::samples::bytes("3A 0C 12 02 61 2F 0A 06 12 01 2F 22 01 58");
        let names = r#"{"place":2,"path":"graph > name","name":"a/","name_hex":"612f","name_length":2},
{"place":8,"path":"graph > node[0] (X) > output[0]","name":"/","name_hex":"2f","name_length":1}"#;
        for (odd, names, model, error) in [
            (0, "", &[][..], "null"),
            (2, names, &model, "null"),
            (3, names, &model, "\"internal error: --odd finds 2 odd names, and the library counts 3\""),
        ] {
            let accepted = Accepted { nodes: 3, names: 2, odd };
            let plain = object(OsStr::new("m"), &Verdict::Accepted(accepted));
            assert!(plain.contains(&format!(r#""nodes":3,"names":2,"odd":{odd},"refusal":null,"#)), "{plain}");
            let list = format!(r#""odd_names":[{}],"error":{error}}}"#, names.replace('\n', "")) + "\n";
            let mut found = Vec::new();
            assert_eq!(listed(&mut found, OsStr::new("m"), accepted, model).unwrap().is_some(), odd == 3);
            assert_eq!(String::from_utf8(found).unwrap(), plain.replace(r#""odd_names":null,"error":null}"#, &list));
        }
    }

    #[test]
    fn long_names_are_cut() {
        let name = [0xFF; LONGEST + 1];
        let found = odd_name(&Path::default(), &name);
        assert!(found.ends_with(&format!(r#""name_hex":"{}","name_length":1025}}"#, hex(&name[1..]))), "{found}");
    }
}
