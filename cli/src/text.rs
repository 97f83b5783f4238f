//! Names and messages as text that is safe to print. Names may be any bytes, and only printable ASCII comes out: what
//! else would act on a terminal depends on its encoding and on its Unicode tables.
use std::ffi::OsStr;
use std::os::unix::ffi::OsStrExt;

/// Longer names are cut: a hostile one has megabytes.
const LONGEST: usize = 60;

/// In quotes, with everything that is not printable escaped.
pub fn quoted(bytes: &[u8]) -> String {
    if bytes.len() <= LONGEST {
        return format!("\"{}\"", escaped(bytes, "\"\\"));
    }
    format!("\"{}\"... ({} bytes)", escaped(&bytes[..LONGEST], "\"\\"), bytes.len())
}

/// The same without quotes.
pub fn bare(bytes: &[u8]) -> String {
    if bytes.len() <= LONGEST {
        return escaped(bytes, "\"\\");
    }
    format!("{}...", escaped(&bytes[..LONGEST], "\"\\"))
}

/// A file's name, whole and on one line.
pub fn file(name: &OsStr) -> String {
    escaped(name.as_bytes(), "\\")
}

/// A message that may quote what somebody else wrote. What is escaped in it already stays as it is.
pub fn message(text: &str) -> String {
    escaped(text.as_bytes(), "")
}

/// The same, cut where it is longer than anybody reads.
pub fn cut(text: &str) -> String {
    message(text).chars().take(200).collect()
}

/// `special` are the printable characters that get a backslash.
fn escaped(bytes: &[u8], special: &str) -> String {
    let mut out = String::new();
    for chunk in bytes.utf8_chunks() {
        for c in chunk.valid().chars() {
            match c {
                ' '..='~' if !special.contains(c) => out.push(c),
                _ => out.extend(c.escape_default()),
            }
        }
        for byte in chunk.invalid() {
            out.push_str(&format!("\\x{byte:02x}"));
        }
    }
    out
}

/// A number with the sign that the wire's 64 bits give it.
pub fn signed(number: u64) -> i64 {
    number as i64
}

/// Colours on a terminal, nothing elsewhere.
#[derive(Clone, Copy)]
pub struct Paint(pub bool);

impl Paint {
    /// Asked for by no one else: https://no-color.org.
    pub fn wanted(terminal: bool) -> Paint {
        let set = |name| std::env::var_os(name).is_some_and(|v| !v.is_empty());
        Paint(terminal && !set("NO_COLOR") && std::env::var_os("TERM").is_none_or(|t| t != "dumb"))
    }

    fn with(self, code: &str, text: &str) -> String {
        if self.0 {
            format!("\x1b[{code}m{text}\x1b[0m")
        } else {
            text.into()
        }
    }

    pub fn good(self, text: &str) -> String {
        self.with("32", text)
    }

    pub fn bad(self, text: &str) -> String {
        self.with("1;31", text)
    }

    pub fn marked(self, text: &str) -> String {
        self.with("1;33", text)
    }

    pub fn faint(self, text: &str) -> String {
        self.with("2", text)
    }
}

#[cfg(test)]
mod tests {
    use super::*;

    #[test]
    fn any_bytes_are_printable() {
        assert_eq!(quoted(b"conv1"), "\"conv1\"");
        assert_eq!(quoted(b"a\"\n\x1b\xff"), "\"a\\\"\\n\\u{1b}\\xff\"");
        assert_eq!(quoted("\u{202e}it's é".as_bytes()), "\"\\u{202e}it's \\u{e9}\"");
        assert!(quoted(&[b'a'; 1000]).ends_with("aaa\"... (1000 bytes)"));
        assert_eq!(file(OsStr::new("a\x1b[2Jb's \"x\".onnx")), "a\\u{1b}[2Jb's \"x\".onnx");
        assert_eq!(message("no option \"\\u{1b}\"\u{85}\n"), "no option \"\\u{1b}\"\\u{85}\\n");
    }

    #[test]
    fn no_character_but_printable_ascii_comes_out() {
        let printable = |text: String| text.bytes().all(|b| (b' '..=b'~').contains(&b));
        for c in '\0'..=char::MAX {
            let text = c.to_string();
            assert!(printable(quoted(text.as_bytes())) && printable(file(OsStr::new(&text))), "{c:?}");
        }
        for byte in 0..=255 {
            assert!(printable(bare(&[byte])) && printable(file(OsStr::from_bytes(&[byte]))), "{byte}");
        }
    }

    /// Two names never look the same.
    #[test]
    fn file_names_are_told_apart() {
        let names: [&[u8]; 5] = [b"\\x1b", b"\x1b", b"\xff", b"\\xff", "\u{fffd}".as_bytes()];
        let shown: std::collections::BTreeSet<String> = names.iter().map(|n| file(OsStr::from_bytes(n))).collect();
        assert_eq!(shown.len(), names.len(), "{shown:?}");
    }
}
