//! A refusal as people read it.
use crate::explain::{Explanation, Window};
use crate::odd;
use crate::text::{quoted, Paint};
use onnx_gate::{Accepted, Refusal};
use std::io::{self, Write};

/// The lines under that of the answer.
pub fn lines(refusal: Refusal, e: &Explanation, paint: Paint) -> Vec<String> {
    let mut out = vec![line(paint, "rule", &format!("{}: {}", refusal.name(), refusal.explanation()))];
    out.extend(e.path.as_ref().map(|path| line(paint, "where", path)));
    out.extend(e.name.map(|name| line(paint, "name", &quoted(name))));
    out.extend(e.notes.iter().map(|note| line(paint, "note", note)));
    out.extend(e.window.iter().flat_map(|w| window(paint, w)));
    out
}

/// Writes the odd names that an acceptance counts, a line for each, and gives what is wrong with the list.
pub fn odd_names(out: &mut impl Write, accepted: Accepted, model: &[u8], paint: Paint) -> io::Result<Option<String>> {
    odd::list(model, accepted.odd, |path, name| {
        writeln!(out, "{}", line(paint, "odd", &format!("{}: {}", path.shown(), quoted(name))))
    })
}

fn line(paint: Paint, key: &str, value: &str) -> String {
    format!("  {}  {value}", paint.faint(&format!("{key:5}")))
}

/// The bytes in hex, and under them which are the field's.
fn window(paint: Paint, w: &Window) -> Vec<String> {
    if w.bytes.is_empty() {
        return vec![line(paint, "bytes", "the model is empty")];
    }
    let offset = format!("{}:", w.start);
    let inside = |i: &usize| w.field.contains(&(w.start + i));
    let shown: Vec<String> = w
        .bytes
        .iter()
        .enumerate()
        .map(|(i, b)| if inside(&i) { paint.marked(&format!("{b:02x}")) } else { format!("{b:02x}") })
        .collect();
    let mut out = vec![line(paint, "bytes", &format!("{offset} {}", shown.join(" ")))];
    let marks: Vec<&str> = (0..w.bytes.len()).map(|i| if inside(&i) { "^^" } else { "  " }).collect();
    if marks.contains(&"^^") {
        let more = w.field.end.saturating_sub(w.start + w.bytes.len());
        let more = if more > 0 { format!(" and {more} more") } else { String::new() };
        let under = format!("{} {}{more}", " ".repeat(offset.len()), marks.join(" ").trim_end());
        out.push(line(paint, "", &under));
    }
    out
}

#[cfg(test)]
mod tests {
    use super::*;

    #[test]
    fn the_field_is_marked() {
        let w = Window { start: 9, bytes: b"\x01g\n\t\n\x01a\x12", field: 13..16 };
        let shown = window(Paint(false), &w);
        assert_eq!(shown[0], "  bytes  9: 01 67 0a 09 0a 01 61 12");
        assert_eq!(shown[1], "                        ^^ ^^ ^^");
        let long = window(Paint(false), &Window { start: 0, bytes: &[7; 4], field: 2..9 });
        assert_eq!(long[1], "                  ^^ ^^ and 5 more");
        assert_eq!(window(Paint(false), &Window { start: 0, bytes: &[7; 2], field: 0..0 }).len(), 1);
    }
}
