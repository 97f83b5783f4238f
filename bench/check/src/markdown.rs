//! Tables in Markdown, aligned so that they also read well on a terminal, and numbers as people write them.

use std::time::Duration;

/// Where a side was not built.
pub const MISSING: &str = "not installed";

pub fn head(names: &[&str]) -> Vec<String> {
    names.iter().map(|name| name.to_string()).collect()
}

/// The first row is the head. The columns in `words` stand left, all others right.
pub fn table(rows: &[Vec<String>], words: &[usize]) -> String {
    let columns = rows.first().map_or(0, Vec::len);
    let widths: Vec<usize> = (0..columns).map(|at| rows.iter().map(|row| width(&row[at])).max().unwrap_or(0)).collect();
    let mut out = String::new();
    for (number, row) in rows.iter().enumerate() {
        out.push_str(&line(row, &widths, words));
        if number == 0 {
            out.push_str(&rule(&widths, words));
        }
    }
    out
}

fn line(row: &[String], widths: &[usize], words: &[usize]) -> String {
    let mut out = String::from("|");
    for (at, cell) in row.iter().enumerate() {
        let space = " ".repeat(widths[at] - width(cell));
        let (before, after) = if words.contains(&at) { ("", space.as_str()) } else { (space.as_str(), "") };
        out.push_str(&format!(" {before}{cell}{after} |"));
    }
    out + "\n"
}

fn rule(widths: &[usize], words: &[usize]) -> String {
    let mut out = String::from("|");
    for (at, width) in widths.iter().enumerate() {
        let end = if words.contains(&at) { "-" } else { ":" };
        out.push_str(&format!("{}{end}|", "-".repeat(width + 1)));
    }
    out + "\n"
}

fn width(cell: &str) -> usize {
    cell.chars().count()
}

/// Three figures.
fn figures(value: f64) -> String {
    match value {
        v if v >= 99.95 => format!("{v:.0}"),
        v if v >= 9.995 => format!("{v:.1}"),
        v => format!("{v:.2}"),
    }
}

/// How many times the other; small ones as a fraction, which reads better than zeros.
pub fn ratio(one: Duration, other: Duration) -> String {
    let value = one.as_secs_f64() / other.as_secs_f64();
    if value < 0.095 {
        return format!("1/{}", count((1.0 / value).round() as u64));
    }
    if value >= 999.5 {
        return count(value.round() as u64);
    }
    figures(value)
}

pub fn time(taken: Duration) -> String {
    let seconds = taken.as_secs_f64();
    let (unit, scale) = match seconds {
        s if s >= 1.0 => ("s", 1.0),
        s if s >= 1e-3 => ("ms", 1e3),
        s if s >= 1e-6 => ("µs", 1e6),
        _ => ("ns", 1e9),
    };
    format!("{} {unit}", figures(seconds * scale))
}

/// 1234567 as 1,234,567.
pub fn count(number: u64) -> String {
    let digits = number.to_string();
    let mut out = String::new();
    for (at, digit) in digits.chars().enumerate() {
        if at > 0 && (digits.len() - at).is_multiple_of(3) {
            out.push(',');
        }
        out.push(digit);
    }
    out
}

/// kB as MB.
pub fn megabytes(kilobytes: u64) -> String {
    let bytes = kilobytes as f64 * 1024.0;
    if bytes < 0.05e6 {
        return "under 0.1".to_string();
    }
    format!("{:.1}", bytes / 1e6)
}
