//! The values of options.
use crate::text;
use std::ffi::OsStr;
use std::os::unix::ffi::OsStrExt;
use std::str::FromStr;

/// No model needs as many as it has bytes.
const MOST_CELLS: usize = onnx_gate::LARGEST_MODEL;

pub fn cells(value: &OsStr) -> Result<usize, String> {
    let number = value.to_str().and_then(decimal);
    let fits = number.filter(|n| *n <= MOST_CELLS);
    fits.ok_or_else(|| wrong("--cells", value, &format!("a number from 0 to {MOST_CELLS}")))
}

pub fn seed(value: &OsStr) -> Result<u64, String> {
    let number = value.to_str().and_then(|text| match text.strip_prefix("0x") {
        Some(digits) if digits.bytes().all(|b| b.is_ascii_hexdigit()) => u64::from_str_radix(digits, 16).ok(),
        Some(_) => None,
        None => decimal(text),
    });
    number.ok_or_else(|| wrong("--seed", value, "a number below 2^64, in digits or in 0x and hex digits"))
}

/// `DOMAIN:LO-HI` or `DOMAIN:V`.
pub fn allowed(value: &OsStr) -> Result<(String, u32, u32), String> {
    let parsed = value.to_str().and_then(|text| {
        let (domain, versions) = text.rsplit_once(':')?;
        let (lowest, highest) = versions.split_once('-').unwrap_or((versions, versions));
        Some((domain.to_string(), decimal(lowest)?, decimal(highest)?))
    });
    parsed.ok_or_else(|| wrong("--allow", value, "of the form DOMAIN:LOWEST-HIGHEST, as in ai.onnx:7-21"))
}

fn wrong(option: &str, value: &OsStr, expected: &str) -> String {
    format!("{option} {} is not {expected}", text::quoted(value.as_bytes()))
}

/// Digits only: `parse` alone would take a sign.
fn decimal<N: FromStr>(text: &str) -> Option<N> {
    Some(text).filter(|t| t.bytes().all(|b| b.is_ascii_digit())).and_then(|t| t.parse().ok())
}
