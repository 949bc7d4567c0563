//! The library's version, and what is wrong with a line.
use crate::c;
use std::error::Error;
use std::fmt;

/// All that a call copies, which gives the length of its text.
fn whole(mut call: impl FnMut(&mut [u8]) -> usize) -> String {
    let mut text = vec![0; 64];
    loop {
        let length = call(&mut text);
        if length <= text.len() {
            text.truncate(length);
            return String::from_utf8(text).expect("the library writes ASCII");
        }
        text.resize(length, 0);
    }
}

/// The version of the library.
///
/// ```
/// assert_eq!(rbbank::version(), env!("CARGO_PKG_VERSION"));
/// ```
pub fn version() -> String {
    // SAFETY: the text is that long.
    whole(|out| unsafe { c::rbbank_version(out.as_mut_ptr(), out.len()) })
}

/// What a line should have been.
#[derive(Clone, Copy, Debug, PartialEq, Eq)]
pub enum LineKind {
    /// A bank's configuration.
    Configuration = 0,
    /// A command of a bank.
    Command = 1,
    /// An event of a site, or a question to it.
    Event = 2,
    /// An entry of a history.
    Entry = 3,
}

/// Why a line isn't taken, as the program says it.
#[derive(Clone, Debug, PartialEq, Eq)]
pub struct LineFault {
    /// In words, which may change.
    pub why: String,
    /// Which character of the line it is about, from 1. None if there was no memory, or if nothing is wrong with the
    /// line itself: an entry is another site's, has an id that is there, or isn't as a site writes it.
    pub column: Option<usize>,
}

impl fmt::Display for LineFault {
    fn fmt(&self, f: &mut fmt::Formatter<'_>) -> fmt::Result {
        match self.column {
            Some(column) => write!(f, "column {column}: {}", self.why),
            None => f.write_str(&self.why),
        }
    }
}

impl Error for LineFault {}

/// Why a line isn't taken under a configuration, which isn't read if the line should have been one. `BadLine` and
/// `BadConfiguration` of a bank or a site have it already; this is for a line of a script or of a history.
///
/// ```
/// use rbbank::{fault_of, LineKind};
///
/// let configuration = r#"{"accounts":[["ann",0]],"sites":2,"version":1}"#;
/// let entry = r#"{"event":{"balance":"ann"},"reply":{"refused":25},"site":0}"#;
/// let fault = fault_of(LineKind::Entry, configuration, entry);
/// assert_eq!(fault.to_string(), "column 47: 25 is out of range: a refusal is 1 to 24");
/// ```
pub fn fault_of(kind: LineKind, configuration: &str, line: &str) -> LineFault {
    fault_of_bytes(kind, configuration.as_bytes(), line.as_bytes())
}

/// The same of the line of this number, from 1, of a text whose first line that isn't blank is a configuration.
pub(crate) fn fault_in(kind: LineKind, text: &[u8], number: u64) -> LineFault {
    let lines: Vec<&[u8]> = text.split(|byte| *byte == b'\n').collect();
    let is_blank = |line: &&[u8]| line.iter().all(|byte| b" \t\r".contains(byte));
    let first = lines.iter().position(|line| !is_blank(line)).unwrap_or(0);
    let at = (number as usize).saturating_sub(1);
    let kind = if at == first {
        LineKind::Configuration
    } else {
        kind
    };
    fault_of_bytes(kind, lines[first], lines.get(at).copied().unwrap_or(b""))
}

fn fault_of_bytes(kind: LineKind, configuration: &[u8], line: &[u8]) -> LineFault {
    // SAFETY: the texts are that long, and nothing overlaps.
    let said = whole(|out| unsafe {
        c::rbbank_error(
            kind as u8,
            configuration.as_ptr(),
            configuration.len(),
            line.as_ptr(),
            line.len(),
            out.as_mut_ptr(),
            out.len(),
        )
    });
    let place = said
        .strip_prefix("column ")
        .and_then(|rest| rest.split_once(": "));
    match place.map(|(column, why)| (column.parse(), why)) {
        Some((Ok(column), why)) => LineFault {
            why: why.to_owned(),
            column: Some(column),
        },
        _ => LineFault {
            why: said,
            column: None,
        },
    }
}
