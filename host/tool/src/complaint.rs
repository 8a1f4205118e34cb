//! What the tool says where it cannot answer, and the status it ends with.
use std::{fmt, io, path::Path};

use booth::Refusal;

/// One or more lines for standard error.
#[derive(Clone, Debug, PartialEq, Eq)]
pub struct Complaint {
    /// 1 refused, 2 wrong use or file.
    pub status: u8,
    pub words: String,
}

/// A question that was asked and refused.
pub fn refused(words: impl fmt::Display) -> Complaint {
    Complaint { status: 1, words: words.to_string() }
}

/// A word or a file that the question cannot be asked with.
pub fn misused(words: impl fmt::Display) -> Complaint {
    Complaint { status: 2, words: words.to_string() }
}

/// A file that cannot be read or written.
pub fn unusable(what: &str, path: &Path, error: &io::Error) -> Complaint {
    misused(format!("cannot {what} {}: {}", path.display(), reason(error)))
}

/// The system's words without its number.
pub fn reason(error: &io::Error) -> String {
    let words = error.to_string();
    words.split(" (os error").next().unwrap_or(&words).to_owned()
}

/// A refusal by name and number.
pub fn called(refusal: Refusal) -> String {
    format!("{} ({})", refusal.name(), refusal.number())
}

/// A refusal by name, number and sentence.
pub fn named(refusal: Refusal) -> String {
    format!("{}: {}", called(refusal), refusal.sentence())
}

/// Text for a terminal: what would steer it is shown as a mark, but for line ends and tabs.
pub fn plain(text: &str) -> String {
    text.chars().map(|c| if c.is_control() && !matches!(c, '\n' | '\t') { '\u{fffd}' } else { c }).collect()
}
