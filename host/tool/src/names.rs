//! Names of entries: text for people, a line an entry, in a file beside the sheet.
use std::{
    collections::HashSet,
    path::{Path, PathBuf},
};

use booth::{Expr, Sheet};

use crate::{ask, complaint::Complaint, files, text};

/// The longest name, in characters.
pub const LONGEST: usize = 64;

/// A name or none for each entry.
#[derive(Clone, Debug, Default, PartialEq, Eq)]
pub struct Names(pub Vec<Option<String>>);

/// The file of names that belongs to a sheet.
pub fn beside(sheet: &Path) -> PathBuf {
    let mut path = sheet.as_os_str().to_owned();
    path.push(".names");
    path.into()
}

impl Names {
    /// The names beside a sheet with so many entries. Where the file does not fit the sheet, there are none and a sentence says why.
    pub fn read(sheet: &Path, entries: usize) -> (Names, Option<String>) {
        let path = beside(sheet);
        if !path.exists() {
            return (Names::default(), None);
        }
        let most = Sheet::MOST_ENTRIES * (4 * LONGEST + 1);
        let read = files::read(&path, most).map_err(|Complaint { words, .. }| words);
        match read.and_then(|bytes| Names::of(&bytes, entries)) {
            Ok(names) => (names, None),
            Err(why) => (Names::default(), Some(format!("names left out, {}: {why}", path.display()))),
        }
    }

    /// The names in a file's bytes, if it fits a sheet with so many entries.
    pub fn of(bytes: &[u8], entries: usize) -> Result<Names, String> {
        let text = std::str::from_utf8(bytes).map_err(|_| "it is no text".to_owned())?;
        let lines: Vec<&str> = text.lines().collect();
        if lines.len() != entries {
            let found = if lines.len() == 1 { "1 line".to_owned() } else { format!("{} lines", lines.len()) };
            return Err(format!("it has {found}, and the sheet has {}", ask::entries(entries as u64)));
        }
        let mut seen = HashSet::new();
        for (line, name) in (1..).zip(&lines).filter(|(_, name)| !name.is_empty()) {
            judge(name).map_err(|why| format!("line {line} is no name: {why}"))?;
            if !seen.insert(*name) {
                return Err(format!("line {line} has the name {} again", text::quoted(name)));
            }
        }
        Ok(Names(lines.into_iter().map(|name| Some(name.to_owned()).filter(|name| !name.is_empty())).collect()))
    }

    /// The file's text: a line an entry.
    pub fn lines(&self) -> String {
        self.0.iter().map(|name| name.as_deref().unwrap_or("").to_owned() + "\n").collect()
    }

    pub fn get(&self, entry: u32) -> Option<&str> {
        self.0.get(entry as usize)?.as_deref()
    }

    /// What an entry is called: its name, in quotes where it is not one word, or `#0`.
    pub fn write(&self, entry: u32) -> String {
        self.get(entry).map_or_else(|| format!("#{entry}"), text::written)
    }

    /// An expression with the entries called so.
    pub fn expr(&self, expr: &Expr) -> String {
        expr.with_names(&|entry| self.write(entry.into())).to_string()
    }

    /// The entry that a word means: a name, a number, or a number after `#`.
    pub fn find(&self, word: &str) -> Option<u64> {
        match (0..).zip(&self.0).find(|(_, name)| name.as_deref() == Some(word)) {
            Some((entry, _)) => Some(entry),
            None => match word.strip_prefix('#').unwrap_or(word) {
                "" => None,
                // A number that is too large for 64 bits is that of no entry either.
                digits => digits.chars().all(|c| c.is_ascii_digit()).then(|| digits.parse().unwrap_or(u64::MAX)),
            },
        }
    }
}

/// Why some text cannot be a name.
pub fn judge(name: &str) -> Result<(), &'static str> {
    if name.is_empty() || name.trim() != name {
        return Err("it is empty, or a space stands at its end");
    }
    if name.chars().count() > LONGEST {
        return Err("it has more than 64 characters");
    }
    if name.chars().any(char::is_control) {
        return Err("it has a character that does not print");
    }
    if name.starts_with('#') || name.chars().all(|c| c.is_ascii_digit()) {
        return Err("it would be taken for a number");
    }
    Ok(())
}
