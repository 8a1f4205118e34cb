//! What every command asks first: the sheet, its names and its results.
use std::path::Path;

use booth::{Kind, Refusal, Results, Sheet, SLOT};

use crate::{
    check,
    complaint::{called, misused, named, refused, Complaint},
    files,
    names::Names,
};

/// A sheet that was accepted, with what people call its entries.
pub struct Asked {
    pub sheet: Sheet,
    pub names: Names,
    /// What is to be said beside the answer, on standard error.
    pub note: Option<String>,
}

/// The sheet in a file. A refused one is shown with the bytes around the place.
pub fn sheet(path: &Path) -> Result<Asked, Complaint> {
    let bytes = files::read(path, Sheet::MOST_BYTES)?;
    match Sheet::new(bytes.clone()) {
        Ok(sheet) => {
            let (names, note) = Names::read(path, sheet.entries().len());
            Ok(Asked { sheet, names, note })
        }
        Err(refusal) => Err(refused(check::shown(path, &bytes, refusal))),
    }
}

impl Asked {
    /// The results in a file, or fresh ones.
    pub fn results(&self, path: Option<&Path>) -> Result<Results, Complaint> {
        let path = match path {
            Some(path) => path,
            None => return Results::fresh(self.sheet.clone()).map_err(|refusal| refused(named(refusal))),
        };
        const MOST: usize = Sheet::MOST_ENTRIES * SLOT;
        let bytes = files::read(path, MOST)?;
        let count = self.sheet.entries().len();
        // Of a file that is too long no more was read than that.
        let found = if bytes.len() > MOST { "more".to_owned() } else { bytes.len().to_string() };
        let sizes = format!("{} take {} bytes, and it has {found}", entries(count as u64), count * SLOT);
        Results::of(self.sheet.clone(), bytes)
            .map_err(|refusal| refused(format!("{}: {}; {sizes}", path.display(), named(refusal))))
    }

    /// A sentence where results are not of this sheet: which slots do not hold what their expressions give over the other slots. Nothing
    /// refuses such results, so they are shown and changed as they stand.
    pub fn doubt(&self, path: &Path, results: &Results) -> Option<String> {
        let all = 0..self.sheet.entries().len() as u32;
        let strange: Vec<String> =
            all.filter(|entry| results.fits(*entry) == Some(false)).map(|entry| self.names.write(entry)).collect();
        let words = format!(
            "{}: not worked out from this sheet: the slot of {} is not what its entry gives over the other slots. \
             `booth fresh` makes results anew",
            path.display(),
            strange.join(", of ")
        );
        Some(words).filter(|_| !strange.is_empty())
    }

    /// A line that names the entries without a value, if there are any.
    pub fn without_line(&self, results: &Results) -> String {
        let names: Vec<String> = without_value(results).into_iter().map(|entry| self.names.write(entry)).collect();
        match names.len() {
            0 => String::new(),
            _ => format!("no value: {}\n", names.join(", ")),
        }
    }

    /// The setting that a word means; `whole` is what a refusal quotes.
    pub fn setting(&self, word: &str, whole: &str) -> Result<u32, Complaint> {
        let number = self.number(word)?;
        let why = match usize::try_from(number).ok().and_then(|place| self.sheet.entries().get(place)) {
            Some(entry) if entry.kind == Kind::Setting => return Ok(number as u32),
            Some(entry) => format!("entry {number} is no setting, its stage is {}", entry.kind),
            None => format!("there is no entry {word}, the sheet has {}", entries(self.sheet.entries().len() as u64)),
        };
        Err(refused(format!("{whole}: {}: {why}", called(Refusal::NotASetting))))
    }

    /// The entry that a word means.
    pub fn entry(&self, word: &str) -> Result<u32, Complaint> {
        let count = self.sheet.entries().len() as u64;
        match self.number(word)? {
            entry if entry < count => Ok(entry as u32),
            _ => Err(refused(format!("there is no entry {word}: the sheet has {}", entries(count)))),
        }
    }

    /// The number that a word means, whether or not there is such an entry.
    pub fn number(&self, word: &str) -> Result<u64, Complaint> {
        let unknown = || misused(format!("there is no entry called {word}; {}", self.known()));
        self.names.find(word).ok_or_else(unknown)
    }

    /// A sentence on what the entries are called.
    pub fn known(&self) -> String {
        let names: Vec<&str> = self.names.0.iter().flatten().map(String::as_str).collect();
        match names.len() {
            0 => "the sheet has no names, so entries go by their numbers".to_owned(),
            _ => format!("the sheet's names are {}", names.join(", ")),
        }
    }
}

/// The entries without a value.
pub fn without_value(results: &Results) -> Vec<u32> {
    let has_none = |entry: &u32| results.slot(*entry).map_or(true, |slot| slot.value().is_none());
    (0..results.sheet().entries().len() as u32).filter(has_none).collect()
}

/// `1 entry`, `3 entries`.
pub fn entries(count: u64) -> String {
    match count {
        1 => "1 entry".to_owned(),
        _ => format!("{count} entries"),
    }
}
