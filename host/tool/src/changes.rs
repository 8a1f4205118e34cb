//! Changes of settings: words read by the setting's own type, and what moved.
use std::collections::BTreeSet;

use booth::{Expr, Refusal, Results, Value};
use serde_json::{json, Value as Json};

use crate::{
    ask::{without_value, Asked},
    complaint::{misused, named, refused, Complaint},
};

/// What some changes did to results, from the proved marks of each change and a comparison of all bytes before and after.
#[derive(Debug, PartialEq, Eq)]
pub struct Moved {
    /// The settings and what they were given.
    pub given: Vec<(u32, Value)>,
    /// The entries that had to move: those that depend on one of the settings.
    pub had_to: Vec<u32>,
    /// Those of them whose bytes are others now.
    pub changed: Vec<u32>,
    /// All other slots whose bytes are others now.
    pub others: Vec<u32>,
    /// The entries that have no value now, whether or not they moved.
    pub without: Vec<u32>,
}

/// Makes changes such as `0=32`, `cell=0x20` or `scale=1.5f` one after another.
pub fn make(asked: &Asked, results: &mut Results, words: &[String]) -> Result<Moved, Complaint> {
    let before = results.clone();
    let mut given = Vec::new();
    let mut worked = BTreeSet::new();
    for word in words {
        let (entry, content) = read(asked, word)?;
        let dependents =
            results.set(entry, content).map_err(|refusal| refused(format!("{word}: {}", named(refusal))))?;
        given.push((entry, content));
        worked.extend(dependents.into_iter().map(u32::from));
    }
    let differs = |entry: &u32| before.slot_bytes(*entry) != results.slot_bytes(*entry);
    let is_given = |entry: &u32| given.iter().any(|(setting, _)| setting == entry);
    let all = 0..results.sheet().entries().len() as u32;
    Ok(Moved {
        changed: worked.iter().copied().filter(differs).collect(),
        others: all.filter(|entry| !worked.contains(entry) && !is_given(entry) && differs(entry)).collect(),
        had_to: worked.into_iter().collect(),
        without: without_value(results),
        given,
    })
}

/// The entry and the content of one word.
fn read(asked: &Asked, word: &str) -> Result<(u32, Value), Complaint> {
    let parts = word.rsplit_once('=').filter(|(name, content)| !name.is_empty() && !content.is_empty());
    let (name, content) = parts.ok_or_else(|| misused(format!("{word}: write ENTRY=CONTENT, as 0=32")))?;
    let entry = asked.setting(name, word)?;
    match &asked.sheet.entries()[entry as usize].expr {
        Expr::Literal(old) => {
            let content = Value::read_as(old.ty(), content);
            content.map(|content| (entry, content)).map_err(|why| misused(format!("{word}: {why}")))
        }
        // No setting of an accepted sheet is anything else.
        _ => Err(refused(format!("{word}: {}", named(Refusal::NotASetting)))),
    }
}

impl Moved {
    /// Three lines: which entries had to move, which of them changed, and whether any other did.
    pub fn lines(&self, asked: &Asked) -> String {
        let list = |entries: &[u32]| match entries.len() {
            0 => "none".to_owned(),
            _ => entries.iter().map(|entry| asked.names.write(*entry)).collect::<Vec<_>>().join(", "),
        };
        format!(
            "had to move: {}\nchanged their bytes: {}\nany other slot changed (compared byte by byte): {}\n",
            list(&self.had_to),
            list(&self.changed),
            list(&self.others)
        )
    }

    pub fn json(&self) -> Json {
        let given: Vec<Json> = self
            .given
            .iter()
            .map(|(entry, content)| json!({ "entry": entry, "content": content.to_string() }))
            .collect();
        json!({
            "set": given,
            "had_to_move": self.had_to,
            "changed": self.changed,
            "others_changed": self.others,
            "no_value": self.without,
        })
    }
}
