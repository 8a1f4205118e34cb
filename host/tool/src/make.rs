//! The text form of a sheet, read: one entry a line, bytes of a sheet and names from it.
use std::collections::HashMap;

use booth::{Builder, Expr, Kind, Sheet, Stage};

use crate::{
    complaint::{refused, Complaint},
    grammar::Parser,
    lexer::{fault, lexemes, Fault, Lexeme, Token},
    names::{self, Names},
};

/// What the lines so far have said.
pub struct Told {
    names: HashMap<String, u8>,
    kinds: Vec<Kind>,
    /// The names that stand on any line, so that one that comes too late can be told from one that is nowhere.
    later: Vec<String>,
}

/// A sheet and its names from a file's bytes. `source` is what a fault calls it.
pub fn of_bytes(source: &str, bytes: &[u8]) -> Result<(Sheet, Names), Complaint> {
    let error = match std::str::from_utf8(bytes) {
        Ok(text) => return sheet(source, text),
        Err(error) => error.valid_up_to(),
    };
    let start = bytes[..error].iter().rposition(|byte| *byte == b'\n').map_or(0, |place| place + 1);
    let end = bytes[error..].iter().position(|byte| *byte == b'\n').map_or(bytes.len(), |place| error + place);
    let number = 1 + bytes[..start].iter().filter(|byte| **byte == b'\n').count();
    let column = String::from_utf8_lossy(&bytes[start..error]).chars().count();
    let line = String::from_utf8_lossy(&bytes[start..end]);
    Err(shown(source, number, &line, &Fault { at: column..column + 1, words: "this is no text in UTF-8".to_owned() }))
}

/// The same from text.
pub fn sheet(source: &str, text: &str) -> Result<(Sheet, Names), Complaint> {
    // Some editors put a mark of their own before the first line.
    let text = text.strip_prefix('\u{feff}').unwrap_or(text);
    let mut builder = Sheet::builder();
    let mut told =
        Told { names: HashMap::new(), kinds: Vec::new(), later: text.lines().filter_map(declared).collect() };
    let mut all = Names::default();
    for (number, line) in (1..).zip(text.lines()) {
        if let Some(name) = entry(line, &mut told, &mut builder).map_err(|fault| shown(source, number, line, &fault))? {
            all.0.push(name);
        }
    }
    match builder.build() {
        Ok(sheet) => Ok((sheet, all)),
        Err(refusal) => Err(refused(format!("{source}: the sheet is refused: {refusal}"))),
    }
}

/// How much of a long line is shown on either side of a fault.
const AROUND: usize = 80;

/// A fault with its line and column, the line itself, and a mark under the place.
fn shown(source: &str, number: usize, line: &str, fault: &Fault) -> Complaint {
    let from = fault.at.start.saturating_sub(AROUND);
    let mut part: Vec<char> = line.chars().skip(from).take(2 * AROUND + 1).collect();
    if from > 0 {
        part[0] = '…';
    }
    if part.len() > 2 * AROUND {
        part[2 * AROUND] = '…';
    }
    let gap: String = part.iter().take(fault.at.start - from).map(|c| if *c == '\t' { '\t' } else { ' ' }).collect();
    let mark = "^".repeat(fault.at.len().clamp(1, AROUND));
    let text: String = part.into_iter().collect();
    refused(format!("{source}:{number}:{}: {}\n  {text}\n  {gap}{mark}", fault.at.start + 1, fault.words))
}

/// The name that a line declares, if it looks like an entry.
fn declared(line: &str) -> Option<String> {
    match lexemes(line).ok()?.get(1)?.token.clone() {
        Token::Word(name) | Token::Quoted(name) => Some(name),
        _ => None,
    }
}

/// Reads one line into the sheet. Answers nothing for an empty one, and else the entry's name if it has one.
fn entry(line: &str, told: &mut Told, builder: &mut Builder) -> Result<Option<Option<String>>, Fault> {
    let words = lexemes(line)?;
    if words[0].token == Token::End {
        return Ok(None);
    }
    let kind = kind(&words[0])?;
    let number = told.kinds.len();
    if number == Sheet::MOST_ENTRIES {
        return fault(words[0].at.clone(), "a sheet holds 128 entries, and this is one more");
    }
    let name = name(&words[1], number, told)?;
    let mut parser = Parser::new(&words[2..], kind, told);
    let expr = match kind {
        Kind::Setting => parser.setting()?,
        Kind::Expression(_) => parser.definition()?,
    };
    builder.push(kind, &expr);
    let bytes = builder.bytes().len();
    if bytes > Sheet::MOST_BYTES {
        return fault(words[0].at.start..words[words.len() - 1].at.start, too_long(bytes));
    }
    told.kinds.push(kind);
    if let Some(name) = &name {
        told.names.insert(name.clone(), number as u8);
    }
    Ok(Some(name))
}

fn too_long(bytes: usize) -> String {
    format!("the sheet has {bytes} bytes with this entry, and a sheet holds 16384")
}

fn kind(word: &Lexeme) -> Result<Kind, Fault> {
    match &word.token {
        Token::Word(word) if word == "setting" => Ok(Kind::Setting),
        Token::Word(word) if word == "const" => Ok(Kind::Expression(Stage::Const)),
        Token::Word(word) if word == "override" => Ok(Kind::Expression(Stage::Override)),
        Token::Word(word) if word == "exec" => Ok(Kind::Expression(Stage::Exec)),
        _ => fault(word.at.clone(), "an entry begins with setting, const, override or exec"),
    }
}

/// The name that an entry is given, or nothing for one that goes by its number.
fn name(word: &Lexeme, number: usize, told: &Told) -> Result<Option<String>, Fault> {
    let name = match &word.token {
        Token::Entry(given) if *given == number as u64 => return Ok(None),
        Token::Entry(_) => {
            return fault(word.at.clone(), format!("this is entry {number}: write #{number}, or a name"))
        }
        Token::Word(name) if crate::lexer::is_reserved(name) => {
            return fault(
                word.at.clone(),
                format!("{name} has a meaning of its own: take another name, or put it in quotes"),
            );
        }
        Token::Word(name) | Token::Quoted(name) => name,
        _ => return fault(word.at.clone(), "here should stand the entry's name"),
    };
    if let Err(why) = names::judge(name) {
        return fault(word.at.clone(), format!("this is no name: {why}"));
    }
    match told.names.get(name) {
        Some(earlier) => fault(word.at.clone(), format!("entry {earlier} has this name")),
        None => Ok(Some(name.clone())),
    }
}

impl Told {
    /// The earlier entry that a name means, for an entry of this kind.
    pub fn named(&self, name: &str, kind: Kind) -> Result<Expr, String> {
        match self.names.get(name) {
            Some(number) => self.earlier((*number).into(), kind, name),
            None if self.later.iter().any(|other| other == name) => Err(too_late(name)),
            None => Err(format!("there is no entry called {name}")),
        }
    }

    /// The same for a number.
    pub fn numbered(&self, number: u64, kind: Kind) -> Result<Expr, String> {
        self.earlier(number, kind, &format!("#{number}"))
    }

    fn earlier(&self, number: u64, kind: Kind, called: &str) -> Result<Expr, String> {
        let place = usize::try_from(number).unwrap_or(usize::MAX);
        match self.kinds.get(place) {
            None => Err(too_late(called)),
            Some(Kind::Setting) if kind.stage() < Stage::Override => {
                Err(format!("{called} is a setting, which counts as override: a {kind} entry cannot name it"))
            }
            Some(other) if other.stage() > kind.stage() => Err(format!(
                "{called} is {other}: {} {kind} entry cannot name it",
                if kind.stage() == Stage::Override { "an" } else { "a" }
            )),
            Some(_) => Ok(Expr::Entry(place as u8)),
        }
    }
}

fn too_late(called: &str) -> String {
    format!("{called} does not stand above: an entry names earlier ones only")
}
