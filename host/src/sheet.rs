//! Sheets: their entries from bytes, and their bytes from entries.
use std::{fmt, ops::Range};

use crate::{check, Expr, Refusal, Results, Stage, Value};

/// What an entry is: a setting, or an expression of a stage.
#[derive(Clone, Copy, Debug, PartialEq, Eq, Hash)]
pub enum Kind {
    /// Its content may be changed. To the entries that name it, it is of stage Override.
    Setting,
    Expression(Stage),
}

impl Kind {
    /// The stage byte of a record.
    pub fn number(self) -> u8 {
        match self {
            Kind::Setting => 3,
            Kind::Expression(stage) => stage as u8,
        }
    }

    pub fn of(number: u8) -> Option<Kind> {
        match number {
            3 => Some(Kind::Setting),
            _ => Stage::of(number).map(Kind::Expression),
        }
    }

    /// The stage that counts where another entry names this one.
    pub fn stage(self) -> Stage {
        match self {
            Kind::Setting => Stage::Override,
            Kind::Expression(stage) => stage,
        }
    }
}

/// `setting`, `const`, `override` or `exec`.
impl fmt::Display for Kind {
    fn fmt(&self, f: &mut fmt::Formatter) -> fmt::Result {
        match self {
            Kind::Setting => f.write_str("setting"),
            Kind::Expression(stage) => write!(f, "{stage}"),
        }
    }
}

/// One entry of a sheet.
#[derive(Clone, Debug, PartialEq, Eq)]
pub struct Entry {
    pub kind: Kind,
    /// What it says; of a setting, the literal that it has until it is changed.
    pub expr: Expr,
    /// Where its body lies in the sheet's bytes.
    pub body: Range<usize>,
}

/// A sheet for which no check fails.
///
/// ```
/// use booth::{Expr, Refusal, Sheet, Stage};
///
/// let mut builder = Sheet::builder();
/// let cell = builder.setting(5u32);
/// let mask = builder.entry(Stage::Override, Expr::from(1u32) << cell);
/// builder.entry(Stage::Override, mask - 1u32.into());
/// let sheet = builder.build()?;
/// assert_eq!(sheet.bytes().len(), 59);
/// assert_eq!(sheet.entries()[2].expr.to_string(), "#1 - 1u");
/// # Ok::<(), Refusal>(())
/// ```
#[derive(Clone, Debug, PartialEq, Eq)]
pub struct Sheet {
    bytes: Vec<u8>,
    entries: Vec<Entry>,
}

/// Bytes before a record's body: the mark, the stage and the body's length.
const HEAD: usize = 5;

impl Sheet {
    pub const MOST_BYTES: usize = 16_384;
    pub const MOST_ENTRIES: usize = 128;
    pub const MOST_DEEP: usize = 32;

    /// The sheet of these bytes, or the first check that fails.
    pub fn new(bytes: Vec<u8>) -> Result<Sheet, Refusal> {
        let count = check(&bytes)?;
        // An accepted sheet reads; were it not so, this says it without a panic.
        let unread = Refusal::Other { number: 0, detail: count };
        let entries = read_entries(&bytes).filter(|all| all.len() == count as usize).ok_or(unread)?;
        Ok(Sheet { bytes, entries })
    }

    /// A sheet that is put together entry by entry.
    pub fn builder() -> Builder {
        Builder { bytes: Vec::new(), entries: 0 }
    }

    pub fn bytes(&self) -> &[u8] {
        &self.bytes
    }

    /// The entries in order; an entry's number is its place here.
    pub fn entries(&self) -> &[Entry] {
        &self.entries
    }

    /// Works out all entries, settings from their bodies.
    pub fn fold(self) -> Result<Results, Refusal> {
        Results::fresh(self)
    }
}

fn read_entries(sheet: &[u8]) -> Option<Vec<Entry>> {
    let mut entries = Vec::new();
    let mut at = 0;
    while at < sheet.len() {
        let head = sheet.get(at..at + HEAD)?;
        let body = at + HEAD..at + HEAD + usize::from(u16::from_le_bytes([head[3], head[4]]));
        let (expr, _) = Expr::read(sheet.get(body.clone())?, Sheet::MOST_DEEP)?;
        at = body.end;
        entries.push(Entry { kind: Kind::of(head[2])?, expr, body });
    }
    Some(entries)
}

/// Writes a sheet. Each call answers the expression that names the new entry; `build` judges the whole.
#[derive(Clone, Debug)]
pub struct Builder {
    bytes: Vec<u8>,
    entries: usize,
}

impl Builder {
    /// A setting with what it holds until it is changed.
    pub fn setting(&mut self, content: impl Into<Value>) -> Expr {
        self.push(Kind::Setting, &Expr::Literal(content.into()))
    }

    /// An expression that is worked out at a stage.
    pub fn entry(&mut self, stage: Stage, expr: Expr) -> Expr {
        self.push(Kind::Expression(stage), &expr)
    }

    /// An entry of either kind.
    pub fn push(&mut self, kind: Kind, expr: &Expr) -> Expr {
        // A body that two bytes cannot count is longer than any sheet, so `build` refuses it whatever stands there.
        let length = u16::try_from(expr.size()).unwrap_or(u16::MAX);
        self.bytes.extend([0xd5, 0x17, kind.number()]);
        self.bytes.extend(length.to_le_bytes());
        expr.write(&mut self.bytes);
        self.entries += 1;
        // Nor is there a name for an entry past the last: that one is no earlier entry.
        Expr::Entry(u8::try_from(self.entries - 1).unwrap_or(u8::MAX))
    }

    /// The bytes so far.
    pub fn bytes(&self) -> &[u8] {
        &self.bytes
    }

    /// The sheet, if no check fails.
    pub fn build(self) -> Result<Sheet, Refusal> {
        Sheet::new(self.bytes)
    }
}
