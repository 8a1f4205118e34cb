//! Results: what the entries of a sheet have come to.
use std::{convert::TryInto, fmt};

use crate::{binary, change, fresh, unary, Expr, Kind, Refusal, Scalar, Sheet, Stage, Type, Value, SLOT};

/// What an entry has come to.
#[derive(Clone, Copy, Debug, PartialEq, Eq)]
pub enum Slot {
    Value(Value),
    Refused(Refusal),
    /// The bytes are no slot: nothing that fresh evaluation or a change writes. Whoever names this entry has no value.
    Malformed,
}

impl Slot {
    /// What 136 bytes say.
    pub fn of(bytes: &[u8; SLOT]) -> Slot {
        let detail = u32::from_le_bytes([bytes[4], bytes[5], bytes[6], bytes[7]]);
        let bare = bytes[1..4] == [0; 3] && bytes[8..] == [0; SLOT - 8];
        // A refused shift keeps its left operand, every other refusal nothing.
        let operand = Scalar::of_slot(bytes);
        let formed = match bytes[0] {
            0 => detail == 0,
            1..=8 => bare && detail == 0,
            9 | 10 => operand.is_some(),
            11 => bare && detail < 128,
            _ => false,
        };
        match (formed, Refusal::new(bytes[0], detail, operand)) {
            (false, _) => Slot::Malformed,
            (true, None) => Slot::of_value(bytes),
            (true, Some(refusal)) => Slot::Refused(refusal),
        }
    }

    fn of_value(bytes: &[u8; SLOT]) -> Slot {
        match Value::of_slot(bytes) {
            Ok(value) => {
                let used = 8 + 8 * value.components().len();
                let kept = value == value.kept();
                match kept && bytes[used..].iter().all(|b| *b == 0) {
                    true => Slot::Value(value),
                    false => Slot::Malformed,
                }
            }
            Err(_) => Slot::Malformed,
        }
    }

    /// The value, if there is one.
    pub fn value(&self) -> Option<&Value> {
        match self {
            Slot::Value(value) => Some(value),
            _ => None,
        }
    }

    /// The components in use: a value's, or the one of the operand that a refused shift keeps.
    pub fn components(&self) -> Vec<u64> {
        match self {
            Slot::Value(value) => value.components().to_vec(),
            Slot::Refused(refusal) => refusal.operand().map(Scalar::bits).into_iter().collect(),
            Slot::Malformed => vec![],
        }
    }
}

/// A sheet with its results.
///
/// ```
/// use booth::{Expr, Refusal, Scalar, Sheet, Slot, Stage, Value};
///
/// let mut builder = Sheet::builder();
/// let cell = builder.setting(5u32);
/// builder.entry(Stage::Override, Expr::from(1u32) << cell);
/// let mut results = builder.build()?.fold()?;
/// assert_eq!(results.slot(1), Some(Slot::Value(Value::from(32u32))));
/// assert_eq!(results.set(0, 32u32)?, [1], "the entries that depend on entry 0");
/// let lost = Refusal::ShlOverflow { count: 32, operand: Scalar::from(1u32) };
/// assert_eq!(results.slot(1), Some(Slot::Refused(lost)));
/// # Ok::<(), Refusal>(())
/// ```
#[derive(Clone, Debug, PartialEq, Eq)]
pub struct Results {
    sheet: Sheet,
    slots: Vec<u8>,
}

impl Results {
    /// Works out all entries, settings from their bodies.
    pub fn fresh(sheet: Sheet) -> Result<Results, Refusal> {
        let mut slots = vec![0; SLOT * sheet.entries().len()];
        fresh(sheet.bytes(), &mut slots)?;
        Ok(Results { sheet, slots })
    }

    /// Results that were kept, 136 bytes an entry, whatever they hold.
    pub fn of(sheet: Sheet, slots: Vec<u8>) -> Result<Results, Refusal> {
        match slots.len() == SLOT * sheet.entries().len() {
            true => Ok(Results { sheet, slots }),
            false => Err(Refusal::ResultsSize),
        }
    }

    pub fn sheet(&self) -> &Sheet {
        &self.sheet
    }

    /// All slots, 136 bytes an entry.
    pub fn bytes(&self) -> &[u8] {
        &self.slots
    }

    /// The bytes of an entry's slot, if there is such an entry.
    pub fn slot_bytes(&self, entry: u32) -> Option<&[u8; SLOT]> {
        let start = (entry as usize).checked_mul(SLOT)?;
        self.slots.get(start..)?.get(..SLOT)?.try_into().ok()
    }

    /// What an entry has come to, if there is such an entry.
    pub fn slot(&self, entry: u32) -> Option<Slot> {
        self.slot_bytes(entry).map(Slot::of)
    }

    /// Gives a setting new content, works out the entries that depend on it, and says which those are, in rising order. The content must
    /// be a scalar of the setting's type.
    pub fn set(&mut self, entry: u32, content: impl Into<Value>) -> Result<Vec<u8>, Refusal> {
        let content = content.into();
        match content.components() {
            [bits] => self.set_bits(entry, content.ty(), *bits),
            _ => Err(Refusal::BadValue { place: 0 }),
        }
    }

    /// The same with the content as a type and 8 bytes.
    pub fn set_bits(&mut self, entry: u32, ty: Type, bits: u64) -> Result<Vec<u8>, Refusal> {
        change(self.sheet.bytes(), &mut self.slots, entry.into(), ty as u8, bits)
    }

    /// Whether an entry's slot is what the entry gives over the other slots: a setting some scalar of its type, an expression what it comes
    /// to. So it is for every entry of results that were worked out from this sheet, whatever was changed since.
    pub fn fits(&self, entry: u32) -> Option<bool> {
        let (said, step) = (self.sheet.entries().get(entry as usize)?, self.explain(entry)?);
        Some(match (said.kind, &said.expr, step.came_to) {
            (Kind::Setting, Expr::Literal(body), Slot::Value(value)) => value.is_scalar() && value.ty() == body.ty(),
            (Kind::Setting, ..) => false,
            (Kind::Expression(_), _, gives) => self.slot(entry) == Some(gives),
        })
    }

    /// The expression of an entry, node by node, with what each node came to over the slots as they stand. Of a setting it is one node,
    /// with what its slot holds.
    pub fn explain(&self, entry: u32) -> Option<Step<'_>> {
        let said = self.sheet.entries().get(entry as usize)?;
        match said.kind {
            Kind::Setting => {
                Some(Step { expr: &said.expr, place: said.body.start, came_to: self.slot(entry)?, operands: vec![] })
            }
            Kind::Expression(stage) => Some(self.step(&said.expr, said.body.start, stage)),
        }
    }

    fn step<'a>(&self, expr: &'a Expr, place: usize, stage: Stage) -> Step<'a> {
        let mut operands = Vec::new();
        let mut next = place + 2;
        for operand in expr.operands() {
            operands.push(self.step(operand, next, stage));
            next += operand.size();
        }
        let came_to = self.came_to(expr, &operands, stage);
        Step { expr, place, came_to, operands }
    }

    /// What one node gives. A refusal among its operands, the left one's first, becomes its own.
    fn came_to(&self, expr: &Expr, operands: &[Step], stage: Stage) -> Slot {
        let mut values = [None; 2];
        for (value, operand) in values.iter_mut().zip(operands) {
            match operand.came_to {
                Slot::Value(v) => *value = Some(v),
                refused => return refused,
            }
        }
        let answer = match (expr, values) {
            (Expr::Literal(value), _) => Ok(value.kept()),
            (Expr::Entry(number), _) => match self.slot((*number).into()) {
                Some(Slot::Value(value)) => Ok(value),
                _ => Err(Refusal::FromEntry { entry: (*number).into() }),
            },
            (Expr::Unary(op, _), [Some(v), _]) => unary(*op, stage, &v),
            (Expr::Binary(op, ..), [Some(l), Some(r)]) => binary(*op, stage, &l, &r),
            _ => return Slot::Malformed,
        };
        answer.map_or_else(Slot::Refused, Slot::Value)
    }
}

/// One node of an expression and what it came to.
#[derive(Clone, Debug, PartialEq, Eq)]
pub struct Step<'a> {
    pub expr: &'a Expr,
    /// The place of the node in the sheet's bytes.
    pub place: usize,
    pub came_to: Slot,
    pub operands: Vec<Step<'a>>,
}

impl<'a> Step<'a> {
    /// The node that refused: the first whose operands all have values, or nothing where this node has a value.
    pub fn cause(&self) -> Option<&Step<'a>> {
        match self.came_to {
            Slot::Value(_) => None,
            _ => self.operands.iter().find_map(Step::cause).or(Some(self)),
        }
    }
}

/// The listing: `sheet` and the number of entries, then for each entry its number, status, type, columns, rows, detail and the components in
/// use, which are none where the slot is malformed.
impl fmt::Display for Results {
    fn fmt(&self, f: &mut fmt::Formatter) -> fmt::Result {
        writeln!(f, "sheet {}", self.sheet.entries().len())?;
        for (entry, bytes) in self.slots.chunks_exact(SLOT).enumerate() {
            let detail = u32::from_le_bytes([bytes[4], bytes[5], bytes[6], bytes[7]]);
            write!(f, "{entry} {} {} {} {} {detail}", bytes[0], bytes[1], bytes[2], bytes[3])?;
            let components = self.slot(entry as u32).map_or_else(Vec::new, |slot| slot.components());
            components.iter().try_for_each(|bits| write!(f, " {bits:016x}"))?;
            writeln!(f)?;
        }
        Ok(())
    }
}
