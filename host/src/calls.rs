//! The calls of the library on Rust's own types.
use crate::{
    raw_binary, raw_change_marks, raw_check, raw_fresh, raw_unary, Binary, Refusal, Scalar, Sheet, Stage, Unary, Value,
    SLOT,
};

/// An operator on one value.
pub fn unary(op: Unary, stage: Stage, operand: &Value) -> Result<Value, Refusal> {
    let mut slot = [0; SLOT];
    let bytes = operand.bytes();
    let answer = raw_unary(op as u8, stage as u8, bytes.as_slice(), &mut slot);
    came_to(answer, &slot)
}

/// An operator on two values.
pub fn binary(op: Binary, stage: Stage, left: &Value, right: &Value) -> Result<Value, Refusal> {
    let mut slot = [0; SLOT];
    let (l, r) = (left.bytes(), right.bytes());
    let answer = raw_binary(op as u8, stage as u8, l.as_slice(), r.as_slice(), &mut slot);
    came_to(answer, &slot)
}

/// The value of a direct call, or its refusal; the slot holds the one, and the operand that goes with the other.
fn came_to(answer: u64, slot: &[u8; SLOT]) -> Result<Value, Refusal> {
    Refusal::of(answer, Scalar::of_slot(slot))?;
    Value::of_slot(slot)
}

/// The number of entries of a sheet, if no check fails.
pub fn check(sheet: &[u8]) -> Result<u32, Refusal> {
    Refusal::of(raw_check(sheet), None)
}

/// Works out all entries of a sheet into `results`, 136 bytes an entry, and says how many there are.
pub fn fresh(sheet: &[u8], results: &mut [u8]) -> Result<u32, Refusal> {
    Refusal::of(raw_fresh(sheet, results), None)
}

/// Gives a setting new content, works out the entries that depend on it, and says which those are, in rising order.
pub fn change(sheet: &[u8], results: &mut [u8], entry: u64, ty: u8, bits: u64) -> Result<Vec<u8>, Refusal> {
    let mut marks = [0; Sheet::MOST_ENTRIES];
    Refusal::of(raw_change_marks(sheet, results, entry, ty, bits, &mut marks), None)?;
    let worked = (0..).zip(marks).filter(|(_, mark)| *mark == 1).map(|(number, _)| number);
    Ok(worked.filter(|number| u64::from(*number) != entry).collect())
}
