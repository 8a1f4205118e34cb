//! The other side of the comparison.
use std::vec::IntoIter;

use crate::case::{get_record, Answer, Case};
#[cfg(feature = "booth")]
use crate::case::{Operand, Refusal};

/// Something that answers cases, asked in order.
pub trait Side {
    fn answer(&mut self, case: &Case) -> Result<Answer, String>;
}

/// Answers that stand in an `ops` list.
pub struct Recorded {
    records: IntoIter<(Case, Answer)>,
}

/// The records of an `ops` list.
pub fn records(name: &str) -> Result<Vec<(Case, Answer)>, String> {
    let bytes = std::fs::read(name).map_err(|e| format!("cannot read {name}: {e}"))?;
    let mut rest = &bytes[..];
    let mut all = vec![];
    while !rest.is_empty() {
        let place = bytes.len() - rest.len();
        all.push(get_record(&mut rest).ok_or(format!("{name}: no record at byte {place}"))?);
    }
    Ok(all)
}

impl Recorded {
    pub fn new(records: Vec<(Case, Answer)>) -> Self {
        Recorded { records: records.into_iter() }
    }
}

impl Side for Recorded {
    fn answer(&mut self, case: &Case) -> Result<Answer, String> {
        match self.records.next() {
            Some((recorded, answer)) if recorded == *case => Ok(answer),
            Some((recorded, _)) => Err(format!("the list has another case here: {recorded:?}")),
            None => Err("the list has no more cases".into()),
        }
    }
}

/// The static library of crate `booth`, linked.
#[cfg(feature = "booth")]
pub struct Linked;

#[cfg(feature = "booth")]
impl Side for Linked {
    fn answer(&mut self, case: &Case) -> Result<Answer, String> {
        let given = |v: &Operand| {
            let mut bytes = vec![v.ty, v.cols, v.rows];
            v.used().iter().for_each(|bits| bytes.extend(bits.to_le_bytes()));
            bytes
        };
        let mut slot = [UNTOUCHED; booth::SLOT];
        let left = given(&case.left);
        let answer = match &case.right {
            None => booth::raw_unary(case.op, case.stage, &left, &mut slot),
            Some(right) => booth::raw_binary(case.op, case.stage, &left, &given(right), &mut slot),
        };
        match answer >> 40 {
            0 => read((answer >> 32) as u8, answer as u32, &slot),
            _ => Err(format!("an answer has bits above 39: {answer:#x}")),
        }
    }
}

/// What a byte of the slot is before the call.
#[cfg(feature = "booth")]
const UNTOUCHED: u8 = 0xaa;

/// What an answer's number and detail say together with the slot that was lent for it.
#[cfg(feature = "booth")]
fn read(number: u8, detail: u32, slot: &[u8; booth::SLOT]) -> Result<Answer, String> {
    if number != 0 && *slot == [UNTOUCHED; booth::SLOT] {
        // A shift's has no operand then, and the report says so.
        return Ok(Answer::Refused(Refusal { number, detail, operand: None }));
    }
    let comps: Vec<u64> = slot[8..].chunks_exact(8).map(|c| u64::from_le_bytes(c.try_into().unwrap())).collect();
    let value = Operand::new(slot[1], slot[2], slot[3], &comps);
    let zeros = comps.iter().skip(value.count()).all(|bits| *bits == 0);
    let said = slot[0] == number && slot[4..8] == detail.to_le_bytes();
    let formed = said && zeros && value.well_formed() && value == value.kept();
    match number {
        0 if formed && detail == 0 => Ok(Answer::Value(value)),
        9 | 10 if formed && value.is_scalar() && matches!(value.ty, 1 | 3 | 4) => {
            Ok(Answer::Refused(Refusal::shift(number, detail, (value.ty, value.comps[0]))))
        }
        0 | 9 | 10 => Err(format!("the slot is not well formed: {slot:02x?}")),
        _ => Err("a refusal has written to the slot".into()),
    }
}
