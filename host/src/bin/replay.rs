//! `replay ops|sheets|changes FILE`: asks the library every case of a list of fixed answers and compares each answer, detail and byte.
//! Numbers in a list stand low byte first. Ends with status 1 at the first wrong answer.
use std::{env, fs, process::ExitCode};

use booth::{raw_binary, raw_change, raw_check, raw_fresh, raw_unary, SLOT};

/// What is left of a list or of one record. Each reader gives nothing where too few bytes are left.
struct Bytes<'a>(&'a [u8]);

impl<'a> Bytes<'a> {
    fn part(&mut self, length: usize) -> Option<&'a [u8]> {
        let part = self.0.get(..length)?;
        self.0 = &self.0[length..];
        Some(part)
    }

    fn number(&mut self, bytes: usize) -> Option<u64> {
        Some(self.part(bytes)?.iter().rev().fold(0, |n, b| n << 8 | u64::from(*b)))
    }

    fn byte(&mut self) -> Option<u8> {
        Some(self.part(1)?[0])
    }

    /// A part after its length in four bytes.
    fn counted(&mut self) -> Option<&'a [u8]> {
        let length = self.number(4)? as usize;
        self.part(length)
    }

    /// Number in one byte and detail in four, as the library answers them.
    fn answer(&mut self) -> Option<u64> {
        Some(u64::from(self.byte()?) << 32 | self.number(4)?)
    }

    /// An operand of a list as the library takes it: as many components as its shape has, those not given being 0.
    fn operand(&mut self) -> Option<Vec<u8>> {
        let head = self.part(3)?;
        let count = usize::from(self.byte()?);
        let mut all = [head, self.part(8 * count)?].concat();
        let used = usize::from(head[1]) * usize::from(head[2]);
        if used <= 16 {
            all.resize(3 + 8 * used, 0);
        }
        Some(all)
    }
}

/// Whether one case of an `ops` list is answered as it says; nothing if the bytes are no case.
fn operator(case: &mut Bytes) -> Option<bool> {
    let (kind, op, stage) = (case.byte()?, case.byte()?, case.byte()?);
    let left = case.operand()?;
    let mut slot = [0x5a; SLOT];
    let answer = match kind {
        1 => raw_unary(op, stage, &left, &mut slot),
        _ => raw_binary(op, stage, &left, &case.operand()?, &mut slot),
    };
    let expected = case.answer()?;
    let value = case.operand()?;
    let mut after = [0x5a; SLOT];
    // A value fills the slot, and so does the operand of a refused shift; every other refusal leaves it.
    if matches!(expected >> 32, 0 | 9 | 10) {
        after = [0; SLOT];
        after[0] = (expected >> 32) as u8;
        after[1..4].copy_from_slice(&value[..3]);
        after[4..8].copy_from_slice(&(expected as u32).to_le_bytes());
        after[8..5 + value.len()].copy_from_slice(&value[3..]);
    }
    Some(answer == expected && slot == after)
}

/// The same for a `sheets` list.
fn sheet(case: &mut Bytes) -> Option<bool> {
    let sheet = case.counted()?;
    let length = case.number(4)? as usize;
    let mut results = vec![case.byte()?; length];
    let expected = case.answer()?;
    let after = if expected >> 32 == 0 { case.part(length)?.to_vec() } else { results.clone() };
    let answer = raw_fresh(sheet, &mut results);
    let check = raw_check(sheet);
    // ResultsSize is judged after the sheet.
    let checked = if expected >> 32 == 30 { check >> 32 == 0 } else { check == expected };
    Some(answer == expected && checked && results == after)
}

/// The same for a `changes` list: changes one after another over one buffer.
fn changes(case: &mut Bytes) -> Option<bool> {
    let sheet = case.counted()?;
    let mut results = case.counted()?.to_vec();
    for _ in 0..case.number(2)? {
        let (entry, ty, bits) = (case.number(4)?, case.byte()?, case.number(8)?);
        let expected = case.answer()?;
        let after = if case.byte()? == 1 { case.part(results.len())?.to_vec() } else { results.clone() };
        if raw_change(sheet, &mut results, entry, ty, bits) != expected || results != after {
            return Some(false);
        }
    }
    Some(true)
}

fn replay(list: &[u8], head: usize, right: fn(&mut Bytes) -> Option<bool>) -> Result<usize, String> {
    let mut list = Bytes(list);
    let mut count = 0;
    while !list.0.is_empty() {
        let length = list.number(head).ok_or("cut short")? as usize;
        let mut case = Bytes(list.part(length).ok_or("cut short")?);
        match right(&mut case) {
            Some(true) if case.0.is_empty() => count += 1,
            Some(false) => return Err(format!("case {count} is answered otherwise")),
            _ => return Err(format!("case {count} is no case")),
        }
    }
    Ok(count)
}

fn main() -> ExitCode {
    let words: Vec<String> = env::args().skip(1).collect();
    let words: Vec<&str> = words.iter().map(String::as_str).collect();
    let (name, head, right): (_, _, fn(&mut Bytes) -> Option<bool>) = match words[..] {
        ["ops", name] => (name, 2, operator),
        ["sheets", name] => (name, 4, sheet),
        ["changes", name] => (name, 4, changes),
        _ => {
            eprintln!("replay ops|sheets|changes FILE");
            return ExitCode::from(2);
        }
    };
    let list = fs::read(name).map_err(|e| format!("cannot read it: {e}"));
    match list.and_then(|list| replay(&list, head, right)) {
        Ok(count) => {
            println!("{name}: {count} cases right");
            ExitCode::SUCCESS
        }
        Err(words) => {
            eprintln!("{name}: {words}");
            ExitCode::FAILURE
        }
    }
}
