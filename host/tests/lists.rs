//! The interface over the stored lists of fixed answers: entries, explanations, marks and slots.
mod common;

use booth::{raw_change, raw_change_marks, raw_check, Expr, Kind, Results, Sheet, Slot, Step, SLOT};

use common::{accepted, list, records, Bytes};

/// Every accepted sheet reads to entries that a builder writes to the same bytes, those of NaNs included.
#[test]
fn entries_write_the_same_bytes() {
    let sheets = accepted();
    assert!(sheets.len() > 1_700, "{}", sheets.len());
    for bytes in sheets {
        let sheet = Sheet::new(bytes.clone()).unwrap();
        let mut builder = Sheet::builder();
        for entry in sheet.entries() {
            assert_eq!(entry.expr.size(), entry.body.len());
            assert!(entry.expr.depth() <= Sheet::MOST_DEEP);
            builder.push(entry.kind, &entry.expr);
        }
        assert_eq!(builder.bytes(), bytes);
    }
}

/// Whether the bytes at a step's place, and at the places of those below it, are its node's tag and code.
fn stands_there(sheet: &[u8], step: &Step) -> bool {
    let head = match step.expr {
        Expr::Literal(value) => [1, value.ty() as u8],
        Expr::Entry(number) => [2, *number],
        Expr::Unary(op, _) => [3, *op as u8],
        Expr::Binary(op, ..) => [4, *op as u8],
    };
    sheet[step.place..].starts_with(&head) && step.operands.iter().all(|operand| stands_there(sheet, operand))
}

/// Over fresh results, the explanation of an entry, worked out node by node, ends in what the entry's slot holds.
#[test]
fn explanations_end_in_the_slot() {
    let (mut values, mut refusals) = (0, 0);
    for bytes in accepted() {
        let results = Sheet::new(bytes).unwrap().fold().unwrap();
        let sheet = results.sheet();
        for number in 0..sheet.entries().len() as u32 {
            let step = results.explain(number).unwrap();
            assert_eq!(Some(step.came_to), results.slot(number), "#{number} of {:02x?}", sheet.bytes());
            assert_eq!(results.fits(number), Some(true), "#{number} of {:02x?}", sheet.bytes());
            assert!(stands_there(sheet.bytes(), &step));
            match step.came_to {
                Slot::Value(_) => {
                    values += 1;
                    assert_eq!(step.cause(), None);
                }
                refused => {
                    refusals += 1;
                    assert_eq!(step.cause().map(|cause| cause.came_to), Some(refused));
                }
            }
        }
    }
    assert!(values > 6_000 && refusals > 800, "{values} values, {refusals} refusals");
}

/// The fresh results are the stored ones.
#[test]
fn results_as_stored() {
    let (list, mut seen) = (list("sheets"), 0);
    for mut case in records(&list) {
        let sheet = case.counted().to_vec();
        let length = case.number(4) as usize;
        let (_, number, detail) = (case.number(1), case.number(1), case.number(4));
        let folded = Sheet::new(sheet).and_then(Results::fresh);
        match (number, folded) {
            (0, Ok(results)) => assert_eq!(results.bytes(), case.part(length)),
            // The stored buffer did not fit; the interface makes its own.
            (30, Ok(_)) => {}
            (_, folded) => {
                assert_eq!(folded.map_err(|r| (u64::from(r.number()), u64::from(r.detail()))), Err((number, detail)))
            }
        }
        seen += 1;
    }
    assert!(seen > 4_000, "{seen}");
}

/// Which entries are the setting itself or have a chain of names to it.
fn reached(sheet: &Sheet, setting: usize) -> [u8; Sheet::MOST_ENTRIES] {
    let mut marks = [0; Sheet::MOST_ENTRIES];
    for (number, entry) in sheet.entries().iter().enumerate() {
        let named = entry.expr.names().into_iter().any(|other| marks[usize::from(other)] == 1);
        marks[number] = u8::from(number == setting || named);
    }
    marks
}

/// One stored change, over the results that it is made to.
struct Change<'a> {
    sheet: &'a [u8],
    before: &'a [u8],
    entry: u64,
    ty: u8,
    bits: u64,
    /// The answer, and the results after it.
    answer: u64,
    after: &'a [u8],
}

impl Change<'_> {
    fn with_marks(&self, results: &mut [u8], marks: &mut [u8]) -> u64 {
        raw_change_marks(self.sheet, results, self.entry, self.ty, self.bits, marks)
    }
}

/// Every stored change, handed to a test, and how many were accepted and refused.
fn each_change(test: impl Fn(&Change)) -> (usize, usize) {
    let (list, mut accepted, mut refused) = (list("changes"), 0, 0);
    for mut case in records(&list) {
        let (sheet, mut before) = (case.counted(), case.counted());
        for _ in 0..case.number(2) {
            let (entry, ty, bits) = (case.number(4), case.number(1) as u8, case.number(8));
            let answer = case.number(1) << 32 | case.number(4);
            let after = if case.number(1) == 1 { case.part(before.len()) } else { before };
            test(&Change { sheet, before, entry, ty, bits, answer, after });
            before = after;
            match answer >> 32 {
                0 => accepted += 1,
                _ => refused += 1,
            }
        }
    }
    (accepted, refused)
}

/// A change answers and writes the same with marks and without, and the marks are the entries from which names lead to the setting.
#[test]
fn changes_mark_what_they_work() {
    let seen = each_change(|change| {
        let (mut plain, mut marked, mut marks) =
            (change.before.to_vec(), change.before.to_vec(), [7; Sheet::MOST_ENTRIES]);
        assert_eq!(raw_change(change.sheet, &mut plain, change.entry, change.ty, change.bits), change.answer);
        assert_eq!(change.with_marks(&mut marked, &mut marks), change.answer);
        assert_eq!((&plain[..], &marked[..]), (change.after, change.after));
        if change.answer >> 32 != 0 {
            assert_eq!(marks, [7; Sheet::MOST_ENTRIES], "a refusal marked");
            return;
        }
        let sheet = Sheet::new(change.sheet.to_vec()).unwrap();
        assert_eq!(sheet.entries()[change.entry as usize].kind, Kind::Setting);
        assert_eq!(marks, reached(&sheet, change.entry as usize));
        let dependents = marks.iter().filter(|mark| **mark == 1).count() - 1;
        assert_eq!(dependents as u64, change.answer, "the number of dependents");
    });
    assert!(seen.0 > 2_000 && seen.1 > 1_000, "{seen:?}");
}

/// After a change the explanation of an entry that it worked ends in the entry's slot, also beside slots that hold garbage.
#[test]
fn explanations_after_a_change() {
    each_change(|change| {
        if change.answer >> 32 != 0 {
            return;
        }
        let sheet = Sheet::new(change.sheet.to_vec()).unwrap();
        let marks = reached(&sheet, change.entry as usize);
        let results = Results::of(sheet, change.after.to_vec()).unwrap();
        for number in (0..).zip(marks).filter(|(_, mark)| *mark == 1).map(|(number, _)| number) {
            assert_eq!(results.explain(number).map(|step| step.came_to), results.slot(number), "#{number}");
            assert_eq!(results.fits(number), Some(true), "#{number}");
            assert_ne!(results.slot(number), Some(Slot::Malformed), "#{number}");
        }
    });
}

/// Marks of another length are refused right after the sheet's own checks, and nothing is written.
#[test]
fn marks_of_another_length() {
    let seen = each_change(|change| {
        let sheets_own = raw_check(change.sheet);
        let expected = if sheets_own >> 32 == 0 { 30 << 32 } else { sheets_own };
        for length in [0, 127, 129] {
            let (mut results, mut marks) = (change.before.to_vec(), vec![7; length]);
            assert_eq!(change.with_marks(&mut results, &mut marks), expected, "{length} marks");
            assert_eq!((&results[..], marks), (change.before, vec![7; length]));
        }
    });
    assert!(seen.0 > 2_000 && seen.1 > 1_000, "{seen:?}");
}

/// Bytes are no slot exactly where the list says so.
#[test]
fn slots_as_stored() {
    let list = list("slots");
    let (mut formed, mut malformed) = (0, 0);
    for record in list.chunks(SLOT + 1) {
        let mut record = Bytes(record);
        let mut bytes = [0; SLOT];
        bytes.copy_from_slice(record.part(SLOT));
        let slot = Slot::of(&bytes);
        match record.number(1) {
            0 => {
                malformed += 1;
                assert_eq!(slot, Slot::Malformed, "{bytes:02x?}");
            }
            _ => {
                formed += 1;
                assert_ne!(slot, Slot::Malformed, "{bytes:02x?}");
            }
        }
    }
    assert!(formed > 600 && malformed > 2_000, "{formed} formed, {malformed} malformed");
}
