//! Sheets: the worked example, the refusals of a sheet with their places, and the order of a change's checks.
use booth::{change, check, fresh, Refusal, Scalar, Sheet, Slot, Type, Value, SLOT};

const SHEET: [u8; 59] = [
    0xd5, 0x17, 3, 12, 0, 1, 4, 1, 1, 5, 0, 0, 0, 0, 0, 0, 0, //
    0xd5, 0x17, 1, 16, 0, 4, 17, 1, 4, 1, 1, 1, 0, 0, 0, 0, 0, 0, 0, 2, 0, //
    0xd5, 0x17, 1, 16, 0, 4, 4, 2, 1, 1, 4, 1, 1, 1, 0, 0, 0, 0, 0, 0, 0,
];

#[test]
fn the_example() {
    let mut results = Sheet::new(SHEET.to_vec()).unwrap().fold().unwrap();
    assert_eq!(
        results.to_string(),
        "sheet 3\n0 0 4 1 1 0 0000000000000005\n1 0 4 1 1 0 0000000000000020\n2 0 4 1 1 0 000000000000001f\n"
    );
    assert_eq!(results.slot(1), Some(Slot::Value(Value::from(32u32))));
    assert_eq!(results.slot(3), None);
    assert_eq!(results.slot(u32::MAX), None);
    assert_eq!(results.set(0, Value::from(32u32)), Ok(vec![1, 2]));
    assert_eq!(
        results.to_string(),
        "sheet 3\n0 0 4 1 1 0 0000000000000020\n1 9 4 1 1 32 0000000000000001\n2 11 0 0 0 1\n"
    );
    let lost = Refusal::ShlOverflow { count: 32, operand: Scalar::from(1u32) };
    assert_eq!(results.slot(1), Some(Slot::Refused(lost)));
    assert_eq!(results.slot(2), Some(Slot::Refused(Refusal::FromEntry { entry: 1 })));
    assert_eq!(results.set(0, Value::from(5u32)), Ok(vec![1, 2]));
    assert_eq!(results, Sheet::new(SHEET.to_vec()).unwrap().fold().unwrap());
}

#[test]
fn the_empty_sheet() {
    assert_eq!(check(&[]), Ok(0));
    assert_eq!(fresh(&[], &mut []), Ok(0));
    assert_eq!(change(&[], &mut [], 0, 4, 0), Err(Refusal::NotASetting));
}

fn with(place: usize, byte: u8) -> Vec<u8> {
    let mut sheet = SHEET.to_vec();
    sheet[place] = byte;
    sheet
}

#[test]
fn refused_sheets() {
    assert_eq!(check(&SHEET), Ok(3));
    assert_eq!(check(&[0; 16_385]), Err(Refusal::SheetTooLong));
    assert_eq!(check(&[0; 16_384]), Err(Refusal::BadMark { place: 0 }));
    assert_eq!(check(&with(17, 0)), Err(Refusal::BadMark { place: 17 }));
    assert_eq!(check(&SHEET[..58]), Err(Refusal::CutShort { place: 58 }));
    assert_eq!(check(&SHEET[..20]), Err(Refusal::CutShort { place: 20 }));
    assert_eq!(check(&with(19, 4)), Err(Refusal::BadStage { place: 19 }));
    assert_eq!(check(&with(19, 0)), Err(Refusal::BadStage { place: 36 }));
    assert_eq!(check(&with(22, 5)), Err(Refusal::BadNode { place: 22 }));
    assert_eq!(check(&with(23, 19)), Err(Refusal::BadNode { place: 22 }));
    assert_eq!(check(&with(25, 7)), Err(Refusal::BadValue { place: 24 }));
    assert_eq!(check(&with(37, 1)), Err(Refusal::BadRef { place: 36 }));
    let one = &SHEET[..17];
    assert_eq!(check(&one.repeat(128)), Ok(128));
    assert_eq!(check(&one.repeat(129)), Err(Refusal::TooManyEntries { place: 17 * 128 }));
    let mut left = with(3, 13);
    left.insert(17, 0);
    assert_eq!(check(&left), Err(Refusal::Leftover { place: 17 }));
}

#[test]
fn depth() {
    // `~` so many times over a literal, which is one deep itself.
    let deep = |count: u8| {
        let body: Vec<u8> = [[3, 3].repeat(count.into()), vec![1, 4, 1, 1], vec![0; 8]].concat();
        [&[0xd5, 0x17, 0, body.len() as u8, 0][..], &body].concat()
    };
    assert_eq!(check(&deep(31)), Ok(1));
    assert_eq!(check(&deep(32)), Err(Refusal::TooDeep { place: 5 + 64 }));
}

#[test]
fn the_order_of_a_change() {
    let mut results = vec![0xaa; 3 * SLOT];
    let before = results.clone();
    assert_eq!(change(&SHEET[..58], &mut results[..9], 9, 9, 9), Err(Refusal::CutShort { place: 58 }));
    assert_eq!(change(&SHEET, &mut results[..9], 9, 9, 9), Err(Refusal::ResultsSize));
    assert_eq!(fresh(&SHEET, &mut results[..9]), Err(Refusal::ResultsSize));
    assert_eq!(change(&SHEET, &mut results, 9, 9, 9), Err(Refusal::NotASetting));
    assert_eq!(change(&SHEET, &mut results, u64::MAX, 9, 9), Err(Refusal::NotASetting));
    assert_eq!(change(&SHEET, &mut results, 1, 9, 9), Err(Refusal::NotASetting));
    assert_eq!(change(&SHEET, &mut results, 0, 7, 9), Err(Refusal::BadValue { place: 0 }));
    assert_eq!(change(&SHEET, &mut results, 0, 4, 1 << 32), Err(Refusal::BadValue { place: 0 }));
    assert_eq!(change(&SHEET, &mut results, 0, 1, 9), Err(Refusal::SettingType));
    assert_eq!(results, before, "a refusal wrote");
    let mut folded = Sheet::new(SHEET.to_vec()).unwrap().fold().unwrap();
    let pair = Value::vector(Type::U32, &[1, 2]).unwrap();
    assert_eq!(folded.set(0, pair), Err(Refusal::BadValue { place: 0 }));
    assert_eq!(folded.set(0, Value::from(1)), Err(Refusal::SettingType));
}
