//! Random bytes: no call ends in a panic, and a refused call has written nothing, or a refused shift's slot.
#[path = "common/dice.rs"]
mod dice;

use booth::{raw_binary, raw_change, raw_check, raw_fresh, raw_unary, SLOT};
use dice::Dice;

/// Often a well-formed operand.
fn operand(dice: &mut Dice) -> Vec<u8> {
    if dice.below(8) == 0 {
        let length = dice.below(140);
        return dice.bytes(length);
    }
    let (columns, rows) = (1 + dice.below(5) as u8, 1 + dice.below(5) as u8);
    let mut bytes = vec![dice.below(8) as u8, columns, rows];
    let high = dice.below(9);
    for _ in 0..columns * rows {
        bytes.extend((dice.roll() >> (8 * high.min(7))).to_le_bytes());
    }
    bytes
}

fn refused(answer: u64) -> bool {
    assert_eq!(answer >> 40, 0, "bits above the number");
    answer >> 32 != 0
}

#[test]
fn operands() {
    let mut dice = Dice(0x1234_5678_9abc_def1);
    for _ in 0..200_000 {
        let (op, stage) = (dice.below(21) as u8, dice.below(4) as u8);
        let (left, right) = (operand(&mut dice), operand(&mut dice));
        let mut slot = [0x5a; SLOT];
        let answer = raw_binary(op, stage, &left, &right, &mut slot);
        if refused(answer) && !matches!(answer >> 32, 9 | 10) {
            assert_eq!(slot, [0x5a; SLOT]);
        }
        slot = [0x5a; SLOT];
        if refused(raw_unary(op % 5, stage, &left, &mut slot)) {
            assert_eq!(slot, [0x5a; SLOT]);
        }
    }
}

/// A scalar or a vector as the boundary takes it.
fn vector(ty: u8, components: &[u64]) -> Vec<u8> {
    let bytes = components.iter().flat_map(|bits| bits.to_le_bytes());
    [ty, 1, components.len() as u8].into_iter().chain(bytes).collect()
}

/// Whether a shift has an answer in Const and Override, by document 01's rule over whole numbers.
fn has_room(op: u8, ty: u8, left: u64, count: u64) -> bool {
    let (number, range) = match ty {
        1 => (i128::from(left as i64), i64::MIN.into()..=i64::MAX.into()),
        3 => (i128::from(left as u32 as i32), i32::MIN.into()..=i32::MAX.into()),
        _ => (i128::from(left), 0..=i128::from(u32::MAX)),
    };
    (ty == 1 || count < 32) && (op == 18 || range.contains(&(number << count.min(64))))
}

/// Shifts of integers: the slot of a refused one has the operand and the count of the first component that has no room, and nothing else.
#[test]
fn shifts() {
    let mut dice = Dice(0x0bad_cafe_0bad_cafe);
    let mut refusals = [0; 2];
    for _ in 0..50_000 {
        let (op, ty, rows) = (dice.of(&[17u8, 18]), dice.of(&[1, 3, 4]), 1 + dice.below(4));
        let width = if ty == 1 { 64 } else { 32 };
        let lefts: Vec<u64> =
            (0..rows).map(|_| dice.roll() >> (64 - width + dice.below(2) * dice.below(width))).collect();
        let counts: Vec<u64> = (0..rows).map(|_| dice.below(70) as u64 >> dice.below(6)).collect();
        let (mut slot, mut expected) = ([0x5a; SLOT], [0; SLOT]);
        let answer = raw_binary(op, dice.below(2) as u8, &vector(ty, &lefts), &vector(4, &counts), &mut slot);
        match lefts.into_iter().zip(counts).find(|(left, count)| !has_room(op, ty, *left, *count)) {
            None => assert_eq!(answer, 0),
            Some((left, count)) => {
                let status = op - 8;
                expected[..5].copy_from_slice(&[status, ty, 1, 1, count as u8]);
                expected[8..16].copy_from_slice(&left.to_le_bytes());
                assert_eq!((answer, slot), (u64::from(status) << 32 | count, expected));
                refusals[usize::from(status - 9)] += 1;
            }
        }
    }
    assert!(refusals.iter().all(|count| *count > 3_000), "{refusals:?}");
}

const SHEET: [u8; 59] = [
    0xd5, 0x17, 3, 12, 0, 1, 4, 1, 1, 5, 0, 0, 0, 0, 0, 0, 0, //
    0xd5, 0x17, 1, 16, 0, 4, 17, 1, 4, 1, 1, 1, 0, 0, 0, 0, 0, 0, 0, 2, 0, //
    0xd5, 0x17, 1, 16, 0, 4, 4, 2, 1, 1, 4, 1, 1, 1, 0, 0, 0, 0, 0, 0, 0,
];

#[test]
fn sheets() {
    let mut dice = Dice(0xfeed_beef_1234_5671);
    for _ in 0..50_000 {
        let length = dice.below(200);
        let mut sheet = if dice.below(4) == 0 { dice.bytes(length) } else { SHEET.to_vec() };
        for _ in 0..dice.below(3).min(sheet.len()) {
            let place = dice.below(sheet.len());
            sheet[place] = dice.roll() as u8;
        }
        let answer = raw_check(&sheet);
        let entries = if refused(answer) { dice.below(4) } else { answer as usize };
        let mut results: Vec<u8> = (0..SLOT * entries).map(|_| dice.roll() as u8 % 7).collect();
        let before = results.clone();
        let (entry, ty, bits) = (dice.below(5) as u64, dice.below(9) as u8, dice.roll() >> 40);
        if refused(raw_change(&sheet, &mut results, entry, ty, bits)) {
            assert_eq!(results, before);
        }
        results.clone_from(&before);
        if refused(raw_fresh(&sheet, &mut results)) {
            assert_eq!(results, before);
        }
        assert_eq!(raw_check(&sheet), answer);
    }
}
