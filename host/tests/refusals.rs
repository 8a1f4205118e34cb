//! Every number has its name and keeps its detail, and a shift's refusal keeps its left operand.
#[path = "common/refusals.rs"]
mod common;

use booth::{Refusal, Scalar, Type};
use common::REFUSALS;

#[test]
fn numbers_and_names() {
    let operand = Some(Scalar::from(1u32));
    assert_eq!(Refusal::new(0, 7, operand), None);
    for number in 1..=255 {
        let refusal = Refusal::new(number, 77, operand).unwrap();
        let name = REFUSALS.iter().find(|n| n.0 == number).map_or("Other", |n| n.1);
        assert_eq!((refusal.number(), refusal.name()), (number, name));
        let has_detail = !matches!(number, 1..=8 | 20 | 30..=32);
        assert_eq!(refusal.detail(), if has_detail { 77 } else { 0 }, "{number}");
        let is_shift = matches!(number, 9 | 10);
        assert_eq!(refusal.operand(), operand.filter(|_| is_shift), "{number}");
        assert_eq!(Refusal::new(number, refusal.detail(), refusal.operand()), Some(refusal));
        assert_eq!(Refusal::new(number, 77, None) == Some(refusal), !is_shift, "{number}");
    }
}

/// Of the operands only integers are a shift's: with another, or with none, its number is known and no more.
#[test]
fn operands_of_shifts() {
    for number in [9, 10] {
        let other = Some(Refusal::Other { number, detail: 32 });
        assert_eq!(Refusal::new(number, 32, None), other);
        for ty in [Type::Bool, Type::AbstractFloat, Type::F32, Type::F16] {
            assert_eq!(Refusal::new(number, 32, Scalar::new(ty, 1).ok()), other, "{ty}");
        }
    }
    for operand in [Scalar::abstract_int(-1), Scalar::from(i32::MIN), Scalar::from(u32::MAX)] {
        let count = u32::MAX;
        assert_eq!(Refusal::new(9, count, Some(operand)), Some(Refusal::ShlOverflow { count, operand }));
        assert_eq!(Refusal::new(10, count, Some(operand)), Some(Refusal::ShrOverflow { count, operand }));
    }
    assert_ne!(
        Refusal::ShlOverflow { count: 32, operand: 1u32.into() },
        Refusal::ShlOverflow { count: 32, operand: 1i32.into() }
    );
}

/// The sentence of a shift names the operand, with its type, and the count.
#[test]
fn sentences_of_shifts() {
    let cases = [
        (9, 32, Scalar::from(1u32), "ShlOverflow: 1u << 32 leaves no room for the count 32"),
        (9, 31, Scalar::from(-2i32), "ShlOverflow: -2i << 31 leaves no room for the count 31"),
        (
            9,
            u32::MAX,
            Scalar::abstract_int(i64::MIN),
            "ShlOverflow: -9223372036854775808 << 4294967295 leaves no room for the count 4294967295",
        ),
        (
            10,
            40,
            Scalar::from(u32::MAX),
            "ShrOverflow: 4294967295u >> 40: 32 bits cannot be shifted right by the count 40",
        ),
        (10, 32, Scalar::from(-1i32), "ShrOverflow: -1i >> 32: 32 bits cannot be shifted right by the count 32"),
    ];
    for (number, count, operand, said) in cases {
        assert_eq!(Refusal::new(number, count, Some(operand)).unwrap().to_string(), said);
    }
    assert_eq!(Refusal::new(9, 32, None).unwrap().to_string(), "Other: refusal 9 with detail 32");
}
