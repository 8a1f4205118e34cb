//! What 136 bytes say: each rule of a refusal's slot, a shift's and every other, and what a listing prints of them.
use booth::{Expr, Refusal, Results, Scalar, Sheet, Slot, Stage, Type, Value, SLOT};

/// A slot from its fields, whatever they say.
fn slot(head: [u8; 4], detail: u32, components: &[u64]) -> [u8; SLOT] {
    let mut bytes = [0; SLOT];
    bytes[..4].copy_from_slice(&head);
    bytes[4..8].copy_from_slice(&detail.to_le_bytes());
    for (place, bits) in bytes[8..].chunks_exact_mut(8).zip(components) {
        place.copy_from_slice(&bits.to_le_bytes());
    }
    bytes
}

/// The operands of shifts at their edges: type, bits, and what they are.
fn operands() -> [(u8, u64, Scalar); 9] {
    [
        (1, 0, Scalar::abstract_int(0)),
        (1, u64::MAX, Scalar::abstract_int(-1)),
        (1, 1 << 63, Scalar::abstract_int(i64::MIN)),
        (3, 0, Scalar::from(0i32)),
        (3, 0xffff_ffff, Scalar::from(-1i32)),
        (3, 0x8000_0000, Scalar::from(i32::MIN)),
        (4, 0, Scalar::from(0u32)),
        (4, 1, Scalar::from(1u32)),
        (4, 0xffff_ffff, Scalar::from(u32::MAX)),
    ]
}

/// A refused shift has its operand, and any detail.
#[test]
fn slots_of_shifts() {
    for (ty, bits, operand) in operands() {
        for count in [0, 31, 32, 128, u32::MAX] {
            let left = Refusal::ShlOverflow { count, operand };
            assert_eq!(Slot::of(&slot([9, ty, 1, 1], count, &[bits])), Slot::Refused(left));
            let right = Refusal::ShrOverflow { count, operand };
            assert_eq!(Slot::of(&slot([10, ty, 1, 1], count, &[bits])), Slot::Refused(right));
        }
    }
}

/// Without its operand, with one of no integer type, of another shape, of bits too wide, or with anything behind it, it is no slot.
#[test]
fn malformed_slots_of_shifts() {
    for status in [9, 10] {
        let malformed = |bytes: &[u8; SLOT]| assert_eq!(Slot::of(bytes), Slot::Malformed, "{bytes:02x?}");
        malformed(&slot([status, 0, 0, 0], 32, &[]));
        malformed(&slot([status, 0, 0, 0], 0, &[1]));
        for ty in [0, 2, 5, 6, 7, 255] {
            malformed(&slot([status, ty, 1, 1], 32, &[1]));
        }
        for (columns, rows) in [(0, 0), (0, 1), (1, 0), (1, 2), (2, 1), (2, 2), (255, 255), (1, 255)] {
            malformed(&slot([status, 4, columns, rows], 32, &[1]));
        }
        for ty in [3, 4] {
            for bits in [1 << 32, u64::MAX, 1 << 63] {
                malformed(&slot([status, ty, 1, 1], 32, &[bits]));
            }
        }
        for (place, byte) in (16..SLOT).zip([1, 128].into_iter().cycle()) {
            let mut bytes = slot([status, 4, 1, 1], 32, &[1]);
            bytes[place] = byte;
            malformed(&bytes);
        }
    }
}

/// Every other refusal has zeros and its own detail, and no operand.
#[test]
fn slots_of_other_refusals() {
    for status in (1..=8).chain([11]) {
        let refusal = Refusal::new(status, 0, None).unwrap();
        assert_eq!(Slot::of(&slot([status, 0, 0, 0], 0, &[])), Slot::Refused(refusal));
        assert_eq!(Slot::of(&slot([status, 4, 1, 1], 0, &[1])), Slot::Malformed, "{status}");
        assert_eq!(Slot::of(&slot([status, 1, 0, 0], 0, &[])), Slot::Malformed, "{status}");
        assert_eq!(Slot::of(&slot([status, 0, 0, 0], 0, &[1])), Slot::Malformed, "{status}");
        assert_eq!(Slot::of(&slot([status, 0, 0, 0], 128, &[])), Slot::Malformed, "{status}");
    }
    for status in 12..=255 {
        assert_eq!(Slot::of(&slot([status, 0, 0, 0], 0, &[])), Slot::Malformed, "{status}");
        assert_eq!(Slot::of(&slot([status, 4, 1, 1], 32, &[1])), Slot::Malformed, "{status}");
    }
    let from = Refusal::FromEntry { entry: 127 };
    assert_eq!(Slot::of(&slot([11, 0, 0, 0], 127, &[])), Slot::Refused(from));
}

/// The components of a slot are a value's or a shift's operand.
#[test]
fn components() {
    for (ty, bits, _) in operands() {
        assert_eq!(Slot::of(&slot([9, ty, 1, 1], 32, &[bits])).components(), [bits]);
    }
    assert_eq!(Slot::of(&slot([0, 4, 1, 3], 0, &[1, 2, 3])).components(), [1, 2, 3]);
    assert_eq!(Slot::of(&slot([7, 0, 0, 0], 0, &[])).components(), []);
    assert_eq!(Slot::of(&slot([9, 4, 1, 2], 32, &[1])).components(), []);
}

/// A sheet of so many entries, each the number 1.
fn ones(count: usize) -> Sheet {
    let mut builder = Sheet::builder();
    (0..count).for_each(|_| drop(builder.entry(Stage::Const, Expr::from(1u32))));
    builder.build().unwrap()
}

/// A listing prints the components of every well-formed slot that has some, and the first fields of all.
#[test]
fn listings() {
    let slots = [
        slot([9, 4, 1, 1], 32, &[1]),
        slot([10, 3, 1, 1], 4_294_967_295, &[0xffff_ffff]),
        slot([9, 1, 1, 1], 64, &[0x8000_0000_0000_0001]),
        slot([9, 0, 0, 0], 32, &[]),
        slot([9, 4, 1, 1], 32, &[1, 1]),
        slot([9, 5, 1, 1], 32, &[1]),
        slot([0, 4, 1, 2], 0, &[7, 8]),
        slot([8, 0, 0, 0], 0, &[]),
    ];
    let results = Results::of(ones(slots.len()), slots.concat()).unwrap();
    assert_eq!(
        results.to_string(),
        "sheet 8\n\
         0 9 4 1 1 32 0000000000000001\n\
         1 10 3 1 1 4294967295 00000000ffffffff\n\
         2 9 1 1 1 64 8000000000000001\n\
         3 9 0 0 0 32\n\
         4 9 4 1 1 32\n\
         5 9 5 1 1 32\n\
         6 0 4 1 2 0 0000000000000007 0000000000000008\n\
         7 8 0 0 0 0\n"
    );
}

/// A scalar is a pattern of its type, prints as WGSL writes it, and is the value of the same bits.
#[test]
fn scalars() {
    let bad = Err(Refusal::BadValue { place: 0 });
    for (ty, bits) in [(Type::Bool, 2), (Type::I32, 1 << 32), (Type::U32, 1 << 32), (Type::F32, 1 << 32)] {
        assert_eq!(Scalar::new(ty, bits), bad, "{ty}");
    }
    assert_eq!(Scalar::new(Type::F16, 1 << 16), bad);
    for (ty, bits, operand) in operands() {
        let ty = Type::of(ty).unwrap();
        assert_eq!(Scalar::new(ty, bits), Ok(operand));
        assert_eq!((operand.ty(), operand.bits()), (ty, bits));
        assert_eq!(Ok(Value::from(operand)), Value::scalar(ty, bits));
        assert_eq!(operand.to_string(), Value::from(operand).to_string());
    }
    let text = operands().map(|(_, _, operand)| operand.to_string());
    assert_eq!(text, ["0", "-1", "-9223372036854775808", "0i", "-1i", "-2147483648i", "0u", "1u", "4294967295u"]);
    for (ty, bits, text) in [(Type::Bool, 1, "true"), (Type::F32, 0x3fc0_0000, "1.5f"), (Type::F16, 0x3c00, "1.0h")] {
        assert_eq!(Scalar::new(ty, bits).map(|scalar| scalar.to_string()), Ok(text.to_owned()));
    }
    assert_eq!(Scalar::new(Type::AbstractFloat, u64::MAX).map(Scalar::bits), Ok(u64::MAX));
}
