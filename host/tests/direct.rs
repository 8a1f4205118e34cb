//! Single operators: the table cases, the operands that refused shifts keep, the refusals of the boundary itself, and that no refusal but a
//! shift's writes.
use booth::{binary, raw_binary, raw_unary, unary, Binary, Refusal, Scalar, Stage, Type, Unary, Value, SLOT};

use Stage::{Const, Exec, Override};

fn int(n: i64) -> Value {
    Value::abstract_int(n)
}

/// What a refused `<<` answers.
fn no_left(count: u32, operand: impl Into<Scalar>) -> Result<Value, Refusal> {
    Err(Refusal::ShlOverflow { count, operand: operand.into() })
}

/// What a refused `>>` answers.
fn no_right(count: u32, operand: impl Into<Scalar>) -> Result<Value, Refusal> {
    Err(Refusal::ShrOverflow { count, operand: operand.into() })
}

fn floats(xs: &[f32]) -> Vec<u64> {
    xs.iter().map(|x| x.to_bits().into()).collect()
}

#[test]
fn table_cases() {
    let (low, one) = (Value::from(i32::MIN), Value::from(1u32));
    assert_eq!(binary(Binary::Add, Const, &int(i64::MAX), &int(1)), Err(Refusal::AddOverflow));
    assert_eq!(binary(Binary::Div, Const, &low, &Value::from(-1)), Err(Refusal::DivByZero));
    assert_eq!(binary(Binary::Div, Exec, &low, &Value::from(-1)), Ok(low));
    assert_eq!(binary(Binary::Rem, Override, &Value::from(7), &Value::from(0)), Err(Refusal::RemZeroDiv));
    assert_eq!(binary(Binary::Rem, Exec, &Value::from(7), &Value::from(0)), Ok(Value::from(0)));
    assert_eq!(binary(Binary::Shl, Const, &one, &Value::from(32u32)), no_left(32, 1u32));
    assert_eq!(binary(Binary::Shl, Exec, &one, &Value::from(32u32)), Ok(one));
    assert_eq!(binary(Binary::Shl, Const, &Value::from(-1), &Value::from(31u32)), Ok(low));
    assert_eq!(binary(Binary::Shl, Const, &Value::from(1), &Value::from(31u32)), no_left(31, 1i32));
    assert_eq!(binary(Binary::Shr, Const, &int(-5), &Value::from(65u32)), Ok(int(-1)));
    assert_eq!(binary(Binary::Shr, Const, &true.into(), &Value::from(0u32)), Err(Refusal::Binary));
    assert_eq!(binary(Binary::Div, Exec, &int(5), &Value::from(0)), Ok(Value::from(5)));
    let top = Value::f16(0x7bff);
    assert_eq!(binary(Binary::Add, Const, &top, &int(15)), Ok(top));
    assert_eq!(binary(Binary::Add, Const, &top, &int(16)), Err(Refusal::AddOverflow));
    assert_eq!(binary(Binary::And, Const, &true.into(), &false.into()), Ok(false.into()));
}

/// A refused shift has its left operand whole, in the operand's own type, whatever the type of the count.
#[test]
fn operands_of_shifts() {
    let (least, all) = (Scalar::abstract_int(i64::MIN), Scalar::abstract_int(-1));
    for stage in [Const, Override] {
        let shl = |left: Value, count: Value| binary(Binary::Shl, stage, &left, &count);
        assert_eq!(shl(int(i64::MIN), 1u32.into()), no_left(1, least));
        assert_eq!(shl(int(-1), 64u32.into()), no_left(64, all));
        assert_eq!(shl(int(i64::MAX), int(63)), no_left(63, Scalar::abstract_int(i64::MAX)));
        assert_eq!(shl(i32::MIN.into(), 1u32.into()), no_left(1, i32::MIN));
        assert_eq!(shl((-1).into(), int(32)), no_left(32, -1));
        assert_eq!(shl(0.into(), u32::MAX.into()), no_left(u32::MAX, 0));
        assert_eq!(shl(u32::MAX.into(), 1u32.into()), no_left(1, u32::MAX));
        assert_eq!(shl(0u32.into(), int(4_294_967_295)), no_left(u32::MAX, 0u32));
        let shr = |left: Value, count: Value| binary(Binary::Shr, stage, &left, &count);
        assert_eq!(shr((-1).into(), 32u32.into()), no_right(32, -1));
        assert_eq!(shr(i32::MIN.into(), int(33)), no_right(33, i32::MIN));
        assert_eq!(shr(u32::MAX.into(), u32::MAX.into()), no_right(u32::MAX, u32::MAX));
        assert_eq!(shr(0u32.into(), int(32)), no_right(32, 0u32));
    }
}

/// A vector has that of the first component that refused.
#[test]
fn operands_of_vector_shifts() {
    let shl = |left: Value, counts: Value| binary(Binary::Shl, Const, &left, &counts);
    assert_eq!(shl([1u32, 2, 3].into(), [0u32, 1, 31].into()), no_left(31, 3u32), "component 2");
    assert_eq!(shl([7u32, 5, 9, 1].into(), [0u32, 40, 1, 50].into()), no_left(40, 5u32), "components 1 and 3");
    assert_eq!(shl([-1, -3].into(), [31u32, 31].into()), no_left(31, -3));
    assert_eq!(shl([i64::MIN, -1].into(), [0i64, 99].into()), no_left(99, Scalar::abstract_int(-1)));
    let shr = |left: Value, counts: Value| binary(Binary::Shr, Override, &left, &counts);
    assert_eq!(shr([4u32, 8, u32::MAX].into(), [1u32, 31, 32].into()), no_right(32, u32::MAX), "component 2");
    assert_eq!(shr([-4, -8].into(), [33u32, 32].into()), no_right(33, -4), "both");
    // A count that does not convert is judged before any component.
    assert_eq!(shl([1u32, 2].into(), [32i64, -1].into()), Err(Refusal::Binary));
}

#[test]
fn products_and_vectors() {
    let vector = Value::vector(Type::F32, &floats(&[1.0, 2.0])).unwrap();
    let matrix = Value::new(Type::F32, 2, 2, &floats(&[3.0, 4.0, 5.0, 6.0])).unwrap();
    let product = Value::vector(Type::F32, &floats(&[11.0, 17.0])).unwrap();
    assert_eq!(binary(Binary::Mul, Const, &vector, &matrix), Ok(product));
    let less = Value::vector(Type::Bool, &[1, 0]).unwrap();
    let other = Value::vector(Type::F32, &floats(&[1.5, 2.0])).unwrap();
    assert_eq!(binary(Binary::Lt, Const, &vector, &other), Ok(less));
    assert_eq!(unary(Unary::Neg, Const, &matrix), Err(Refusal::Unary));
    let negated = Value::vector(Type::F32, &floats(&[-1.0, -2.0])).unwrap();
    assert_eq!(unary(Unary::Neg, Const, &vector), Ok(negated));
    assert_eq!(unary(Unary::Not, Const, &true.into()), Ok(false.into()));
    assert_eq!(unary(Unary::BitNot, Const, &Value::from(0u32)), Ok(Value::from(u32::MAX)));
}

#[test]
fn values_that_are_none() {
    let bad = Err(Refusal::BadValue { place: 0 });
    assert_eq!(Value::scalar(Type::Bool, 2), bad);
    assert_eq!(Value::scalar(Type::U32, 1 << 32), bad);
    assert_eq!(Value::scalar(Type::F16, 1 << 16), bad);
    assert_eq!(Value::vector(Type::U32, &[1]), bad);
    assert_eq!(Value::vector(Type::U32, &[1; 5]), bad);
    assert_eq!(Value::new(Type::U32, 2, 2, &[1; 4]), bad);
    assert_eq!(Value::new(Type::F32, 2, 2, &[1; 3]), bad);
    assert_eq!(Value::new(Type::F32, 255, 255, &[]), bad);
}

/// Five bytes of a U32, as the boundary takes them.
const ONE: [u8; 11] = [4, 1, 1, 1, 0, 0, 0, 0, 0, 0, 0];

fn number(answer: u64) -> u64 {
    assert_eq!(answer as u32, 0, "detail");
    answer >> 32
}

/// A refused shift leaves its slot, all 136 bytes of it; every other refusal leaves the bytes that were there.
#[test]
fn the_slot_of_a_refused_shift() {
    const COUNT: [u8; 11] = [4, 1, 1, 32, 0, 0, 0, 0, 0, 0, 0];
    const ZERO: [u8; 11] = [4, 1, 1, 0, 0, 0, 0, 0, 0, 0, 0];
    let mut slot = [0xaa; SLOT];
    assert_eq!(raw_binary(6, 0, &ONE, &ZERO, &mut slot), 7 << 32, "DivByZero");
    assert_eq!(slot, [0xaa; SLOT], "DivByZero wrote");

    assert_eq!(raw_binary(17, 0, &ONE, &COUNT, &mut slot), 9 << 32 | 32);
    let mut expected = [0; SLOT];
    expected[..9].copy_from_slice(&[9, 4, 1, 1, 32, 0, 0, 0, 1]);
    assert_eq!(slot, expected);

    slot = [0xaa; SLOT];
    assert_eq!(raw_binary(18, 1, &ONE, &COUNT, &mut slot), 10 << 32 | 32);
    expected[0] = 10;
    assert_eq!(slot, expected);

    // Component 1 of two I32, -2, by a count of all its bits.
    let left = [&[3, 1, 2, 5, 0, 0, 0, 0, 0, 0, 0][..], &[0xfe, 0xff, 0xff, 0xff, 0, 0, 0, 0]].concat();
    let counts = [&[4, 1, 2, 1, 0, 0, 0, 0, 0, 0, 0][..], &[0xff, 0xff, 0xff, 0xff, 0, 0, 0, 0]].concat();
    slot = [0xaa; SLOT];
    assert_eq!(raw_binary(17, 0, &left, &counts, &mut slot), 9 << 32 | 0xffff_ffff);
    expected[..12].copy_from_slice(&[9, 3, 1, 1, 0xff, 0xff, 0xff, 0xff, 0xfe, 0xff, 0xff, 0xff]);
    assert_eq!(slot, expected);

    // The size of the slot is judged before the shift.
    let mut small = [0xaa; SLOT - 1];
    assert_eq!(raw_binary(17, 0, &ONE, &COUNT, &mut small), 30 << 32);
    assert_eq!(small, [0xaa; SLOT - 1]);
}

#[test]
fn the_order_of_the_boundary() {
    let mut slot = [0xaa; SLOT];
    assert_eq!(number(raw_binary(0, 9, &[], &[], &mut slot[..135])), 25);
    assert_eq!(number(raw_binary(3, 9, &[], &[], &mut slot[..135])), 23);
    assert_eq!(number(raw_binary(3, 0, &[], &ONE, &mut slot[..135])), 26);
    assert_eq!(number(raw_binary(3, 0, &ONE, &[], &mut [0xaa; 137])), 26);
    assert_eq!(number(raw_binary(3, 0, &ONE, &ONE, &mut slot[..135])), 30);
    assert_eq!(number(raw_binary(1, 0, &ONE, &ONE, &mut [0xaa; 137])), 30);
    assert_eq!(number(raw_binary(1, 0, &ONE, &ONE, &mut slot)), 2);
    assert_eq!(number(raw_binary(0, 9, &[], &[], &mut slot)), 25);
    assert_eq!(number(raw_binary(19, 3, &[], &[], &mut slot)), 25);
    assert_eq!(number(raw_binary(3, 3, &[], &[], &mut slot)), 23);
    assert_eq!(number(raw_binary(3, 0, &[], &ONE, &mut slot)), 26);
    assert_eq!(number(raw_binary(3, 0, &ONE, &ONE[..10], &mut slot)), 26);
    assert_eq!(number(raw_binary(3, 0, &ONE, &[&ONE[..], &[0]].concat(), &mut slot)), 26);
    assert_eq!(number(raw_unary(4, 0, &ONE, &mut [])), 25);
    assert_eq!(number(raw_unary(3, 3, &ONE, &mut [])), 23);
    assert_eq!(number(raw_unary(3, 0, &ONE[..10], &mut [])), 26);
    assert_eq!(number(raw_unary(3, 0, &ONE, &mut [])), 30);
    assert_eq!(number(raw_unary(1, 0, &ONE, &mut [])), 30);
    assert_eq!(number(raw_unary(4, 0, &ONE, &mut slot)), 25);
    assert_eq!(number(raw_unary(3, 3, &ONE, &mut slot)), 23);
    assert_eq!(number(raw_unary(3, 2, &ONE[..2], &mut slot)), 26);
    assert_eq!(number(raw_unary(1, 2, &ONE, &mut slot)), 1);
    assert_eq!(slot, [0xaa; SLOT], "a refusal wrote");
    assert_eq!(raw_binary(3, 0, &ONE, &ONE, &mut slot), 0);
    let mut two = [0; SLOT];
    two[1..4].copy_from_slice(&[4, 1, 1]);
    two[8] = 2;
    assert_eq!(slot, two);
}
