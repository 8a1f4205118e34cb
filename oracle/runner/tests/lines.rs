//! Each line of docs/DIFFERENCES.md by its smallest input: the Rust text's answer, document 01's, and that nothing else passes under it.
use runner::{
    case::{get_record, put_record, Answer, Case, Operand, Refusal},
    lines::LINES,
    mended::mended,
    ops,
    report::{unexplained, Report},
};

const BOOL: u8 = 0;
const INT: u8 = 1;
const I32: u8 = 3;
const U32: u8 = 4;
const F32: u8 = 5;
const F16: u8 = 6;

const CONST: u8 = 0;
const OVERRIDE: u8 = 1;
const EXEC: u8 = 2;

fn s(ty: u8, bits: u64) -> Operand {
    Operand::scalar(ty, bits)
}

fn v(ty: u8, comps: &[u64]) -> Operand {
    Operand::new(ty, 1, comps.len() as u8, comps)
}

fn f(x: f32) -> u64 {
    x.to_bits().into()
}

fn int(n: i64) -> u64 {
    n as u64
}

fn no(number: u8) -> Answer {
    Answer::Refused(Refusal::plain(number))
}

/// A refused shift: number, count, and its left operand.
fn lost(number: u8, count: u32, ty: u8, bits: u64) -> Answer {
    Answer::Refused(Refusal::shift(number, count, (ty, bits)))
}

fn case(left: Operand, op: u8, right: Operand, stage: u8) -> Case {
    Case { op, stage, left, right: Some(right) }
}

/// Id, case, the Rust's answer, ours.
fn table() -> Vec<(&'static str, Case, Answer, Answer)> {
    let yes = Answer::Value;
    let columns = Operand::new(F16, 2, 2, &[0x7400, 0x7800, 0x7400, 0]);
    let square = Operand::new(F16, 2, 2, &[0; 4]);
    vec![
        ("R1", case(s(BOOL, 1), 2, s(BOOL, 0), CONST), yes(s(BOOL, 1)), yes(s(BOOL, 0))),
        ("R2", case(s(U32, 1), 17, s(U32, 32), CONST), yes(s(U32, 1)), lost(9, 32, U32, 1)),
        ("R2", case(s(U32, 1 << 31), 17, s(U32, 33), CONST), lost(9, 1, U32, 1 << 31), lost(9, 33, U32, 1 << 31)),
        ("R3", case(s(INT, 1), 17, s(U32, 64), CONST), yes(s(INT, 0)), lost(9, 64, INT, 1)),
        ("R4", case(s(INT, int(-5)), 18, s(U32, 65), CONST), yes(s(INT, int(-3))), yes(s(INT, int(-1)))),
        ("R5", case(s(BOOL, 1), 18, s(U32, 0), CONST), yes(s(BOOL, 1)), no(2)),
        ("R6", case(s(F32, 0), 7, s(F32, 0), OVERRIDE), yes(s(F32, 0x7fc0_0000)), no(8)),
        ("R6", case(s(F16, 0x7bff), 3, s(F16, 0x7bff), OVERRIDE), yes(s(F16, 0x7c00)), no(4)),
        ("R7", case(s(I32, 7), 7, s(I32, 0), OVERRIDE), yes(s(I32, 0)), no(8)),
        ("R8", case(v(INT, &[0, 1 << 32]), 6, s(I32, 0), CONST), no(7), no(2)),
        ("R9", case(s(BOOL, 0), 10, s(BOOL, 0), CONST), yes(s(BOOL, 0)), no(2)),
        ("R10", case(s(BOOL, 0), 6, s(BOOL, 0), EXEC), yes(s(BOOL, 0)), no(2)),
        ("R11", case(s(INT, 5), 6, s(I32, 0), EXEC), yes(s(INT, 5)), yes(s(I32, 5))),
        ("R12", case(square, 5, v(F16, &[0; 3]), CONST), yes(v(F16, &[0; 2])), no(2)),
        ("R12", case(v(F16, &[0; 3]), 5, square, CONST), yes(v(F16, &[0; 2])), no(2)),
        ("R13", case(v(I32, &[0; 2]), 14, v(U32, &[0; 3]), CONST), no(3), no(2)),
        ("R14", case(v(U32, &[0; 2]), 17, v(I32, &[0; 3]), CONST), no(3), no(2)),
        ("R15", case(v(U32, &[0; 2]), 18, v(INT, &[32, int(-1)]), CONST), lost(10, 32, U32, 0), no(2)),
        ("R16", case(columns, 5, v(F16, &[0x4000; 2]), CONST), no(6), no(4)),
        (
            "R17",
            case(s(INT, 7), 6, v(F32, &[0, f(2.0)]), EXEC),
            Answer::Mixed(vec![(INT, 7), (F32, f(3.5))]),
            yes(v(F32, &[f(7.0), f(3.5)])),
        ),
    ]
}

fn judged(case: &Case, other: Answer) -> Report {
    let mut report = Report::default();
    report.add(case, other);
    report
}

#[test]
fn every_line_has_its_input() {
    let table = table();
    for (_, id, _) in LINES {
        assert!(table.iter().any(|row| row.0 == id), "{id}");
    }
    for (id, case, text, ours) in table {
        assert_eq!(ops::answer(&case), text, "{id}, the Rust's answer");
        let (answer, needed) = mended(&case, &text);
        assert_eq!((answer, needed.ids().as_str()), (ours, id));
    }
}

#[test]
fn a_line_lets_nothing_else_pass() {
    for (id, case, text, ours) in table() {
        assert_eq!(judged(&case, ours.clone()).by_lines.len(), 1, "{id}");
        assert_eq!(judged(&case, text).unexplained, 1, "{id}: the Rust's own answer");
        let near = match ours {
            Answer::Value(mut v) => {
                v.comps[v.count() - 1] ^= 1;
                Answer::Value(v)
            }
            Answer::Refused(r) => Answer::Refused(Refusal { detail: r.detail ^ 1, ..r }),
            other => other,
        };
        assert_eq!(judged(&case, near).unexplained, 1, "{id}: a neighbour of our answer");
        assert_eq!(judged(&case, no(1)).unexplained, 1, "{id}: a wrong number");
    }
}

/// Refused shifts on which the text and document 02 agree: the count and the operand of the first component that refused.
fn shifts() -> Vec<(Case, Answer)> {
    let (least, all) = (1 << 63, u64::MAX);
    let two = v(I32, &[7, 0xffff_fffb, 9, 0x8000_0000]);
    vec![
        (case(s(I32, 1), 17, s(U32, 31), CONST), lost(9, 31, I32, 1)),
        (case(s(I32, 0x8000_0000), 17, s(INT, 1), OVERRIDE), lost(9, 1, I32, 0x8000_0000)),
        (case(s(U32, 0xffff_ffff), 17, s(U32, 1), CONST), lost(9, 1, U32, 0xffff_ffff)),
        (case(s(INT, least), 17, s(U32, 1), OVERRIDE), lost(9, 1, INT, least)),
        (case(s(INT, all >> 1), 17, s(INT, 63), CONST), lost(9, 63, INT, all >> 1)),
        (case(s(I32, 0xffff_ffff), 18, s(U32, 32), CONST), lost(10, 32, I32, 0xffff_ffff)),
        (case(s(U32, 0), 18, s(INT, 0xffff_ffff), OVERRIDE), lost(10, 0xffff_ffff, U32, 0)),
        (case(v(U32, &[1, 2, 3]), 17, v(U32, &[0, 1, 31]), CONST), lost(9, 31, U32, 3)),
        (case(two, 17, v(U32, &[0, 30, 1, 1]), CONST), lost(9, 30, I32, 0xffff_fffb)),
        (case(v(INT, &[least, 1]), 17, v(INT, &[0, 63]), CONST), lost(9, 63, INT, 1)),
        (case(v(I32, &[5, 0xffff_fff8]), 18, v(U32, &[33, 32]), OVERRIDE), lost(10, 33, I32, 5)),
        (case(v(U32, &[4, 8, 9]), 18, v(U32, &[1, 31, 32]), CONST), lost(10, 32, U32, 9)),
    ]
}

#[test]
fn operands_of_shifts() {
    let mut report = Report::default();
    for (case, answer) in shifts() {
        assert_eq!(ops::answer(&case), answer, "the Rust's answer");
        report.add(&case, answer);
    }
    assert_eq!((report.equal, report.unexplained, report.with_operand), (12, 0, [8, 4]));
    // Where a line mends the count, the operand is compared too.
    for (_, case, _, ours) in table().into_iter().filter(|row| ["R2", "R3"].contains(&row.0)) {
        assert_eq!(judged(&case, ours).with_operand, [1, 0]);
    }
}

/// Another operand, one of another type, or none is a difference of its own, and its line says so, also under a line of the table.
#[test]
fn another_operand_differs() {
    let mended = table().into_iter().filter(|row| ["R2", "R3"].contains(&row.0)).map(|row| (row.1, row.3));
    for (case, right) in shifts().into_iter().chain(mended) {
        let right = match right {
            Answer::Refused(right) => right,
            other => panic!("{other:?}"),
        };
        let (ty, bits) = right.operand.unwrap();
        for operand in [None, Some((ty, bits ^ 1)), Some((if ty == U32 { I32 } else { U32 }, bits & 0xffff_ffff))] {
            let report = judged(&case, Answer::Refused(Refusal { operand, ..right }));
            assert_eq!((report.unexplained, report.operands, report.with_operand), (1, 1, [0, 0]));
            assert!(unexplained(&report.first[0]).starts_with("operand differs: "));
        }
        let report = judged(&case, Answer::Refused(Refusal { number: 19 - right.number, ..right }));
        assert_eq!((report.unexplained, report.operands), (1, 0), "another number");
    }
    let (one, count) = (s(U32, 1), s(U32, 32));
    let report = judged(&case(one, 17, count, CONST), lost(9, 32, U32, 2));
    assert_eq!(
        unexplained(&report.first[0]),
        "operand differs: U32 1 << U32 32 in Const: Rust U32 1; asked for 9 with 32 of U32 1; other 9 with 32 of U32 2"
    );
    let nothing = Answer::Refused(Refusal { number: 9, detail: 32, operand: None });
    let report = judged(&case(one, 17, count, CONST), nothing);
    assert!(unexplained(&report.first[0]).ends_with("; other 9 with 32 and no operand"));
    assert_eq!(judged(&case(one, 6, s(U32, 0), CONST), lost(7, 0, U32, 1)).operands, 1, "no other refusal has one");
}

#[test]
fn nans_are_equal() {
    let case = case(s(F32, 0), 7, s(F32, 0), EXEC);
    assert_eq!(judged(&case, Answer::Value(s(F32, 0xffc0_0001))).equal, 1);
    assert_eq!(judged(&case, Answer::Value(s(F32, 0x7f80_0000))).unexplained, 1);
}

#[test]
fn malformed_cases() {
    let one = s(U32, 1);
    for (bad, number) in [
        (case(s(7, 0), 19, one, 3), 25),
        (case(s(7, 0), 18, one, 3), 23),
        (case(s(7, 0), 18, one, 2), 26),
        (case(one, 3, s(U32, 1 << 32), 2), 26),
        (case(one, 3, Operand::new(U32, 2, 2, &[0; 4]), 2), 26),
    ] {
        assert_eq!(ops::answer(&bad), no(number));
        assert_eq!(judged(&bad, no(number)).malformed, 1);
        assert_eq!(judged(&bad, no(2)).unexplained, 1);
    }
}

#[test]
fn records_come_back() {
    let mut list = vec![];
    for (_, case, text, ours) in table() {
        put_record(&mut list, &case, &text);
        put_record(&mut list, &case, &ours);
    }
    let mut rest = &list[..];
    for (_, case, text, ours) in table() {
        assert_eq!(get_record(&mut rest), Some((case, text)));
        assert_eq!(get_record(&mut rest), Some((case, ours)));
    }
    assert_eq!(rest, []);
    assert_eq!(get_record(&mut &list[..9]), None);
}

/// The operand of a refused shift stands where a value would: type, 1 column, 1 row, one component.
#[test]
fn the_record_of_a_refused_shift() {
    let shift = case(s(U32, 1), 17, s(U32, 32), CONST);
    let mut list = vec![];
    put_record(&mut list, &shift, &lost(9, 32, U32, 5));
    assert_eq!(list[list.len() - 17..], [9, 32, 0, 0, 0, U32, 1, 1, 1, 5, 0, 0, 0, 0, 0, 0, 0]);
    put_record(&mut list, &shift, &no(7));
    assert_eq!(list[list.len() - 9..], [7, 0, 0, 0, 0, 0, 0, 0, 0]);
    let mut rest = &list[..];
    assert_eq!(get_record(&mut rest), Some((shift, lost(9, 32, U32, 5))));
    assert_eq!(get_record(&mut rest), Some((shift, no(7))));
    // A vector is no operand.
    list.clear();
    put_record(&mut list, &shift, &Answer::Value(v(U32, &[1, 2])));
    let status = list.len() - 4 - 16 - 5;
    list[status] = 9;
    assert_eq!(get_record(&mut &list[..]), None);
}
