//! Document 01's answer to a case, from the Rust text's own scalar operators.
//!
//! `mended` works a case by document 01's order of checks, with each fault of the text mended at the one place where it stands, and says
//! which lines of docs/DIFFERENCES.md were needed. A difference between the text and the other side is explained exactly if some line was
//! needed and the mended answer is the other side's, to the last bit of its value, its detail or its operand.
use text::{
    conv::{convert_inner, Convert},
    inst::LiteralInstance,
    ty::{Ty, Type},
};

use crate::{
    case::{Answer, Case, Operand, Refusal},
    lines::{Line, Needed},
    ops,
};

type Scalar = Result<LiteralInstance, Refusal>;
type Literals = Vec<LiteralInstance>;

/// One working of a case: whether the scalar lines are mended, and the lines needed so far.
struct Work {
    mends: bool,
    needed: Needed,
}

const BINARY: Refusal = Refusal::plain(2);
const COMPWISE: Refusal = Refusal::plain(3);
const SHL_OVERFLOW: u8 = 9;

/// The text's own answer on two literals.
fn plain(op: u8, stage: u8, l: LiteralInstance, r: LiteralInstance) -> Scalar {
    match ops::binary(op, ops::stage(stage), &l.into(), &r.into()) {
        Ok(v) => Ok(*v.unwrap_literal_ref()),
        Err(e) => Err(ops::refusal(&e)),
    }
}

/// The refusal of a left shift: all of the count, and the left operand in its own type, as 02 §5 has it.
fn no_room(l: &LiteralInstance, count: u64) -> Scalar {
    Err(Refusal::shift(SHL_OVERFLOW, count as u32, ops::bits(l)))
}

/// One component, both sides in the type in which the operator works (a shift's right side U32), with the scalar lines mended.
fn step(op: u8, stage: u8, l: LiteralInstance, r: LiteralInstance, work: &mut Work) -> Scalar {
    let text = plain(op, stage, l, r);
    if !work.mends {
        return text;
    }
    let (ty, _) = ops::bits(&l);
    let (_, count) = ops::bits(&r);
    let mended = match (op, ty) {
        (2, _) => Some((Line::AndCallsOr, l.op_and(&r).map_err(|e| ops::refusal(&e)))),
        (3..=5 | 7, 5 | 6) if stage == 1 => Some((Line::OverrideFloat, plain(op, 0, l, r))),
        (7, 1 | 3 | 4) if stage == 1 => Some((Line::OverrideRem, plain(op, 0, l, r))),
        (6, 0) if stage == 2 => Some((Line::BoolDivision, Err(BINARY))),
        (10..=13, 0) => Some((Line::BoolOrdered, Err(BINARY))),
        (17, 3 | 4) if stage < 2 && count > 31 => Some((Line::Shl32Count, no_room(&l, count))),
        (17, 1) if stage < 2 && count > 63 && l != LiteralInstance::AbstractInt(0) => {
            Some((Line::ShlAbstract, no_room(&l, count)))
        }
        (18, 1) if count > 64 => Some((Line::ShrAbstract, plain(op, stage, l, LiteralInstance::U32(64)))),
        (18, 0 | 2 | 5 | 6) if count == 0 => Some((Line::ShrByZero, Err(BINARY))),
        _ => None,
    };
    let (line, mended) = match mended {
        None => return text,
        Some(mend) => mend,
    };
    if mended.map(|v| ops::bits(&v)) != text.map(|v| ops::bits(&v)) {
        work.needed.add(line);
    }
    mended
}

/// Both operands' components in the types in which the operator works, or nothing if a conversion fails.
fn converted(op: u8, left: &Operand, right: &Operand) -> Option<(Literals, Literals)> {
    let all = |v: &Operand| v.used().iter().map(|&b| ops::literal(v.ty, b)).collect::<Literals>();
    let (ls, rs) = (all(left), all(right));
    let to = |cs: &[LiteralInstance], ty: &Type| cs.iter().map(|c| c.convert_to(ty)).collect::<Option<Literals>>();
    if op >= 17 {
        return Some((ls, to(&rs, &Type::U32)?));
    }
    // The common type is the text's stand-in's, asked with a literal that every type can hold.
    let (l, _) = convert_inner(&ops::literal(left.ty, 0), &ops::literal(right.ty, 0))?;
    Some((to(&ls, &l.ty())?, to(&rs, &l.ty())?))
}

/// Whether the operator takes the pair of shapes.
fn takes(op: u8, left: &Operand, right: &Operand) -> bool {
    let scalars = u8::from(left.is_scalar()) + u8::from(right.is_scalar());
    let matrices = u8::from(left.is_matrix()) + u8::from(right.is_matrix());
    match (scalars, matrices) {
        (2, _) => true,
        (_, 2) => (3..=5).contains(&op),
        (_, 1) => op == 5,
        (1, _) => (3..=7).contains(&op),
        _ => op >= 3,
    }
}

/// Components from 0 up, a scalar meeting each of the other's.
fn by_component(case: &Case, ls: &Literals, rs: &Literals, work: &mut Work) -> Result<Literals, Refusal> {
    (0..ls.len().max(rs.len())).map(|k| step(case.op, case.stage, ls[k % ls.len()], rs[k % rs.len()], work)).collect()
}

/// A sum of products, finished before another is begun.
fn sum(stage: u8, (ls, rs): &(Literals, Literals), work: &mut Work) -> Scalar {
    let mut total = step(5, stage, ls[0], rs[0], work)?;
    for (l, r) in ls.iter().zip(rs).skip(1) {
        let product = step(5, stage, *l, *r, work)?;
        total = step(3, stage, total, product, work)?;
    }
    Ok(total)
}

/// Sums of products, each step for all of them before the next.
fn sums(stage: u8, pairs: &[(Literals, Literals)], work: &mut Work) -> Result<Literals, Refusal> {
    let mut totals = vec![];
    for k in 0..pairs[0].0.len() {
        let products: Literals =
            pairs.iter().map(|(l, r)| step(5, stage, l[k], r[k], work)).collect::<Result<_, _>>()?;
        totals = match k {
            0 => products,
            _ => totals.iter().zip(products).map(|(t, p)| step(3, stage, *t, p, work)).collect::<Result<_, _>>()?,
        };
    }
    Ok(totals)
}

/// Matrix times matrix, matrix times vector, vector times matrix.
fn product(case: &Case, right: &Operand, ls: Literals, rs: Literals, work: &mut Work) -> Result<Literals, Refusal> {
    let left = &case.left;
    let inner = if left.is_vector() { left.rows } else { left.cols };
    if inner != right.rows {
        // Two matrices meet in `dot`, which the text lacks: no line.
        if left.is_vector() || right.is_vector() {
            work.needed.add(Line::ZipShort);
        }
        return Err(BINARY);
    }
    let columns = rs.chunks_exact(right.rows.into()).map(<[_]>::to_vec);
    if left.is_vector() {
        let pairs: Vec<_> = columns.map(|column| (ls.clone(), column)).collect();
        return sums(case.stage, &pairs, work);
    }
    let height = usize::from(left.rows);
    let row = |k: usize| ls.iter().copied().skip(k).step_by(height).collect::<Literals>();
    let pairs: Vec<_> = columns.flat_map(|column| (0..height).map(move |k| (k, column.clone()))).collect();
    let pairs: Vec<_> = pairs.into_iter().map(|(k, column)| (row(k), column)).collect();
    let finished = pairs.iter().map(|pair| sum(case.stage, pair, work)).collect::<Result<Literals, _>>();
    if right.is_vector() {
        let together = sums(case.stage, &pairs, &mut Work { needed: Needed::default(), ..*work });
        if together.err() != finished.as_ref().err().copied() {
            work.needed.add(Line::MatrixVectorOrder);
        }
    }
    finished
}

/// The line under which the text gives another answer than Binary where a conversion fails.
fn early(case: &Case, left: &Operand, right: &Operand) -> Option<Line> {
    let unequal = left.rows != right.rows;
    let vectors = left.is_vector() && right.is_vector();
    match case.op {
        6 | 7 if left.is_scalar() != right.is_scalar() => Some(Line::ScalarVectorOrder),
        14..=16 if vectors && unequal => Some(Line::BitsLengths),
        17 | 18 if vectors && unequal => Some(Line::ShiftLengths),
        17 | 18 if vectors => Some(Line::ShiftCounts),
        _ => None,
    }
}

/// The components of the answer, by document 01's order of checks.
fn worked(case: &Case, right: &Operand, text: &Answer, work: &mut Work) -> Result<Literals, Refusal> {
    let left = &case.left;
    if !takes(case.op, left, right) {
        return Err(BINARY);
    }
    if case.op < 3 {
        let (l, r) = (ops::literal(left.ty, left.comps[0]), ops::literal(right.ty, right.comps[0]));
        return Ok(vec![step(case.op, case.stage, l, r, work)?]);
    }
    let (ls, rs) = match converted(case.op, left, right) {
        Some(both) => both,
        None => {
            if let (Some(line), true) = (early(case, left, right), *text != Answer::Refused(BINARY)) {
                work.needed.add(line);
            }
            return Err(BINARY);
        }
    };
    if left.is_scalar() || right.is_scalar() {
        return by_component(case, &ls, &rs, work);
    }
    if case.op == 5 && (left.is_matrix() || right.is_matrix()) {
        return product(case, right, ls, rs, work);
    }
    if (left.cols, left.rows) != (right.cols, right.rows) {
        return Err(COMPWISE);
    }
    by_component(case, &ls, &rs, work)
}

/// Columns and rows of the answer.
fn shape(op: u8, left: &Operand, right: &Operand) -> (u8, u8) {
    match (left.is_scalar(), right.is_scalar()) {
        (true, _) => (right.cols, right.rows),
        (_, true) => (left.cols, left.rows),
        _ if op == 5 && left.is_vector() && right.is_matrix() => (1, right.cols),
        _ if op == 5 && left.is_matrix() => (right.cols, left.rows),
        _ => (left.cols, left.rows),
    }
}

fn run(case: &Case, right: &Operand, text: &Answer, mends: bool) -> (Answer, Needed) {
    let mut work = Work { mends, needed: Needed::default() };
    let comps = match worked(case, right, text, &mut work) {
        Ok(comps) => comps,
        Err(refusal) => return (Answer::Refused(refusal), work.needed),
    };
    let comps: Vec<(u8, u64)> = comps.iter().map(ops::bits).collect();
    let bits: Vec<u64> = comps.iter().map(|c| c.1).collect();
    let (cols, rows) = shape(case.op, &case.left, right);
    let value = Operand::new(comps[0].0, cols, rows, &bits);
    if case.op == 6 && case.stage == 2 {
        match text {
            Answer::Mixed(_) => work.needed.add(Line::MixedVector),
            Answer::Value(v) if v.ty != value.ty => work.needed.add(Line::LeftUnconverted),
            _ => (),
        }
    }
    (Answer::Value(value).kept(), work.needed)
}

/// Document 01's answer over the text's scalar operators, and the lines at which it leaves the text.
///
/// The case is first worked with no scalar line mended. If that is not the text's answer and no line of order or shape was needed, the
/// two part at a place that has no line: then none is named, and the case stays unexplained.
pub fn mended(case: &Case, text: &Answer) -> (Answer, Needed) {
    let right = match (case.malformed(), &case.right) {
        (None, Some(right)) => right,
        _ => return (text.clone(), Needed::default()),
    };
    let (unmended, needed) = run(case, right, text, false);
    if needed.none() && unmended != *text {
        return (unmended, needed);
    }
    run(case, right, text, true)
}
