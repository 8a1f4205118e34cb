//! The Rust text's own answer to a case.
use std::panic::{catch_unwind, AssertUnwindSafe};

use text::{
    half::f16,
    inst::{LiteralInstance, MatInstance, VecInstance},
    Error, Instance, ShaderStage,
};

use crate::case::{Answer, Case, Operand, Refusal};

pub fn literal(ty: u8, bits: u64) -> LiteralInstance {
    match ty {
        0 => LiteralInstance::Bool(bits != 0),
        1 => LiteralInstance::AbstractInt(bits as i64),
        2 => LiteralInstance::AbstractFloat(f64::from_bits(bits)),
        3 => LiteralInstance::I32(bits as u32 as i32),
        4 => LiteralInstance::U32(bits as u32),
        5 => LiteralInstance::F32(f32::from_bits(bits as u32)),
        _ => LiteralInstance::F16(f16(bits as u16)),
    }
}

/// The type's number and the pattern of a literal.
pub fn bits(l: &LiteralInstance) -> (u8, u64) {
    match *l {
        LiteralInstance::Bool(b) => (0, u64::from(b)),
        LiteralInstance::AbstractInt(n) => (1, n as u64),
        LiteralInstance::AbstractFloat(x) => (2, x.to_bits()),
        LiteralInstance::I32(n) => (3, u64::from(n as u32)),
        LiteralInstance::U32(n) => (4, u64::from(n)),
        LiteralInstance::F32(x) => (5, u64::from(x.to_bits())),
        LiteralInstance::F16(x) => (6, u64::from(x.0)),
    }
}

pub fn stage(code: u8) -> ShaderStage {
    match code {
        0 => ShaderStage::Const,
        1 => ShaderStage::Override,
        _ => ShaderStage::Exec,
    }
}

pub fn vector(ty: u8, comps: &[u64]) -> VecInstance {
    VecInstance::new(comps.iter().map(|&b| literal(ty, b).into()).collect())
}

pub fn matrix(v: &Operand) -> MatInstance {
    let columns = v.used().chunks_exact(usize::from(v.rows));
    MatInstance::from_cols(columns.map(|c| vector(v.ty, c).into()).collect())
}

/// A well-formed operand as a value of the text.
pub fn instance(v: &Operand) -> Instance {
    if v.is_scalar() {
        literal(v.ty, v.comps[0]).into()
    } else if v.is_vector() {
        vector(v.ty, v.used()).into()
    } else {
        matrix(v).into()
    }
}

fn vector_answer(v: &VecInstance) -> Answer {
    let comps: Vec<(u8, u64)> = v.iter().map(|c| bits(c.unwrap_literal_ref())).collect();
    let ty = comps[0].0;
    if comps.iter().any(|c| c.0 != ty) {
        return Answer::Mixed(comps);
    }
    let comps: Vec<u64> = comps.iter().map(|c| c.1).collect();
    Answer::Value(Operand::new(ty, 1, comps.len() as u8, &comps))
}

fn matrix_answer(m: &MatInstance) -> Answer {
    let comps = m.iter_cols().flat_map(|c| c.unwrap_vec_ref().iter());
    let comps: Vec<(u8, u64)> = comps.map(|c| bits(c.unwrap_literal_ref())).collect();
    let all: Vec<u64> = comps.iter().map(|c| c.1).collect();
    Answer::Value(Operand::new(comps[0].0, m.c() as u8, m.r() as u8, &all))
}

pub fn answer_of(result: Result<Instance, Error>) -> Answer {
    match result {
        Ok(Instance::Literal(l)) => {
            let (ty, bits) = bits(&l);
            Answer::Value(Operand::scalar(ty, bits))
        }
        Ok(Instance::Vec(v)) => vector_answer(&v),
        Ok(Instance::Mat(m)) => matrix_answer(&m),
        Ok(_) => Answer::Panicked("a pointer as an answer".into()),
        Err(e) => Answer::Refused(refusal(&e)),
    }
}

/// The text's refusal as the other side says it.
pub fn refusal(e: &Error) -> Refusal {
    let (number, detail) = e.number();
    Refusal { number, detail, operand: e.operand().map(bits) }
}

/// The text's unary operator of a code from 1 to 3.
pub fn unary(op: u8, v: &Instance) -> Result<Instance, Error> {
    match op {
        1 => v.op_not(),
        2 => v.op_neg(),
        _ => v.op_bitnot(),
    }
}

/// The text's binary operator of a code from 1 to 18.
pub fn binary(op: u8, stage: ShaderStage, l: &Instance, r: &Instance) -> Result<Instance, Error> {
    match op {
        1 => l.op_or(r),
        2 => l.op_and(r),
        3 => l.op_add(r, stage),
        4 => l.op_sub(r, stage),
        5 => l.op_mul(r, stage),
        6 => l.op_div(r, stage),
        7 => l.op_rem(r, stage),
        8 => l.op_eq(r),
        9 => l.op_ne(r),
        10 => l.op_lt(r),
        11 => l.op_le(r),
        12 => l.op_gt(r),
        13 => l.op_ge(r),
        14 => l.op_bitor(r),
        15 => l.op_bitand(r),
        16 => l.op_bitxor(r),
        17 => l.op_shl(r, stage),
        _ => l.op_shr(r, stage),
    }
}

fn worked(case: &Case) -> Result<Instance, Error> {
    let left = instance(&case.left);
    match &case.right {
        None => unary(case.op, &left),
        Some(right) => binary(case.op, stage(case.stage), &left, &instance(right)),
    }
}

/// The text's answer. A case that the text cannot be asked (an unknown operator or stage, a malformed operand) gets document 01's
/// refusal; a panic is caught.
pub fn answer(case: &Case) -> Answer {
    if let Some(number) = case.malformed() {
        return Answer::Refused(Refusal::plain(number));
    }
    match catch_unwind(AssertUnwindSafe(|| answer_of(worked(case)))) {
        Ok(answer) => answer.kept(),
        Err(what) => {
            let words = what.downcast_ref::<String>().cloned();
            let words = words.or_else(|| what.downcast_ref::<&str>().map(|s| s.to_string()));
            Answer::Panicked(words.unwrap_or_default())
        }
    }
}
