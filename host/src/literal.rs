//! Scalars as text: decimal, the shortest that names the pattern.
use crate::{Type, Value};

/// A scalar as WGSL writes it, its type told by what stands behind the number.
pub(crate) fn scalar(ty: Type, bits: u64) -> String {
    let word = bare(ty, bits);
    match ty.suffix() {
        "" => word,
        suffix if word.ends_with("inf") || word.ends_with("nan") => format!("{word}_{suffix}"),
        suffix => word + suffix,
    }
}

/// The same where the type stands elsewhere.
pub(crate) fn bare(ty: Type, bits: u64) -> String {
    match ty {
        Type::Bool => (bits != 0).to_string(),
        Type::AbstractInt => (bits as i64).to_string(),
        Type::I32 => (bits as u32 as i32).to_string(),
        Type::U32 => bits.to_string(),
        Type::F32 => float(f32::from_bits(bits as u32).into(), || format!("{:?}", f32::from_bits(bits as u32))),
        Type::AbstractFloat => float(f64::from_bits(bits), || format!("{:?}", f64::from_bits(bits))),
        Type::F16 => float(widened(bits as u16), || shortest(bits as u16)),
    }
}

/// A float: a whole number that is not too long as it is, and any other by the fewest digits that name it.
fn float(x: f64, digits: impl Fn() -> String) -> String {
    match x {
        _ if x.is_nan() => "nan".to_owned(),
        _ if x.is_infinite() => if x < 0.0 { "-inf" } else { "inf" }.to_owned(),
        _ if x.fract() == 0.0 && x.abs() < 1e16 => format!("{x:?}"),
        _ => digits(),
    }
}

/// The number that a pattern of F16 is, exactly.
pub(crate) fn widened(bits: u16) -> f64 {
    let (sign, exponent, rest) = (bits >> 15, i32::from(bits >> 10 & 31), f64::from(bits & 1023));
    let size = match exponent {
        0 => rest * 2f64.powi(-24),
        31 if rest == 0.0 => f64::INFINITY,
        31 => f64::NAN,
        _ => (1024.0 + rest) * 2f64.powi(exponent - 25),
    };
    if sign == 1 {
        -size
    } else {
        size
    }
}

/// The fewest digits that round to this finite F16.
fn shortest(bits: u16) -> String {
    let exact = widened(bits);
    let named = |digits: usize| {
        let x: f64 = format!("{exact:.digits$e}").parse().ok()?;
        (Value::f16_near(x) == Ok(Value::f16(bits))).then_some(x)
    };
    format!("{:?}", (0..5).find_map(named).unwrap_or(exact))
}
