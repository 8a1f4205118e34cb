//! Conversion by document 01's rules; the published conv.rs is not at hand.
use crate::{
    half::f16,
    inst::{LiteralInstance, MatInstance, VecInstance},
    ty::{Ty, Type},
    Instance,
};

/// Conversion of each component to a type of literals; equal types stand unconverted.
pub trait Convert: Sized {
    fn convert_to(&self, ty: &Type) -> Option<Self>;
}

/// Both operands with components of their common type.
pub fn convert<T: Convert + Ty>(left: &T, right: &T) -> Option<(T, T)> {
    convert_inner(left, right)
}

pub fn convert_inner<L: Convert + Ty, R: Convert + Ty>(left: &L, right: &R) -> Option<(L, R)> {
    let ty = common(left.inner_ty(), right.inner_ty())?;
    Some((left.convert_to(&ty)?, right.convert_to(&ty)?))
}

/// Equal types; else AbstractInt goes to any other but Bool, AbstractFloat to F32 or F16; otherwise none.
fn common(left: Type, right: Type) -> Option<Type> {
    match (left, right) {
        (l, r) if l == r => Some(l),
        (Type::AbstractInt, other) | (other, Type::AbstractInt) => (other != Type::Bool).then_some(other),
        (Type::AbstractFloat, other) | (other, Type::AbstractFloat) => {
            matches!(other, Type::F32 | Type::F16).then_some(other)
        }
        _ => None,
    }
}

impl Convert for LiteralInstance {
    fn convert_to(&self, ty: &Type) -> Option<Self> {
        let f32_of = |x: f32| x.is_finite().then_some(LiteralInstance::F32(x));
        let f16_of = |x: f16| x.is_finite().then_some(LiteralInstance::F16(x));
        match (self, ty) {
            (same, ty) if same.ty() == *ty => Some(*same),
            (LiteralInstance::AbstractInt(n), Type::AbstractFloat) => Some((*n as f64).into()),
            (LiteralInstance::AbstractInt(n), Type::I32) => i32::try_from(*n).ok().map(Into::into),
            (LiteralInstance::AbstractInt(n), Type::U32) => u32::try_from(*n).ok().map(Into::into),
            (LiteralInstance::AbstractInt(n), Type::F32) => f32_of(*n as f32),
            // Where the F64 is not exact the F16 is out of range, so this rounds once.
            (LiteralInstance::AbstractInt(n), Type::F16) => f16_of(f16::from_f64(*n as f64)),
            (LiteralInstance::AbstractFloat(x), Type::F32) => f32_of(*x as f32),
            (LiteralInstance::AbstractFloat(x), Type::F16) => f16_of(f16::from_f64(*x)),
            _ => None,
        }
    }
}

impl Convert for VecInstance {
    fn convert_to(&self, ty: &Type) -> Option<Self> {
        self.iter()
            .map(|c| c.unwrap_literal_ref().convert_to(ty).map(Instance::from))
            .collect::<Option<_>>()
            .map(VecInstance::new)
    }
}

impl Convert for MatInstance {
    fn convert_to(&self, ty: &Type) -> Option<Self> {
        self.iter_cols()
            .map(|c| c.unwrap_vec_ref().convert_to(ty).map(Instance::from))
            .collect::<Option<_>>()
            .map(MatInstance::from_cols)
    }
}
