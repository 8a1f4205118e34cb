//! The types of values, as far as the text asks: which literal, or that it is a vector, a matrix, a pointer or a reference.

#[derive(Clone, Copy, Debug, PartialEq, Eq)]
pub enum Type {
    Bool,
    AbstractInt,
    AbstractFloat,
    I32,
    U32,
    F32,
    F16,
    Vec,
    Mat,
    Ptr,
    Ref,
}

impl Type {
    pub fn is_vec(&self) -> bool {
        *self == Type::Vec
    }
}

/// A value's type, and the type of its components.
pub trait Ty {
    fn ty(&self) -> Type;
    fn inner_ty(&self) -> Type;
}
