//! The refusals that the text gives.
use crate::{
    inst::LiteralInstance,
    syntax::{BinaryOperator, UnaryOperator},
    Type,
};

#[derive(Clone, Debug, PartialEq)]
pub enum Error {
    Unary(UnaryOperator, Type),
    Binary(BinaryOperator, Type, Type),
    CompwiseBinary(Type, Type),
    AddOverflow,
    SubOverflow,
    MulOverflow,
    DivByZero,
    RemZeroDiv,
    ShlOverflow(u32, LiteralInstance),
    ShrOverflow(u32, LiteralInstance),
    PtrHandle,
    PtrVecComp,
}

impl Error {
    /// Document 01's number and detail for this refusal; the two of pointers have none and are 0.
    pub fn number(&self) -> (u8, u32) {
        match self {
            Error::Unary(..) => (1, 0),
            Error::Binary(..) => (2, 0),
            Error::CompwiseBinary(..) => (3, 0),
            Error::AddOverflow => (4, 0),
            Error::SubOverflow => (5, 0),
            Error::MulOverflow => (6, 0),
            Error::DivByZero => (7, 0),
            Error::RemZeroDiv => (8, 0),
            Error::ShlOverflow(count, _) => (9, *count),
            Error::ShrOverflow(count, _) => (10, *count),
            Error::PtrHandle | Error::PtrVecComp => (0, 0),
        }
    }

    /// The left operand that a refused shift carries.
    pub fn operand(&self) -> Option<&LiteralInstance> {
        match self {
            Error::ShlOverflow(_, operand) | Error::ShrOverflow(_, operand) => Some(operand),
            _ => None,
        }
    }
}
