//! One component with its type: what a refused shift keeps of its left operand.
use std::{convert::TryInto, fmt};

use crate::{literal, Refusal, Type, Value, SLOT};

/// A type and a pattern that is proper for it, with zeros above.
///
/// ```
/// use booth::{Scalar, Type, Value};
///
/// assert_eq!(Scalar::new(Type::I32, 0xffff_ffff), Ok(Scalar::from(-1i32)));
/// assert_eq!(Scalar::from(1u32).to_string(), "1u");
/// assert_eq!(Value::from(Scalar::abstract_int(5)), Value::abstract_int(5));
/// ```
#[derive(Clone, Copy, Debug, PartialEq, Eq, Hash)]
pub struct Scalar {
    ty: Type,
    bits: u64,
}

impl Scalar {
    /// `BadValue` if the pattern is none of the type's.
    pub fn new(ty: Type, bits: u64) -> Result<Scalar, Refusal> {
        match ty.takes(bits) {
            true => Ok(Scalar { ty, bits }),
            false => Err(Refusal::BadValue { place: 0 }),
        }
    }

    pub fn abstract_int(n: i64) -> Scalar {
        Scalar { ty: Type::AbstractInt, bits: n as u64 }
    }

    pub fn ty(self) -> Type {
        self.ty
    }

    pub fn bits(self) -> u64 {
        self.bits
    }

    /// The operand in the slot of a refused shift: one component of an integer type, and zeros behind it.
    pub(crate) fn of_slot(slot: &[u8; SLOT]) -> Option<Scalar> {
        let [_, ty, columns, rows, ..] = *slot;
        let ty = Type::of(ty).filter(|ty| ty.is_integer())?;
        let bits = u64::from_le_bytes(slot[8..16].try_into().ok()?);
        let alone = (columns, rows) == (1, 1) && slot[16..].iter().all(|b| *b == 0);
        Scalar::new(ty, bits).ok().filter(|_| alone)
    }
}

impl From<u32> for Scalar {
    fn from(n: u32) -> Scalar {
        Scalar { ty: Type::U32, bits: n.into() }
    }
}

impl From<i32> for Scalar {
    fn from(n: i32) -> Scalar {
        Scalar { ty: Type::I32, bits: u64::from(n as u32) }
    }
}

impl From<Scalar> for Value {
    fn from(scalar: Scalar) -> Value {
        Value::lone(scalar.ty, scalar.bits)
    }
}

/// As WGSL writes it: `1u`, `-5i`, `5`.
impl fmt::Display for Scalar {
    fn fmt(&self, f: &mut fmt::Formatter) -> fmt::Result {
        f.write_str(&literal::scalar(self.ty, self.bits))
    }
}
