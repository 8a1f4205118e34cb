//! Values: a type, a shape and patterns of bits.
use std::{convert::TryFrom, error::Error, fmt};

use crate::{binary, literal, Binary, Refusal, Stage, Type, SLOT};

/// A scalar, a vector or a matrix: its components column by column, each a pattern of the type with zeros above.
///
/// Rust's own numbers are values: `i64` is an AbstractInt, `f64` an AbstractFloat, an array of 2 to 4 numbers a vector.
///
/// ```
/// use booth::{Type, Value};
///
/// assert_eq!(Value::from(5u32).to_string(), "5u");
/// assert_eq!(Value::from([1.0f32, 2.5]).to_string(), "vec2<f32>(1.0, 2.5)");
/// assert_eq!(<[f32; 2]>::try_from(Value::from([1.0f32, 2.5])), Ok([1.0, 2.5]));
/// assert_eq!(i32::try_from(Value::from(5u32)).unwrap_err().to_string(), "5u is no i32");
/// ```
#[derive(Clone, Copy, Debug, PartialEq, Eq, Hash)]
pub struct Value {
    ty: Type,
    columns: u8,
    rows: u8,
    components: [u64; 16],
}

/// An operand as the boundary takes it.
pub(crate) struct Bytes {
    bytes: [u8; 3 + 8 * 16],
    length: usize,
}

impl Bytes {
    pub(crate) fn as_slice(&self) -> &[u8] {
        &self.bytes[..self.length]
    }
}

const BAD: Refusal = Refusal::BadValue { place: 0 };

impl Value {
    /// A value of `columns` by `rows` components: 1 by 1 is a scalar, 1 by 2 to 4 a vector, 2 to 4 by 2 to 4 a matrix of floats.
    /// Another shape, another number of components or a component that is no pattern of the type is `BadValue`.
    pub fn new(ty: Type, columns: u8, rows: u8, components: &[u64]) -> Result<Value, Refusal> {
        let shape = match (columns, rows) {
            (1, 1..=4) => true,
            (2..=4, 2..=4) => ty.is_float(),
            _ => false,
        };
        if !shape || components.len() != usize::from(columns * rows) || !components.iter().all(|bits| ty.takes(*bits)) {
            return Err(BAD);
        }
        let mut all = [0; 16];
        all[..components.len()].copy_from_slice(components);
        Ok(Value { ty, columns, rows, components: all })
    }

    pub fn scalar(ty: Type, bits: u64) -> Result<Value, Refusal> {
        Value::new(ty, 1, 1, &[bits])
    }

    /// A vector of 2 to 4 components.
    pub fn vector(ty: Type, components: &[u64]) -> Result<Value, Refusal> {
        match components.len() {
            rows @ 2..=4 => Value::new(ty, 1, rows as u8, components),
            _ => Err(BAD),
        }
    }

    pub fn abstract_int(n: i64) -> Value {
        Value::lone(Type::AbstractInt, n as u64)
    }

    pub fn abstract_float(x: f64) -> Value {
        Value::lone(Type::AbstractFloat, x.to_bits())
    }

    /// An F16 by its pattern.
    pub fn f16(bits: u16) -> Value {
        Value::lone(Type::F16, bits.into())
    }

    /// The F16 nearest to a number, as the library converts an AbstractFloat; `Binary` if there is none in F16's finite range.
    ///
    /// ```
    /// # use booth::{Refusal, Value};
    /// assert_eq!(Value::f16_near(0.1).unwrap().to_string(), "0.1h");
    /// assert_eq!(Value::f16_near(65520.0), Err(Refusal::Binary));
    /// ```
    pub fn f16_near(x: f64) -> Result<Value, Refusal> {
        // Adding the negative zero converts and changes nothing, the sign of a zero included.
        binary(Binary::Add, Stage::Exec, &Value::abstract_float(x), &Value::f16(0x8000))
    }

    pub(crate) fn lone(ty: Type, bits: u64) -> Value {
        let mut components = [0; 16];
        components[0] = bits;
        Value { ty, columns: 1, rows: 1, components }
    }

    pub fn ty(&self) -> Type {
        self.ty
    }

    pub fn columns(&self) -> u8 {
        self.columns
    }

    pub fn rows(&self) -> u8 {
        self.rows
    }

    pub fn is_scalar(&self) -> bool {
        (self.columns, self.rows) == (1, 1)
    }

    /// The components in use, column by column.
    pub fn components(&self) -> &[u64] {
        &self.components[..usize::from(self.columns * self.rows)]
    }

    /// A scalar's text where its type stands elsewhere: `5` for `5u`. Of a vector or matrix, the components' with commas.
    pub fn bare(&self) -> String {
        let parts: Vec<String> = self.components().iter().map(|bits| literal::bare(self.ty, *bits)).collect();
        parts.join(", ")
    }

    /// The value as an operator takes it: each NaN as the one that is kept.
    pub(crate) fn kept(&self) -> Value {
        let mut all = *self;
        all.components.iter_mut().for_each(|bits| *bits = self.ty.kept(*bits));
        all
    }

    /// The type and shape as WGSL names them: `u32`, `vec3<f32>`, `mat2x3<f16>`.
    pub fn type_name(&self) -> String {
        match self.shape_name() {
            Some(shape) => format!("{shape}<{}>", self.ty),
            None => self.ty.to_string(),
        }
    }

    fn shape_name(&self) -> Option<String> {
        match (self.columns, self.rows) {
            (1, 1) => None,
            (1, rows) => Some(format!("vec{rows}")),
            (columns, rows) => Some(format!("mat{columns}x{rows}")),
        }
    }

    /// The bytes of an operand, of an 01 node after its tag, and of a slot from its type on.
    pub(crate) fn bytes(&self) -> Bytes {
        let mut bytes = [0; 3 + 8 * 16];
        bytes[..3].copy_from_slice(&[self.ty as u8, self.columns, self.rows]);
        for (place, bits) in bytes[3..].chunks_exact_mut(8).zip(self.components) {
            place.copy_from_slice(&bits.to_le_bytes());
        }
        Bytes { bytes, length: 3 + 8 * self.components().len() }
    }

    /// The value of a slot of status 0. Components beyond the shape are not looked at.
    pub(crate) fn of_slot(slot: &[u8; SLOT]) -> Result<Value, Refusal> {
        let mut components = [0; 16];
        for (bits, bytes) in components.iter_mut().zip(slot[8..].chunks_exact(8)) {
            *bits = bytes.iter().rev().fold(0, |n, b| n << 8 | u64::from(*b));
        }
        let [_, ty, columns, rows, ..] = *slot;
        let count = usize::from(columns).saturating_mul(usize::from(rows)).min(16);
        Value::new(Type::of(ty).ok_or(BAD)?, columns, rows, &components[..count])
    }
}

/// As WGSL writes it: `5u`, `-5i`, `1.5f`, `0.1h`, `true`, `vec3<f32>(1.0, 2.0, 3.0)`, `mat2x2(1.0, 0.0, 0.0, 1.0)`. WGSL has no word for
/// an infinity or a NaN; they are `inf_f`, `-inf_h`, `nan`.
impl fmt::Display for Value {
    fn fmt(&self, f: &mut fmt::Formatter) -> fmt::Result {
        let shape = match self.shape_name() {
            Some(shape) => shape,
            None => return f.write_str(&literal::scalar(self.ty, self.components[0])),
        };
        f.write_str(&shape)?;
        if !self.ty.is_abstract() {
            write!(f, "<{}>", self.ty)?;
        }
        write!(f, "({})", self.bare())
    }
}

/// A value that has not the type or shape that was asked for.
#[derive(Clone, Debug, PartialEq, Eq)]
pub struct WrongType {
    pub value: Value,
    pub wanted: String,
}

impl fmt::Display for WrongType {
    fn fmt(&self, f: &mut fmt::Formatter) -> fmt::Result {
        write!(f, "{} is no {}", self.value, self.wanted)
    }
}

impl Error for WrongType {}

/// A type of Rust that is a component: its WGSL type, and its pattern both ways.
trait Component: Copy {
    const TYPE: Type;
    fn to_pattern(self) -> u64;
    fn of_pattern(bits: u64) -> Self;
}

macro_rules! component {
    ($rust:ty, $ty:ident, |$x:ident| $to:expr, |$bits:ident| $of:expr) => {
        impl Component for $rust {
            const TYPE: Type = Type::$ty;
            fn to_pattern(self) -> u64 {
                let $x = self;
                $to
            }
            fn of_pattern($bits: u64) -> $rust {
                $of
            }
        }
        impl From<$rust> for Value {
            fn from(x: $rust) -> Value {
                Value::lone(Type::$ty, x.to_pattern())
            }
        }
        impl TryFrom<Value> for $rust {
            type Error = WrongType;
            fn try_from(value: Value) -> Result<$rust, WrongType> {
                parts::<$rust, 1>(value).map(|[x]| x)
            }
        }
        component!($rust, $ty, 2);
        component!($rust, $ty, 3);
        component!($rust, $ty, 4);
    };
    ($rust:ty, $ty:ident, $count:literal) => {
        impl From<[$rust; $count]> for Value {
            fn from(xs: [$rust; $count]) -> Value {
                let mut components = [0; 16];
                components.iter_mut().zip(xs).for_each(|(bits, x)| *bits = x.to_pattern());
                Value { ty: Type::$ty, columns: 1, rows: $count, components }
            }
        }
        impl TryFrom<Value> for [$rust; $count] {
            type Error = WrongType;
            fn try_from(value: Value) -> Result<[$rust; $count], WrongType> {
                parts(value)
            }
        }
    };
}

component!(bool, Bool, |b| b.into(), |bits| bits != 0);
component!(i32, I32, |n| u64::from(n as u32), |bits| bits as u32 as i32);
component!(u32, U32, |n| n.into(), |bits| bits as u32);
component!(f32, F32, |x| x.to_bits().into(), |bits| f32::from_bits(bits as u32));
component!(i64, AbstractInt, |n| n as u64, |bits| bits as i64);
component!(f64, AbstractFloat, |x| x.to_bits(), |bits| f64::from_bits(bits));

/// The components of a scalar or vector of this type with so many of them.
fn parts<T: Component, const N: usize>(value: Value) -> Result<[T; N], WrongType> {
    if value.ty == T::TYPE && value.columns == 1 && usize::from(value.rows) == N {
        let mut all = [T::of_pattern(0); N];
        all.iter_mut().zip(value.components).for_each(|(x, bits)| *x = T::of_pattern(bits));
        return Ok(all);
    }
    let wanted = if N == 1 { T::TYPE.to_string() } else { format!("vec{N}<{}>", T::TYPE) };
    Err(WrongType { value, wanted })
}
