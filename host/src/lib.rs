//! A safe Rust interface to `libbooth.a`: WGSL's operators on single values, and sheets of constants with settings.
//!
//! ```
//! use booth::{binary, Binary, Refusal, Scalar, Stage, Value};
//!
//! let five = binary(Binary::Add, Stage::Const, &Value::from(2u32), &Value::from(3u32));
//! assert_eq!(five, Ok(Value::from(5u32)));
//! let lost = binary(Binary::Shl, Stage::Const, &Value::from(1u32), &Value::from(32u32));
//! assert_eq!(lost, Err(Refusal::ShlOverflow { count: 32, operand: Scalar::from(1u32) }));
//! ```
//!
//! Every answer of the library is proved: which sheets are accepted, what an entry comes to, which entries a change works and that no other
//! byte moves. This crate is not: it carries numbers and bytes to the library and back, and prints them.
//!
//! No function panics, whatever it is given. A refusal leaves every lent byte as it was, but for the slot of `raw_binary` where a shift is
//! refused: that keeps the left operand.
mod boundary;
mod calls;
mod codes;
mod decimal;
mod expr;
mod literal;
mod read;
mod refusal;
mod results;
mod scalar;
mod sheet;
mod value;

pub use boundary::{raw_binary, raw_change, raw_change_marks, raw_check, raw_fresh, raw_unary};
pub use calls::{binary, change, check, fresh, unary};
pub use codes::{Binary, Stage, Type, Unary};
pub use expr::{Bond, Expr, Written};
pub use read::BadLiteral;
pub use refusal::Refusal;
pub use results::{Results, Slot, Step};
pub use scalar::Scalar;
pub use sheet::{Builder, Entry, Kind, Sheet};
pub use value::{Value, WrongType};

/// Bytes of a slot.
pub const SLOT: usize = 136;
