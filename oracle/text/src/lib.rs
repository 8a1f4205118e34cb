//! The operators of wgsl-types 0.3.2, run as they were published.
//!
//! `builtin::ops` is the published text, taken at build time and not changed in a byte, without the feature naga-ext.
//! Every other module is a stand-in of our own for a module that the text leans on and that is not at hand:
//! what it decides (conversion, `dot`, `transpose`, the storage of vectors) is decided by document 01, not by the published crate.

// The text says `use num_traits::{..}`; the two traits that it needs stand in `num`.
extern crate self as num_traits;
pub use num::{WrappingNeg, WrappingShl};

pub mod builtin {
    // The text asks for a feature that this crate does not have.
    #[allow(unknown_lints, unexpected_cfgs)]
    pub mod ops {
        include!(concat!(env!("OUT_DIR"), "/ops.rs"));
    }
}
pub mod conv;
pub mod error;
pub mod half;
pub mod inst;
pub mod num;
pub mod syntax;
pub mod ty;

pub use error::Error;
pub use inst::Instance;
pub use ty::Type;

/// When an expression is worked out.
#[derive(Clone, Copy, Debug, PartialEq, Eq)]
pub enum ShaderStage {
    Const,
    Override,
    Exec,
}
