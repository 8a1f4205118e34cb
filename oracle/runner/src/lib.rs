//! Compares the published Rust operators with another side, case by case.
pub mod case;
pub mod cases;
pub mod lines;
pub mod mended;
pub mod ops;
pub mod report;
pub mod side;
