//! Sheets of constants for people. Every answer (which sheets are accepted, what an entry comes to, what a change works) is the proved
//! library's; reading words and printing are this crate's, and are not proved.
pub mod ask;
pub mod changes;
pub mod check;
pub mod complaint;
pub mod explain;
pub mod files;
pub mod grammar;
pub mod graph;
pub mod lexer;
pub mod line;
pub mod make;
pub mod names;
pub mod ops;
pub mod sentence;
pub mod show;
pub mod text;
