//! A small recipe compiler on Sangvireb, to copy from. README.md says what stands where.
#![deny(missing_docs)]

pub mod compile;
pub mod direct;
pub mod form;
pub mod lexer;
pub mod number;
