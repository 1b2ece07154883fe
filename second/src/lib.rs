//! The second program: an independent reading of documents 01 and 02 in plain Rust, and an independent generator of packs
//! and queries. The library's modules follow the document's sections; `cases`, `engine`, `hits`, `promise` and
//! `gen` use it to compare answers.

pub mod check;
pub mod image;
pub mod leaf;
pub mod numbers;
pub mod parse;
pub mod print;
pub mod readq;
pub mod scan;
pub mod sets;
pub mod shape;
pub mod text;

pub mod cases;
pub mod compare;
pub mod engine;
pub mod gen;
pub mod hits;
pub mod looks;
pub mod marked;
pub mod promise;
pub mod store;
pub mod wrong;

#[cfg(feature = "proved")]
pub mod proved;
