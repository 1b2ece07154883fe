//! The generator: packs, pack texts and queries from a seed, from three sources. `passing` builds packs that pass,
//! `random` images of good shape that are otherwise random, and `damage` breaks images, texts and queries; `conditions`
//! makes a condition of the check fail. `borders` has packs that tell the class of a byte, `printing` trees to print.
//! `mix` makes cases of all.

pub mod borders;
pub mod conditions;
pub mod damage;
pub mod grammar;
pub mod lr;
pub mod mix;
pub mod passing;
pub mod pattern;
pub mod printing;
pub mod query;
pub mod random;
pub mod rng;
pub mod scanner;
pub mod tables;
pub mod wide;
