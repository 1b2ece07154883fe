//! A query reader that cannot go wrong quietly.
//!
//! A [`Pack`] holds a parse table and a scanner table that come from outside. [`Pack::parse`] reads a query by it: at each place it scans only
//! for the words that the parse state allows there, and where another word stands it refuses. It never falls back to a shorter match.
//!
//! All of this is done by the proved library, which this crate links. The manual (`docs/MANUAL.md` of the repository) says what a pack is and
//! what every number means; what is proved is in its section 7. The crate adds memory, iterators and errors, and is itself tested and not
//! proved. Nothing panics, whatever the pack, the query or the records are.
//!
//! ```
//! use zhgarelli::{Pack, Tree};
//!
//! fn main() -> Result<(), Box<dyn std::error::Error>> {
//! #   std::env::set_current_dir("..")?;
//!     let pack = Pack::read(std::fs::read("packs/profile.pack")?)?;
//!     pack.check()?;
//!     let mut tree = Tree::new();
//!     let parsed = pack.parse("top 10 of malloc group by core", &mut tree, 1_000_000)?;
//!     let words: Vec<_> = parsed.leaves().map(|leaf| String::from_utf8_lossy(leaf.bytes)).collect();
//!     assert_eq!(words, ["top", "10", "of", "malloc", "group", "by", "core"]);
//!     Ok(())
//! }
//! ```
//!
//! The library is taken from where the variable `ZHGARELLI_LIB` says, the archive `libcapi.a` or its folder; without it the kit builds it.
#![deny(unsafe_code)]
#![warn(missing_docs)]

mod c;
pub mod lent;
mod pack;
mod refused;
mod terminals;
mod tree;

pub use lent::{Match, Scanned};
pub use pack::{Action, ByteRange, Group, Pack, Part, Production, ScanSets, Sizes, Symbol};
pub use refused::{Failure, Refused, Work};
pub use terminals::Terminals;
pub use tree::{
    Forest, Leaf, Node, Parsed, Record, RecordIter, Records, Step, Subtree, Tree, Walk,
};
