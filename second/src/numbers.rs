//! The numbers given back, by name ("Numbers given back" in document 01, and document 02), and the limits of the texts.

pub const DONE: u32 = 0;
/// Text not of the form: gives the start of the first wrong or missing line, or of what follows the last.
pub const TEXT_FORM: u32 = 1;
/// Text over 65,535 bytes.
pub const TEXT_LONG: u32 = 2;
/// Room too small for the output: gives the size needed.
pub const ROOM_SMALL: u32 = 3;
/// Shape: gives the word.
pub const SHAPE: u32 = 4;
/// Check: gives the condition 1..6, then its places.
pub const CHECK: u32 = 5;
/// Query over 65,535 bytes.
pub const QUERY_LONG: u32 = 6;
/// No terminal matches.
pub const NO_TERMINAL: u32 = 7;
/// Unexpected terminal: gives place, length and terminal.
pub const UNEXPECTED: u32 = 8;
/// Several terminals, no group: gives place and length.
pub const SEVERAL: u32 = 9;
/// Stuck.
pub const STUCK: u32 = 10;
/// Tree room used up.
pub const TREE_FULL: u32 = 11;
/// Stack full.
pub const STACK_FULL: u32 = 12;
/// Allowance used up: gives the place where the scan began.
pub const ALLOWANCE: u32 = 13;
/// Printout: not one whole tree, words left over, or a first word of 0.
pub const NOT_ONE_TREE: u32 = 14;
/// Printout: more than 256 nodes on one way down.
pub const TOO_DEEP: u32 = 15;

/// The most bytes of a pack text and of a query.
pub const TEXT_LIMIT: usize = 65_535;
/// The most states on the stack.
pub const STACK_LIMIT: usize = 512;
/// The most records of a tree.
pub const RECORD_LIMIT: usize = 65_535;
/// The most nodes on one way down a tree that is printed.
pub const NODES_DOWN: usize = 256;
/// Words of a record.
pub const RECORD_WORDS: usize = 4;
