//! Engines: programs that answer cases.

use crate::check::{self, Checked};
use crate::leaf;
use crate::parse::{self, Parsed};
use crate::print::{self, Printed};
use crate::scan::{self, Scanned};
use crate::sets::Set;
use crate::shape::{self, Shaped};
use crate::text::{self, Written};
use crate::wrong;

/// The entry points, each with the numbers it gives. Lent buffers are left as the entry point leaves them.
#[derive(Clone, Copy)]
pub struct Engine {
    pub name: &'static str,
    pub shape: fn(&[u16]) -> Shaped,
    /// Image, text, start, set and allowance.
    pub scan: fn(&[u16], &[u8], usize, Set, u32) -> Scanned,
    /// Text of either form, and room for the image.
    pub read: fn(&[u8], &mut [u16]) -> Written,
    /// Image, and room for the text of form 1.
    pub write: fn(&[u16], &mut [u8]) -> Written,
    /// Image, and room for the text of form 2.
    pub write2: fn(&[u16], &mut [u8]) -> Written,
    /// Text of form 1, and room for that of form 2.
    pub form2: fn(&[u8], &mut [u8]) -> Written,
    /// Text of form 2, and room for that of form 1.
    pub form1: fn(&[u8], &mut [u8]) -> Written,
    pub check: fn(&[u16]) -> Checked,
    /// Image, text, tree and allowance.
    pub parse: fn(&[u16], &[u8], &mut [u16], u32) -> Parsed,
    /// Text and record; gives start and length of the part of the text that comes back.
    pub leaf: fn(&[u8], [u16; 4]) -> (usize, usize),
    /// Text, tree, and room for the printout.
    pub print: fn(&[u8], &[u16], &mut [u8]) -> Printed,
}

/// The second program itself.
pub const SECOND: Engine = Engine {
    name: "second",
    shape: shape::shape,
    scan: scan::scan,
    read: text::read,
    write: text::write,
    write2: text::write2,
    form2: text::form2,
    form1: text::form1,
    check: check::check,
    parse: parse::parse,
    leaf: leaf::part,
    print: print::print,
};

/// The engines that the second program can be compared with.
pub const OTHERS: &[Engine] = &[
    #[cfg(feature = "proved")]
    crate::proved::PROVED,
    wrong::FILTERS_AFTERWARDS,
    wrong::KEEPS_AFTER_REJECT,
    wrong::PRINTS_BARE_BACKSLASHES,
    wrong::PRINTS_CHILDREN_IN_REVERSE,
];
