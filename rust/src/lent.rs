//! The eleven functions over memory that the caller lends, with nothing allocated: an image is a row of words, a tree is a row of words with
//! four to a record. [`Pack`](crate::Pack) and [`Tree`](crate::Tree) are the same with memory of their own.
//!
//! Each takes any contents. What lent memory holds afterwards is fixed too: the output at its front and the rest as it was. A parse that
//! is refused with 7 to 13 leaves the records that it has written so far, and every other refusal leaves all as it was.
//!
//! ```
//! use zhgarelli::{lent, Refused};
//!
//! let mut image = [0; lent::LARGEST_IMAGE];
//! # let text = std::fs::read("../packs/small.pack").unwrap();
//! let words = lent::read(&text, &mut image)?;
//! let mut tree = [0; 4 * 10];
//! let work = lent::parse(&image[..words], b"tax by day", &mut tree, u32::MAX)?;
//! assert_eq!((words, work.records, work.moves), (189, 4, 10));
//! assert_eq!(lent::leaf(b"tax by day", [tree[4], tree[5], tree[6], tree[7]]), b"by");
//! let mut printed = [0; 100];
//! let bytes = lent::print(b"tax by day", &tree[..4 * work.records], &mut printed)?;
//! assert_eq!(&printed[..bytes], b"(1 2:[tax] 1:[by] 2:[day])");
//! # Ok::<(), Refused>(())
//! ```

use crate::c;
use crate::refused::{Refused, Work};
use crate::terminals::Terminals;

/// Room for every image, in words.
pub const LARGEST_IMAGE: usize = 20_589;
/// The most bytes of a pack text and of a query.
pub const LONGEST_TEXT: usize = 65_535;
/// The most records that a parse writes, however large the tree is.
pub const MOST_RECORDS: usize = 65_535;
/// Words of a record.
pub const RECORD_WORDS: usize = 4;

/// What one scan found.
#[derive(Clone, Copy, Debug, PartialEq, Eq, Hash)]
pub struct Scanned {
    /// Where it began; the end of the text where the start given is past it.
    pub place: usize,
    /// All that matched, or none.
    pub found: Option<Match>,
    /// The moves made.
    pub moves: u32,
}

/// The longest match of a scan.
#[derive(Clone, Copy, Debug, PartialEq, Eq, Hash)]
pub struct Match {
    /// The terminals that match: at least one.
    pub terminals: Terminals,
    /// How many bytes: at least one.
    pub length: usize,
}

/// Code 0 gives nothing, and every other one its refusal.
fn done(code: u64, values: [u64; 3], work: Work) -> Result<(), Refused> {
    match code {
        0 => Ok(()),
        _ => Err(Refused::of(code, values, work)),
    }
}

/// Reads a pack text of either form into an image, and gives its number of words. Codes 2, 1, 4 and 3, in this order.
pub fn read(text: &[u8], image: &mut [u16]) -> Result<usize, Refused> {
    let [code, number] = c::read(text, image);
    done(code, [number, 0, 0], Work::default()).map(|()| number as usize)
}

/// Writes an image as pack text of form 1, and gives its number of bytes. Codes 4, 2 and 3, in this order.
pub fn write(image: &[u16], text: &mut [u8]) -> Result<usize, Refused> {
    let [code, number] = c::write(image, text);
    done(code, [number, 0, 0], Work::default()).map(|()| number as usize)
}

/// Writes an image as pack text of form 2, and gives its number of bytes. Codes 4, 2 and 3, in this order.
pub fn write_form2(image: &[u16], text: &mut [u8]) -> Result<usize, Refused> {
    let [code, number] = c::write2(image, text);
    done(code, [number, 0, 0], Work::default()).map(|()| number as usize)
}

/// Moves a pack text of form 1 to form 2, and gives its number of bytes. Codes 2, 1 and 4 for the text given, then 2 and 3 for the one made.
pub fn to_form2(text: &[u8], moved: &mut [u8]) -> Result<usize, Refused> {
    let [code, number] = c::form2(text, moved);
    done(code, [number, 0, 0], Work::default()).map(|()| number as usize)
}

/// Moves a pack text of form 2 to form 1, and gives its number of bytes. Codes 2, 1 and 4 for the text given, then 2 and 3 for the one made.
pub fn to_form1(text: &[u8], moved: &mut [u8]) -> Result<usize, Refused> {
    let [code, number] = c::form1(text, moved);
    done(code, [number, 0, 0], Work::default()).map(|()| number as usize)
}

/// Whether an image is of the shape of a pack. Code 4.
pub fn shape(image: &[u16]) -> Result<(), Refused> {
    let [code, place] = c::shape(image);
    done(code, [place, 0, 0], Work::default())
}

/// Whether a pack keeps the six conditions of the check. Codes 4 and 5.
pub fn check(image: &[u16]) -> Result<(), Refused> {
    let [code, number, first, second] = c::check(image);
    done(code, [number, first, second], Work::default())
}

/// One scan from a start, for a set of terminals. Codes 6, 4 and 13.
pub fn scan(
    image: &[u16],
    text: &[u8],
    start: usize,
    set: Terminals,
    allowance: u32,
) -> Result<Scanned, Refused> {
    let [code, place, set, length, moves] = c::scan(image, text, start, set.bits(), allowance);
    let moves = moves as u32;
    done(code, [place, 0, 0], Work { records: 0, moves })?;
    let found = Match {
        terminals: Terminals::of_bits(set),
        length: length as usize,
    };
    Ok(Scanned {
        place: place as usize,
        found: (set != 0).then_some(found),
        moves,
    })
}

/// Parses a query into the tree, its records at the front. Codes 6 and 4, and then 7 to 13.
pub fn parse(
    image: &[u16],
    query: &[u8],
    tree: &mut [u16],
    allowance: u32,
) -> Result<Work, Refused> {
    let [code, place, length, terminal, records, moves] = c::parse(image, query, tree, allowance);
    let work = Work {
        records: records as usize,
        moves: moves as u32,
    };
    done(code, [place, length, terminal], work).map(|()| work)
}

/// The part of the text that a leaf's record stands for; the empty part at its front where the record is bad.
pub fn leaf(text: &[u8], record: [u16; RECORD_WORDS]) -> &[u8] {
    let [start, length] = c::leaf(text, &record).map(|number| number as usize);
    // It is proved to be a part of the text; so the default is never taken.
    text.get(start..)
        .and_then(|rest| rest.get(..length))
        .unwrap_or_default()
}

/// Prints a tree, which is all of the words, and gives the printout's number of bytes. Codes 14, 15 and 3, in this order.
///
/// A node is `(`, its production, for each child a blank and the child, and `)`. A leaf is its terminal, `:` and its bytes between `[` and
/// `]`, with a `\` before each `[`, `]` and `\` among them.
pub fn print(text: &[u8], tree: &[u16], buffer: &mut [u8]) -> Result<usize, Refused> {
    let [code, number] = c::print(text, tree, buffer);
    done(code, [number, 0, 0], Work::default()).map(|()| number as usize)
}
