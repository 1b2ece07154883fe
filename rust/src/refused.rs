//! Refusals: every code other than 0, with what comes with it.

use std::fmt;

/// How much of a parse was done: records written and moves made.
#[derive(Clone, Copy, Debug, Default, PartialEq, Eq, Hash)]
pub struct Work {
    /// The records that stand at the front of the tree.
    pub records: usize,
    /// The moves of all scans together.
    pub moves: u32,
}

/// A refusal, with the manual's code and values (its section 5.1). Places are counted from 0: in bytes of a text, in words of an image.
///
/// ```
/// use zhgarelli::{Pack, Refused, Tree};
///
/// # let text = std::fs::read("../packs/small.pack").unwrap();
/// let pack = Pack::read(&text)?;
/// let refused = pack.parse("tax day", &mut Tree::new(), u32::MAX).unwrap_err();
/// assert!(matches!(refused, Refused::Unexpected { place: 4, length: 3, terminal: 2, .. }));
/// assert_eq!(refused.code(), 8);
/// assert_eq!(refused.to_string(), "terminal 2 is not allowed at byte 4, 3 long (code 8)");
/// # Ok::<(), Refused>(())
/// ```
#[derive(Clone, Copy, Debug, PartialEq, Eq, Hash)]
pub enum Refused {
    /// Code 1: the pack text is not of the form.
    Form {
        /// Where the first wrong or missing line starts, or what follows the last one.
        place: usize,
    },
    /// Code 2: the pack text is over 65,535 bytes, or would be.
    PackTooLong,
    /// Code 3: the room is too small for the output. [`Pack`](crate::Pack) always lends enough, so only [`lent`](crate::lent) gives it, and
    /// [`Records::print`](crate::Records::print) where there is not so much memory.
    Room {
        /// The words or bytes that are enough.
        needed: usize,
    },
    /// Code 4: the image is not of the shape of a pack.
    Shape {
        /// The first wrong word.
        word: usize,
    },
    /// Code 5: a condition of the check fails.
    Check(Failure),
    /// Code 6: the query is over 65,535 bytes.
    QueryTooLong,
    /// Code 7: no terminal matches.
    NoTerminal {
        /// Where the parse stands.
        place: usize,
        /// What was done before.
        work: Work,
    },
    /// Code 8: an unexpected terminal; at the end of the query length and terminal are 0.
    Unexpected {
        /// Where the parse stands.
        place: usize,
        /// How many bytes the terminal has.
        length: usize,
        /// The lowest terminal that matches there.
        terminal: usize,
        /// What was done before.
        work: Work,
    },
    /// Code 9: several terminals match, and no group says which one to take. A pack that passes the check never gives it.
    Several {
        /// Where the parse stands.
        place: usize,
        /// How many bytes they match.
        length: usize,
        /// What was done before.
        work: Work,
    },
    /// Code 10: a reduction or an accept does not fit the stack. A pack that passes the check never gives it.
    Stuck {
        /// Where the parse stands.
        place: usize,
        /// What was done before.
        work: Work,
    },
    /// Code 11: the tree has no room for the next record.
    TreeFull {
        /// Where the parse stands.
        place: usize,
        /// What was done before.
        work: Work,
    },
    /// Code 12: the stack of 512 states is full.
    StackFull {
        /// Where the parse stands.
        place: usize,
        /// What was done before.
        work: Work,
    },
    /// Code 13: the allowance of moves is used up.
    Allowance {
        /// Where the scan began that asked for one move more.
        place: usize,
        /// What was done before.
        work: Work,
    },
    /// Code 14: the words to print are not one whole tree.
    NotOneTree,
    /// Code 15: the tree to print has more than 256 nodes on one way down.
    TooDeep,
}

/// The condition of the check that fails first, with its least places.
#[derive(Clone, Copy, Debug, PartialEq, Eq, Hash)]
pub enum Failure {
    /// Of what matches in a scan state, what is outranked is rejected and the rest is accepted.
    K1 {
        /// The scan state.
        scan_state: usize,
    },
    /// Nothing matches that was not announced as possible, and what is possible only shrinks along a scan.
    K2 {
        /// The scan state.
        scan_state: usize,
    },
    /// Several terminals, each valid or layout, that are accepted together are a group.
    K3 {
        /// The parse state.
        state: usize,
        /// The scan state.
        scan_state: usize,
    },
    /// No edge leads to state 0, and all edges into a state carry one symbol.
    K4 {
        /// The parse state that the edges lead to.
        state: usize,
    },
    /// Whichever way led to a reduction, its symbols stand on the stack and the state below them has a goto.
    K5 {
        /// The parse state that reduces.
        state: usize,
        /// The production that it reduces by.
        production: usize,
    },
    /// A state that accepts is not state 0, and is reached from state 0 by the start symbol alone.
    K6 {
        /// The parse state that accepts.
        state: usize,
    },
}

impl Failure {
    pub(crate) fn of(condition: u64, first: u64, second: u64) -> Failure {
        let (first, second) = (first as usize, second as usize);
        match condition {
            1 => Failure::K1 { scan_state: first },
            2 => Failure::K2 { scan_state: first },
            3 => Failure::K3 {
                state: first,
                scan_state: second,
            },
            4 => Failure::K4 { state: first },
            5 => Failure::K5 {
                state: first,
                production: second,
            },
            6 => Failure::K6 { state: first },
            _ => unreachable!("the check has no condition {condition}"),
        }
    }

    /// The number of the condition, 1 to 6.
    pub fn condition(&self) -> u32 {
        match self {
            Failure::K1 { .. } => 1,
            Failure::K2 { .. } => 2,
            Failure::K3 { .. } => 3,
            Failure::K4 { .. } => 4,
            Failure::K5 { .. } => 5,
            Failure::K6 { .. } => 6,
        }
    }

    /// Its two places; one that a condition does not have is 0.
    pub fn places(&self) -> [usize; 2] {
        match *self {
            Failure::K1 { scan_state } | Failure::K2 { scan_state } => [scan_state, 0],
            Failure::K3 { state, scan_state } => [state, scan_state],
            Failure::K4 { state } | Failure::K6 { state } => [state, 0],
            Failure::K5 { state, production } => [state, production],
        }
    }
}

impl fmt::Display for Failure {
    fn fmt(&self, f: &mut fmt::Formatter) -> fmt::Result {
        write!(f, "K{} fails for ", self.condition())?;
        match self {
            Failure::K1 { scan_state } | Failure::K2 { scan_state } => {
                write!(f, "scan state {scan_state}")
            }
            Failure::K3 { state, scan_state } => {
                write!(f, "parse state {state} and scan state {scan_state}")
            }
            Failure::K4 { state } | Failure::K6 { state } => write!(f, "parse state {state}"),
            Failure::K5 { state, production } => {
                write!(f, "parse state {state} and production {production}")
            }
        }
    }
}

impl Refused {
    /// A refusal by its code, its values in the order of [`Refused::values`], and the work done before.
    pub(crate) fn of(code: u64, [first, second, third]: [u64; 3], work: Work) -> Refused {
        let (place, length) = (first as usize, second as usize);
        match code {
            1 => Refused::Form { place },
            2 => Refused::PackTooLong,
            3 => Refused::Room { needed: place },
            4 => Refused::Shape { word: place },
            5 => Refused::Check(Failure::of(first, second, third)),
            6 => Refused::QueryTooLong,
            7 => Refused::NoTerminal { place, work },
            8 => Refused::Unexpected {
                place,
                length,
                terminal: third as usize,
                work,
            },
            9 => Refused::Several {
                place,
                length,
                work,
            },
            10 => Refused::Stuck { place, work },
            11 => Refused::TreeFull { place, work },
            12 => Refused::StackFull { place, work },
            13 => Refused::Allowance { place, work },
            14 => Refused::NotOneTree,
            15 => Refused::TooDeep,
            // The codes are proved, so only another library in place of the proved one comes here.
            _ => unreachable!("no refusal has code {code}"),
        }
    }

    /// The code, 1 to 15.
    pub fn code(&self) -> u32 {
        match self {
            Refused::Form { .. } => 1,
            Refused::PackTooLong => 2,
            Refused::Room { .. } => 3,
            Refused::Shape { .. } => 4,
            Refused::Check(_) => 5,
            Refused::QueryTooLong => 6,
            Refused::NoTerminal { .. } => 7,
            Refused::Unexpected { .. } => 8,
            Refused::Several { .. } => 9,
            Refused::Stuck { .. } => 10,
            Refused::TreeFull { .. } => 11,
            Refused::StackFull { .. } => 12,
            Refused::Allowance { .. } => 13,
            Refused::NotOneTree => 14,
            Refused::TooDeep => 15,
        }
    }

    /// The values that come with the code, in the manual's order; those that it does not have are 0. The check's are the condition and
    /// its two places, a parse's are place, length and terminal, and all others have one.
    pub fn values(&self) -> [usize; 3] {
        match *self {
            Refused::PackTooLong
            | Refused::QueryTooLong
            | Refused::NotOneTree
            | Refused::TooDeep => [0; 3],
            Refused::Room { needed } => [needed, 0, 0],
            Refused::Shape { word } => [word, 0, 0],
            Refused::Check(failure) => {
                let [first, second] = failure.places();
                [failure.condition() as usize, first, second]
            }
            Refused::Unexpected {
                place,
                length,
                terminal,
                ..
            } => [place, length, terminal],
            Refused::Several { place, length, .. } => [place, length, 0],
            Refused::Form { place }
            | Refused::NoTerminal { place, .. }
            | Refused::Stuck { place, .. }
            | Refused::TreeFull { place, .. }
            | Refused::StackFull { place, .. }
            | Refused::Allowance { place, .. } => [place, 0, 0],
        }
    }

    /// The place in the query, for a refusal of a run (codes 7 to 13).
    pub fn place(&self) -> Option<usize> {
        self.work().map(|_| self.values()[0])
    }

    /// What a run had done before it was refused (codes 7 to 13). A scan has no records.
    pub fn work(&self) -> Option<Work> {
        match *self {
            Refused::NoTerminal { work, .. }
            | Refused::Unexpected { work, .. }
            | Refused::Several { work, .. }
            | Refused::Stuck { work, .. }
            | Refused::TreeFull { work, .. }
            | Refused::StackFull { work, .. }
            | Refused::Allowance { work, .. } => Some(work),
            _ => None,
        }
    }
}

impl fmt::Display for Refused {
    fn fmt(&self, f: &mut fmt::Formatter) -> fmt::Result {
        match self {
            Refused::Form { place } => {
                write!(f, "the pack text is not of the form from byte {place} on")
            }
            Refused::PackTooLong => write!(f, "the pack text is over 65,535 bytes"),
            Refused::Room { needed } => write!(
                f,
                "the room is too small: {needed} words or bytes are needed"
            ),
            Refused::Shape { word } => write!(
                f,
                "word {word} of the image is not as the shape of a pack has it"
            ),
            Refused::Check(failure) => write!(f, "the pack does not pass the check: {failure}"),
            Refused::QueryTooLong => write!(f, "the query is over 65,535 bytes"),
            Refused::NoTerminal { place, .. } => write!(f, "no terminal matches at byte {place}"),
            Refused::Unexpected {
                place, length: 0, ..
            } => {
                write!(f, "the query ends too early, at byte {place}")
            }
            Refused::Unexpected {
                place,
                length,
                terminal,
                ..
            } => {
                write!(
                    f,
                    "terminal {terminal} is not allowed at byte {place}, {length} long"
                )
            }
            Refused::Several { place, length, .. } => {
                write!(f, "several terminals match the same bytes at byte {place}, {length} long, and no group chooses")
            }
            Refused::Stuck { place, .. } => write!(
                f,
                "the parse is stuck at byte {place}: the pack is at fault"
            ),
            Refused::TreeFull { place, work } => {
                write!(
                    f,
                    "the tree's room for {} records is used up at byte {place}",
                    work.records
                )
            }
            Refused::StackFull { place, .. } => {
                write!(f, "the stack of 512 states is full at byte {place}")
            }
            Refused::Allowance { place, work } => {
                write!(
                    f,
                    "the allowance of {} moves is used up by the scan from byte {place}",
                    work.moves
                )
            }
            Refused::NotOneTree => write!(f, "the words to print are not one whole tree"),
            Refused::TooDeep => write!(
                f,
                "the tree to print has more than 256 nodes on one way down"
            ),
        }?;
        write!(f, " (code {})", self.code())
    }
}

impl std::error::Error for Refused {}
