//! One scan, and the scan called by itself.

use crate::image::Pack;
use crate::numbers::{ALLOWANCE, DONE, QUERY_LONG, SHAPE, TEXT_LIMIT};
use crate::sets::{self, Set};
use crate::shape;

/// What the scan called by itself gives.
#[derive(Clone, Copy, Debug, Default, PartialEq, Eq)]
pub struct Scanned {
    pub code: u32,
    pub place: u32,
    pub set: Set,
    pub length: u32,
    pub moves: u32,
}

/// What is remembered at the stop.
#[derive(Clone, Copy, Debug, PartialEq, Eq)]
pub struct Match {
    pub set: Set,
    pub length: usize,
}

/// A move would go beyond the allowance.
#[derive(Clone, Copy, Debug, PartialEq, Eq)]
pub struct UsedUp;

/// The moves taken so far, over all scans of one call, and how many there may be.
#[derive(Clone, Copy, Debug)]
pub struct Meter {
    pub moves: u32,
    pub allowance: u32,
}

impl Meter {
    pub fn new(allowance: u32) -> Meter {
        Meter {
            moves: 0,
            allowance,
        }
    }

    /// Counts one move, if it is within the allowance.
    fn count(&mut self) -> Result<(), UsedUp> {
        if self.moves == self.allowance {
            return Err(UsedUp);
        }
        self.moves += 1;
        Ok(())
    }
}

/// The scan tables of a pack of good shape, with the row of 256 classes filled once.
pub struct Scanner<'i> {
    pack: Pack<'i>,
    classes: [u8; 256],
}

impl<'i> Scanner<'i> {
    pub fn new(pack: Pack<'i>) -> Scanner<'i> {
        Scanner {
            pack,
            classes: pack.classes(),
        }
    }

    /// One scan of the rest of the text with the valid set, which has no bit 0.
    pub fn scan(
        &self,
        rest: &[u8],
        valid: Set,
        meter: &mut Meter,
    ) -> Result<Option<Match>, UsedUp> {
        let mut remembered = None;
        let mut state = 0;
        let mut length = 0;
        while self.pack.poss(state) & valid != sets::EMPTY {
            let Some(&byte) = rest.get(length) else { break };
            let class = usize::from(self.classes[usize::from(byte)]);
            let Some(next) = self.pack.moved(state, class) else {
                break;
            };
            meter.count()?;
            state = next;
            length += 1;
            let set = self.pack.acc(state) & valid;
            if set != sets::EMPTY {
                remembered = Some(Match { set, length });
            } else if self.pack.rej(state) & valid != sets::EMPTY {
                remembered = None;
            }
        }
        Ok(remembered)
    }
}

/// The scan called by itself.
pub fn scan(image: &[u16], text: &[u8], start: usize, set: Set, allowance: u32) -> Scanned {
    if text.len() > TEXT_LIMIT {
        return Scanned {
            code: QUERY_LONG,
            ..Scanned::default()
        };
    }
    let pack = match shape::pack(image) {
        Ok(pack) => pack,
        Err(fault) => {
            return Scanned {
                code: SHAPE,
                place: fault.place as u32,
                ..Scanned::default()
            }
        }
    };
    let start = start.min(text.len());
    let valid = set & sets::below(pack.sizes.terminals) & !sets::single(0);
    let mut meter = Meter::new(allowance);
    let (code, found) = match Scanner::new(pack).scan(&text[start..], valid, &mut meter) {
        Ok(found) => (DONE, found),
        Err(UsedUp) => (ALLOWANCE, None),
    };
    Scanned {
        code,
        place: start as u32,
        set: found.map_or(sets::EMPTY, |m| m.set),
        length: found.map_or(0, |m| m.length as u32),
        moves: meter.moves,
    }
}
