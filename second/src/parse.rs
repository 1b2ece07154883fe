//! The parse: the next terminal past layout, step, shift, reduce, accept, and the records.

use crate::image::{Action, Pack, FIRST_NONTERMINAL};
use crate::numbers::{
    ALLOWANCE, DONE, NO_TERMINAL, QUERY_LONG, RECORD_LIMIT, RECORD_WORDS, SEVERAL, SHAPE,
    STACK_FULL, STACK_LIMIT, STUCK, TEXT_LIMIT, TREE_FULL, UNEXPECTED,
};
use crate::scan::{Match, Meter, Scanner, UsedUp};
use crate::sets::{self, Set};
use crate::shape;

/// What a parse gives.
#[derive(Clone, Copy, Debug, Default, PartialEq, Eq)]
pub struct Parsed {
    pub code: u32,
    pub place: u32,
    pub length: u32,
    pub terminal: u32,
    pub records: u32,
    pub moves: u32,
}

/// Parses the text into the lent tree: records at its front, the rest untouched.
pub fn parse(image: &[u16], text: &[u8], tree: &mut [u16], allowance: u32) -> Parsed {
    if text.len() > TEXT_LIMIT {
        return Parsed {
            code: QUERY_LONG,
            ..Parsed::default()
        };
    }
    match shape::pack(image) {
        Err(fault) => Parsed {
            code: SHAPE,
            place: fault.place as u32,
            ..Parsed::default()
        },
        Ok(pack) => Run::new(pack, text, tree, allowance).run(),
    }
}

/// How a run ends: code, place, and for some codes length and terminal.
struct End {
    code: u32,
    place: usize,
    length: usize,
    terminal: usize,
}

impl End {
    fn at(code: u32, place: usize) -> End {
        End {
            code,
            place,
            length: 0,
            terminal: 0,
        }
    }
}

struct Run<'i, 'l> {
    pack: Pack<'i>,
    scanner: Scanner<'i>,
    text: &'l [u8],
    tree: &'l mut [u16],
    /// Whole records that fit.
    room: usize,
    records: usize,
    stack: [u16; STACK_LIMIT],
    height: usize,
    /// Where the parse stands.
    place: usize,
    meter: Meter,
}

impl<'i, 'l> Run<'i, 'l> {
    fn new(pack: Pack<'i>, text: &'l [u8], tree: &'l mut [u16], allowance: u32) -> Run<'i, 'l> {
        let room = (tree.len() / RECORD_WORDS).min(RECORD_LIMIT);
        Run {
            pack,
            scanner: Scanner::new(pack),
            text,
            tree,
            room,
            records: 0,
            stack: [0; STACK_LIMIT],
            height: 1,
            place: 0,
            meter: Meter::new(allowance),
        }
    }

    fn run(mut self) -> Parsed {
        let end = loop {
            if let Err(end) = self.step() {
                break end;
            }
        };
        Parsed {
            code: end.code,
            place: end.place as u32,
            length: end.length as u32,
            terminal: end.terminal as u32,
            records: self.records as u32,
            moves: self.meter.moves,
        }
    }

    fn top(&self) -> usize {
        usize::from(self.stack[self.height - 1])
    }

    fn here(&self, code: u32) -> End {
        End::at(code, self.place)
    }

    /// One scan from where the parse stands.
    fn scan(&mut self, valid: Set) -> Result<Option<Match>, End> {
        self.scanner
            .scan(&self.text[self.place..], valid, &mut self.meter)
            .map_err(|UsedUp| End::at(ALLOWANCE, self.place))
    }

    /// Finds the terminal and does its action.
    fn step(&mut self) -> Result<(), End> {
        let (terminal, length) = self.next_terminal()?;
        match self.pack.action(self.top(), terminal) {
            // Only the end of the text comes here: a token's terminal is in the valid set.
            Action::Error => Err(self.here(UNEXPECTED)),
            Action::Accept => Err(self.accept()),
            Action::Shift(state) => self.shift(terminal, length, state),
            Action::Reduce(production) => self.reduce(production),
        }
    }

    /// The terminal that the state on top sees next, and its length: layout that wins a scan is skipped, and the scan
    /// made again by the same state. At the end of the text nothing is scanned.
    fn next_terminal(&mut self) -> Result<(usize, usize), End> {
        let layout = self.pack.layout();
        let sought = (self.pack.valid_set(self.top()) | layout) & !sets::single(0);
        while self.place < self.text.len() {
            let (terminal, length) = self.matched(sought)?;
            if !sets::has(layout, terminal) {
                return Ok((terminal, length));
            }
            self.place += length;
        }
        Ok((0, 0))
    }

    /// The one terminal that a scan with the set comes to, a token's or layout, and its length.
    fn matched(&mut self, sought: Set) -> Result<(usize, usize), End> {
        let Some(found) = self.scan(sought)? else {
            return Err(self.no_token()?);
        };
        let terminal = if sets::count(found.set) == 1 {
            sets::lowest(found.set)
        } else {
            self.pack.chosen_of(found.set)
        };
        match terminal {
            Some(terminal) => Ok((terminal, found.length)),
            None => Err(End {
                length: found.length,
                ..self.here(SEVERAL)
            }),
        }
    }

    /// Code 8 or 7, by a second scan with all terminals but 0 and layout.
    fn no_token(&mut self) -> Result<End, End> {
        let others =
            sets::below(self.pack.sizes.terminals) & !sets::single(0) & !self.pack.layout();
        let found = self.scan(others)?;
        Ok(match found.and_then(|m| Some((m, sets::lowest(m.set)?))) {
            Some((found, terminal)) => End {
                length: found.length,
                terminal,
                ..self.here(UNEXPECTED)
            },
            None => self.here(NO_TERMINAL),
        })
    }

    fn shift(&mut self, terminal: usize, length: usize, state: usize) -> Result<(), End> {
        let leaf = [terminal, self.place, length, self.top()];
        self.write_and_push(self.height, leaf, state)?;
        self.place += length;
        Ok(())
    }

    fn reduce(&mut self, production: usize) -> Result<(), End> {
        let len = self.pack.len(production);
        let lhs = self.pack.lhs(production);
        if self.height < len + 1 {
            return Err(self.here(STUCK));
        }
        let height = self.height - len;
        let uncovered = usize::from(self.stack[height - 1]);
        let Some(state) = self.pack.goto(uncovered, lhs) else {
            return Err(self.here(STUCK));
        };
        let node = [FIRST_NONTERMINAL + lhs, production, len, uncovered];
        self.write_and_push(height, node, state)
    }

    fn accept(&self) -> End {
        if self.height == 2 {
            End::at(DONE, self.text.len())
        } else {
            self.here(STUCK)
        }
    }

    /// Writes one record and pushes a state on the lowest `height` states; code 11 comes before 12, and both leave
    /// everything as it is.
    fn write_and_push(
        &mut self,
        height: usize,
        record: [usize; RECORD_WORDS],
        state: usize,
    ) -> Result<(), End> {
        if self.records == self.room {
            return Err(self.here(TREE_FULL));
        }
        if height == STACK_LIMIT {
            return Err(self.here(STACK_FULL));
        }
        let first = self.records * RECORD_WORDS;
        self.tree[first..first + RECORD_WORDS].copy_from_slice(&record.map(|word| word as u16));
        self.records += 1;
        self.stack[height] = state as u16;
        self.height = height + 1;
        Ok(())
    }
}
