//! The looks of a parse, made again from its records: what each state on top matched, layout or a token.

use crate::image::{Action, Pack, FIRST_NONTERMINAL};
use crate::numbers::RECORD_WORDS;
use crate::scan::{Match, Meter, Scanner};
use crate::sets::{self, Set};

/// One scan for a state's terminals and layout together.
pub struct Look {
    pub state: usize,
    pub place: usize,
    /// The last record before it is a node.
    pub reduced: bool,
    pub found: Option<Match>,
    /// The match's one terminal, if it has one, alone or chosen by a group.
    pub terminal: Option<usize>,
}

/// What is left of a parse when its records are gone through: the stack, and how high it was at the most.
pub struct Looks<'i> {
    pack: Pack<'i>,
    scanner: Scanner<'i>,
    pub looks: Vec<Look>,
    pub stack: Vec<usize>,
    pub highest: usize,
    /// Where the parse stands when the state on top has skipped layout.
    pub place: usize,
}

impl<'i> Looks<'i> {
    /// Of a parse that wrote these records; its looks end where the parse did, at the place given.
    pub fn of(pack: Pack<'i>, text: &[u8], records: &[u16], end: usize) -> Looks<'i> {
        let mut looks = Looks {
            pack,
            scanner: Scanner::new(pack),
            looks: Vec::new(),
            stack: vec![0],
            highest: 1,
            place: 0,
        };
        let mut reduced = false;
        for record in records.chunks_exact(RECORD_WORDS) {
            looks.look(text, text.len(), reduced);
            let [first, _, third, state] =
                [record[0], record[1], record[2], record[3]].map(usize::from);
            reduced = first >= FIRST_NONTERMINAL;
            let next = if reduced {
                looks.stack.truncate(looks.stack.len() - third);
                pack.goto(state, first - FIRST_NONTERMINAL)
            } else {
                looks.place += third;
                match pack.action(state, first) {
                    Action::Shift(to) => Some(to),
                    _ => None,
                }
            };
            looks.stack.extend(next);
            looks.highest = looks.highest.max(looks.stack.len());
        }
        looks.look(text, end, reduced);
        looks
    }

    pub fn top(&self) -> usize {
        self.stack[self.stack.len() - 1]
    }

    /// The terminals that are sought in a state, layout with them.
    pub fn sought(&self, state: usize) -> Set {
        (self.pack.valid_set(state) | self.pack.layout()) & !sets::single(0)
    }

    /// What a scan from the place matches.
    pub fn scan(&self, text: &[u8], place: usize, set: Set) -> Option<Match> {
        let scanned = self
            .scanner
            .scan(&text[place..], set, &mut Meter::new(u32::MAX));
        scanned.ok().flatten()
    }

    /// Looks of the state on top, past layout, and not past the end that is given.
    fn look(&mut self, text: &[u8], end: usize, reduced: bool) {
        let (state, sought) = (self.top(), self.sought(self.top()));
        while self.place < text.len() {
            let found = self.scan(text, self.place, sought);
            let terminal = found.and_then(|found| match sets::count(found.set) {
                1 => sets::lowest(found.set),
                _ => self.pack.chosen_of(found.set),
            });
            self.looks.push(Look {
                state,
                place: self.place,
                reduced,
                found,
                terminal,
            });
            match (found, terminal) {
                (Some(found), Some(t)) if sets::has(self.pack.layout(), t) && self.place < end => {
                    self.place += found.length
                }
                _ => return,
            }
        }
    }
}
