//! The image: its sizes, where each table stands, and the accessors. No other file knows a bare offset.

use crate::sets::{self, Set};

/// Words of a set in the image.
pub const SET_WORDS: usize = 4;
/// Words of a production in the image.
pub const PROD_WORDS: usize = 16;
/// The most symbols of a production.
pub const PROD_SYMBOLS: usize = 14;
/// Words of a class range.
pub const RANGE_WORDS: usize = 3;
/// Words of a scan state's three sets.
pub const SCAN_WORDS: usize = 3 * SET_WORDS;
/// Words of a group.
pub const GROUP_WORDS: usize = SET_WORDS + 1;
/// The first of the eight size words.
pub const SIZE_PLACE: usize = 1;
pub const SIZE_COUNT: usize = 8;
/// Where the layout set stands, after the 1 and the sizes.
pub const LAYOUT_PLACE: usize = SIZE_PLACE + SIZE_COUNT;
/// Symbol number of nonterminal 0.
pub const FIRST_NONTERMINAL: usize = 64;

/// Least and greatest of T, N, P, S, Q, C, R, G.
pub const SIZE_LIMITS: [(u16, u16); SIZE_COUNT] = [
    (1, 64),
    (1, 32),
    (1, 128),
    (1, 128),
    (1, 128),
    (1, 32),
    (0, 64),
    (0, 32),
];

pub const SIZE_NAMES: [&str; SIZE_COUNT] = ["T", "N", "P", "S", "Q", "C", "R", "G"];

#[derive(Clone, Copy, Debug, PartialEq, Eq)]
pub struct Sizes {
    pub terminals: usize,
    pub nonterminals: usize,
    pub productions: usize,
    pub states: usize,
    pub scan_states: usize,
    pub classes: usize,
    pub ranges: usize,
    pub groups: usize,
}

impl Sizes {
    pub fn from_words(words: &[u16]) -> Sizes {
        let size = |i: usize| usize::from(words[i]);
        Sizes {
            terminals: size(0),
            nonterminals: size(1),
            productions: size(2),
            states: size(3),
            scan_states: size(4),
            classes: size(5),
            ranges: size(6),
            groups: size(7),
        }
    }

    pub fn to_words(self) -> [u16; SIZE_COUNT] {
        [
            self.terminals,
            self.nonterminals,
            self.productions,
            self.states,
            self.scan_states,
            self.classes,
            self.ranges,
            self.groups,
        ]
        .map(|size| size as u16)
    }

    pub fn places(self) -> Places {
        let dom = LAYOUT_PLACE + SET_WORDS;
        let prod = dom + SET_WORDS * self.terminals;
        let act = prod + PROD_WORDS * self.productions;
        let goto = act + self.states * self.terminals;
        let class = goto + self.states * self.nonterminals;
        let moves = class + RANGE_WORDS * self.ranges;
        let scan = moves + self.scan_states * self.classes;
        let group = scan + SCAN_WORDS * self.scan_states;
        let end = group + GROUP_WORDS * self.groups;
        Places {
            dom,
            prod,
            act,
            goto,
            class,
            moves,
            scan,
            group,
            end,
        }
    }
}

/// The first word of each table, and the number of words of the whole image.
#[derive(Clone, Copy, Debug, PartialEq, Eq)]
pub struct Places {
    pub dom: usize,
    pub prod: usize,
    pub act: usize,
    pub goto: usize,
    pub class: usize,
    pub moves: usize,
    pub scan: usize,
    pub group: usize,
    pub end: usize,
}

#[derive(Clone, Copy, Debug, PartialEq, Eq)]
pub enum Action {
    Error,
    Accept,
    Shift(usize),
    Reduce(usize),
}

impl Action {
    pub fn from_code(code: u16) -> Action {
        match code {
            0 => Action::Error,
            1 => Action::Accept,
            _ if code.is_multiple_of(2) => Action::Shift(usize::from((code - 2) / 2)),
            _ => Action::Reduce(usize::from((code - 3) / 2)),
        }
    }

    pub fn code(self) -> u16 {
        match self {
            Action::Error => 0,
            Action::Accept => 1,
            Action::Shift(s) => (2 + 2 * s) as u16,
            Action::Reduce(p) => (3 + 2 * p) as u16,
        }
    }
}

#[derive(Clone, Copy, Debug, PartialEq, Eq)]
pub struct Range {
    pub lo: u16,
    pub hi: u16,
    pub class: u16,
}

/// An image whose sizes and total length are good. The accessors say nothing about the rest of the shape.
#[derive(Clone, Copy, Debug)]
pub struct Pack<'i> {
    words: &'i [u16],
    pub sizes: Sizes,
    pub places: Places,
}

impl<'i> Pack<'i> {
    /// The caller knows that the size words are there, are in range and fit the length.
    pub fn new(words: &'i [u16]) -> Pack<'i> {
        let sizes = Sizes::from_words(&words[SIZE_PLACE..LAYOUT_PLACE]);
        let places = sizes.places();
        assert_eq!(words.len(), places.end);
        Pack {
            words,
            sizes,
            places,
        }
    }

    pub fn words(&self) -> &'i [u16] {
        self.words
    }

    pub fn word(&self, place: usize) -> u16 {
        self.words[place]
    }

    /// The set whose first word stands at `place`.
    pub fn set(&self, place: usize) -> Set {
        sets::from_words(&self.words[place..place + SET_WORDS])
    }

    pub fn layout(&self) -> Set {
        self.set(LAYOUT_PLACE)
    }

    pub fn dom_place(&self, t: usize) -> usize {
        self.places.dom + SET_WORDS * t
    }

    /// The terminals that outrank `t`.
    pub fn dom(&self, t: usize) -> Set {
        self.set(self.dom_place(t))
    }

    pub fn prod_place(&self, p: usize) -> usize {
        self.places.prod + PROD_WORDS * p
    }

    pub fn lhs(&self, p: usize) -> usize {
        usize::from(self.words[self.prod_place(p)])
    }

    pub fn len(&self, p: usize) -> usize {
        usize::from(self.words[self.prod_place(p) + 1])
    }

    /// The symbols on the right of production `p`, as many as its len says.
    pub fn symbols(&self, p: usize) -> &'i [u16] {
        let first = self.prod_place(p) + 2;
        &self.words[first..first + self.len(p)]
    }

    pub fn act_place(&self, s: usize, t: usize) -> usize {
        self.places.act + s * self.sizes.terminals + t
    }

    pub fn act_row(&self, s: usize) -> &'i [u16] {
        let first = self.act_place(s, 0);
        &self.words[first..first + self.sizes.terminals]
    }

    pub fn action(&self, s: usize, t: usize) -> Action {
        Action::from_code(self.words[self.act_place(s, t)])
    }

    /// V(s): the terminals with a non-zero cell in row `s`.
    pub fn valid_set(&self, s: usize) -> Set {
        self.act_row(s)
            .iter()
            .enumerate()
            .filter(|(_, &code)| code != 0)
            .fold(sets::EMPTY, |set, (t, _)| set | sets::single(t))
    }

    pub fn goto_place(&self, s: usize, n: usize) -> usize {
        self.places.goto + s * self.sizes.nonterminals + n
    }

    pub fn goto_row(&self, s: usize) -> &'i [u16] {
        let first = self.goto_place(s, 0);
        &self.words[first..first + self.sizes.nonterminals]
    }

    pub fn goto(&self, s: usize, n: usize) -> Option<usize> {
        usize::from(self.words[self.goto_place(s, n)]).checked_sub(1)
    }

    pub fn range_place(&self, r: usize) -> usize {
        self.places.class + RANGE_WORDS * r
    }

    pub fn range(&self, r: usize) -> Range {
        let place = self.range_place(r);
        Range {
            lo: self.words[place],
            hi: self.words[place + 1],
            class: self.words[place + 2],
        }
    }

    /// The row of 256 classes. A byte in no range has class 0.
    pub fn classes(&self) -> [u8; 256] {
        let mut row = [0; 256];
        for r in 0..self.sizes.ranges {
            let Range { lo, hi, class } = self.range(r);
            for byte in lo..=hi {
                row[usize::from(byte)] = class as u8;
            }
        }
        row
    }

    pub fn move_place(&self, q: usize, c: usize) -> usize {
        self.places.moves + q * self.sizes.classes + c
    }

    pub fn move_row(&self, q: usize) -> &'i [u16] {
        let first = self.move_place(q, 0);
        &self.words[first..first + self.sizes.classes]
    }

    pub fn moved(&self, q: usize, c: usize) -> Option<usize> {
        usize::from(self.words[self.move_place(q, c)]).checked_sub(1)
    }

    pub fn acc_place(&self, q: usize) -> usize {
        self.places.scan + SCAN_WORDS * q
    }

    pub fn rej_place(&self, q: usize) -> usize {
        self.acc_place(q) + SET_WORDS
    }

    pub fn poss_place(&self, q: usize) -> usize {
        self.rej_place(q) + SET_WORDS
    }

    pub fn acc(&self, q: usize) -> Set {
        self.set(self.acc_place(q))
    }

    pub fn rej(&self, q: usize) -> Set {
        self.set(self.rej_place(q))
    }

    pub fn poss(&self, q: usize) -> Set {
        self.set(self.poss_place(q))
    }

    pub fn group_place(&self, g: usize) -> usize {
        self.places.group + GROUP_WORDS * g
    }

    pub fn group(&self, g: usize) -> Set {
        self.set(self.group_place(g))
    }

    pub fn chosen_place(&self, g: usize) -> usize {
        self.group_place(g) + SET_WORDS
    }

    pub fn chosen(&self, g: usize) -> usize {
        usize::from(self.words[self.chosen_place(g)])
    }

    /// The chosen terminal of the group that equals `set`.
    pub fn chosen_of(&self, set: Set) -> Option<usize> {
        (0..self.sizes.groups)
            .find(|&g| self.group(g) == set)
            .map(|g| self.chosen(g))
    }
}
