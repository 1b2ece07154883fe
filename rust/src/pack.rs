//! A pack: its image, which is of good shape, and the tables in it by name. No other file knows where a table stands.

use std::fmt;
use std::str::FromStr;

use crate::lent::{self, Scanned, LARGEST_IMAGE, LONGEST_TEXT};
use crate::refused::Refused;
use crate::terminals::Terminals;
use crate::tree::{Parsed, Record, Records, Tree};

const SET_WORDS: usize = 4;
const PROD_WORDS: usize = 16;
const RANGE_WORDS: usize = 3;
const SCAN_WORDS: usize = 3 * SET_WORDS;
const GROUP_WORDS: usize = SET_WORDS + 1;
const SIZE_PLACE: usize = 1;
const LAYOUT_PLACE: usize = SIZE_PLACE + 8;
const FIRST_NONTERMINAL: usize = 64;

/// A terminal or a nonterminal. As one number, terminal t is t and nonterminal n is 64 + n.
#[derive(Clone, Copy, Debug, PartialEq, Eq, Hash, PartialOrd, Ord)]
pub enum Symbol {
    /// Terminal 0 is the end of the text.
    Terminal(usize),
    /// Nonterminal 0 is the start symbol.
    Nonterminal(usize),
}

impl Symbol {
    /// The symbol of a number.
    pub fn of(number: usize) -> Symbol {
        match number.checked_sub(FIRST_NONTERMINAL) {
            None => Symbol::Terminal(number),
            Some(nonterminal) => Symbol::Nonterminal(nonterminal),
        }
    }

    /// The number of the symbol.
    pub fn number(self) -> usize {
        match self {
            Symbol::Terminal(terminal) => terminal,
            Symbol::Nonterminal(nonterminal) => FIRST_NONTERMINAL + nonterminal,
        }
    }
}

/// What a parse state does on a terminal.
#[derive(Clone, Copy, Debug, PartialEq, Eq, Hash)]
pub enum Action {
    /// The terminal is not allowed.
    Error,
    /// The query is done.
    Accept,
    /// Take the terminal, and go to this state.
    Shift(usize),
    /// Reduce by this production.
    Reduce(usize),
}

/// A production: a nonterminal, and the symbols that it stands for.
#[derive(Clone, Debug, PartialEq, Eq, Hash)]
pub struct Production {
    /// The nonterminal on the left.
    pub left: usize,
    /// Up to 14 symbols on the right.
    pub symbols: Vec<Symbol>,
}

/// The three sets of a scan state.
#[derive(Clone, Copy, Debug, PartialEq, Eq, Hash)]
pub struct ScanSets {
    /// What it accepts.
    pub accepted: Terminals,
    /// What matches there and is rejected, being outranked.
    pub rejected: Terminals,
    /// What may still come.
    pub possible: Terminals,
}

/// A range of bytes and its class.
#[derive(Clone, Copy, Debug, PartialEq, Eq, Hash)]
pub struct ByteRange {
    /// The first byte.
    pub low: u8,
    /// The last byte.
    pub high: u8,
    /// Their class.
    pub class: usize,
}

/// Terminals that may match the same bytes, and the one that is chosen then.
#[derive(Clone, Copy, Debug, PartialEq, Eq, Hash)]
pub struct Group {
    /// At least two.
    pub terminals: Terminals,
    /// One of them.
    pub chosen: usize,
}

/// The eight sizes of a pack.
#[derive(Clone, Copy, Debug, PartialEq, Eq, Hash)]
pub struct Sizes {
    /// T
    pub terminals: usize,
    /// N
    pub nonterminals: usize,
    /// P
    pub productions: usize,
    /// S
    pub states: usize,
    /// Q
    pub scan_states: usize,
    /// C
    pub classes: usize,
    /// R
    pub ranges: usize,
    /// G
    pub groups: usize,
}

/// Which part of an image a word belongs to, with the numbers of its row and its column.
#[derive(Clone, Copy, Debug, PartialEq, Eq, Hash)]
pub enum Part {
    /// Word 0, which is 1 whatever the form of the text.
    Form,
    /// A size: T, N, P, S, Q, C, R, G are 0 to 7.
    Size(usize),
    /// The layout set.
    Layout,
    /// The set of those that outrank a terminal.
    Outranks(usize),
    /// The left side of a production.
    Left(usize),
    /// The number of symbols of a production.
    Length(usize),
    /// A symbol of a production: the production, and which of the 14.
    Symbol(usize, usize),
    /// The action of a state on a terminal.
    Action(usize, usize),
    /// The goto of a state on a nonterminal.
    Goto(usize, usize),
    /// A range of bytes: which one, and 0, 1, 2 for low, high and class.
    Range(usize, usize),
    /// The move of a scan state on a class.
    Move(usize, usize),
    /// A set of a scan state: which state, and 0, 1, 2 for accepted, rejected and possible.
    Scan(usize, usize),
    /// The set of a group.
    Group(usize),
    /// The chosen terminal of a group.
    Chosen(usize),
    /// Behind the last word.
    End,
}

/// The first word of each table, and the number of words of the image.
#[derive(Clone, Copy, PartialEq, Eq)]
struct Places {
    prod: usize,
    act: usize,
    goto: usize,
    class: usize,
    moves: usize,
    scan: usize,
    group: usize,
    end: usize,
}

impl Sizes {
    /// The sizes in the order T, N, P, S, Q, C, R, G.
    pub fn of(numbers: [usize; 8]) -> Sizes {
        let [terminals, nonterminals, productions, states, scan_states, classes, ranges, groups] =
            numbers;
        Sizes {
            terminals,
            nonterminals,
            productions,
            states,
            scan_states,
            classes,
            ranges,
            groups,
        }
    }

    /// The eight numbers in the order T, N, P, S, Q, C, R, G.
    pub fn numbers(&self) -> [usize; 8] {
        [
            self.terminals,
            self.nonterminals,
            self.productions,
            self.states,
            self.scan_states,
            self.classes,
            self.ranges,
            self.groups,
        ]
    }

    /// The words of an image of these sizes.
    pub fn words(&self) -> usize {
        self.places().end
    }

    fn places(&self) -> Places {
        let prod = LAYOUT_PLACE + SET_WORDS + SET_WORDS * self.terminals;
        let act = prod + PROD_WORDS * self.productions;
        let goto = act + self.states * self.terminals;
        let class = goto + self.states * self.nonterminals;
        let moves = class + RANGE_WORDS * self.ranges;
        let scan = moves + self.scan_states * self.classes;
        let group = scan + SCAN_WORDS * self.scan_states;
        let end = group + GROUP_WORDS * self.groups;
        Places {
            prod,
            act,
            goto,
            class,
            moves,
            scan,
            group,
            end,
        }
    }

    /// What the word at a place stands for, in an image of these sizes.
    pub fn part(&self, word: usize) -> Part {
        let at = self.places();
        // A word that lies in a table of rows of some words, as its row and its column.
        let cell = |first: usize, row: usize| ((word - first) / row, (word - first) % row);
        if word < SIZE_PLACE {
            Part::Form
        } else if word < LAYOUT_PLACE {
            Part::Size(word - SIZE_PLACE)
        } else if word < LAYOUT_PLACE + SET_WORDS {
            Part::Layout
        } else if word < at.prod {
            Part::Outranks(cell(LAYOUT_PLACE + SET_WORDS, SET_WORDS).0)
        } else if word < at.act {
            match cell(at.prod, PROD_WORDS) {
                (production, 0) => Part::Left(production),
                (production, 1) => Part::Length(production),
                (production, column) => Part::Symbol(production, column - 2),
            }
        } else if word < at.goto {
            let (state, terminal) = cell(at.act, self.terminals);
            Part::Action(state, terminal)
        } else if word < at.class {
            let (state, nonterminal) = cell(at.goto, self.nonterminals);
            Part::Goto(state, nonterminal)
        } else if word < at.moves {
            let (range, column) = cell(at.class, RANGE_WORDS);
            Part::Range(range, column)
        } else if word < at.scan {
            let (state, class) = cell(at.moves, self.classes);
            Part::Move(state, class)
        } else if word < at.group {
            let (state, column) = cell(at.scan, SCAN_WORDS);
            Part::Scan(state, column / SET_WORDS)
        } else if word < at.end {
            match cell(at.group, GROUP_WORDS) {
                (group, SET_WORDS) => Part::Chosen(group),
                (group, _) => Part::Group(group),
            }
        } else {
            Part::End
        }
    }
}

/// Where a row of a table begins, if the table has so many.
fn row(first: usize, words: usize, number: usize, count: usize) -> Option<usize> {
    (number < count).then(|| first + words * number)
}

/// A pack of good shape. It need not have passed the check; [`Pack::check`] tells.
///
/// ```
/// use zhgarelli::{Pack, Refused, Tree};
///
/// # let text = std::fs::read("../packs/small.pack").unwrap();
/// let pack = Pack::read(&text)?;
/// pack.check()?;
/// let mut tree = Tree::new();
/// let parsed = pack.parse("tax by day", &mut tree, u32::MAX)?;
/// assert_eq!(parsed.leaves().map(|leaf| leaf.bytes).collect::<Vec<_>>(), [b"tax" as &[u8], b"by", b"day"]);
/// # Ok::<(), Refused>(())
/// ```
#[derive(Clone, PartialEq, Eq)]
pub struct Pack {
    words: Box<[u16]>,
    sizes: Sizes,
    places: Places,
}

impl Pack {
    /// Reads a pack text of either form. It is refused with code 2, 1 or 4, in this order.
    ///
    /// ```
    /// use zhgarelli::{Pack, Refused};
    ///
    /// assert_eq!(Pack::read("pack=3\n"), Err(Refused::Form { place: 0 }));
    /// assert_eq!(Pack::read("pack=2\n"), Err(Refused::Form { place: 7 }));
    /// ```
    pub fn read(text: impl AsRef<[u8]>) -> Result<Pack, Refused> {
        let mut words = vec![0; LARGEST_IMAGE];
        let count = lent::read(text.as_ref(), &mut words)?;
        words.truncate(count);
        Ok(Pack::of_good_shape(words))
    }

    /// Takes an image, if its shape is good. It is refused with code 4.
    ///
    /// ```
    /// use zhgarelli::{Pack, Refused};
    ///
    /// assert_eq!(Pack::of_image([1, 0]), Err(Refused::Shape { word: 1 }));
    /// ```
    pub fn of_image(words: impl Into<Vec<u16>>) -> Result<Pack, Refused> {
        let words = words.into();
        lent::shape(&words)?;
        Ok(Pack::of_good_shape(words))
    }

    /// The caller knows that the shape is good, so the eight sizes are there and fit the length.
    fn of_good_shape(words: Vec<u16>) -> Pack {
        let mut numbers = [0; 8];
        for (number, &word) in numbers.iter_mut().zip(&words[SIZE_PLACE..LAYOUT_PLACE]) {
            *number = usize::from(word);
        }
        let sizes = Sizes::of(numbers);
        Pack {
            words: words.into(),
            sizes,
            places: sizes.places(),
        }
    }

    /// The image.
    pub fn image(&self) -> &[u16] {
        &self.words
    }

    /// Writes the pack as text of form 1; reading that gives the same pack. It is refused with code 2 where the text would be too long.
    ///
    /// ```
    /// # use zhgarelli::{Pack, Refused};
    /// # let text = std::fs::read("../packs/json.pack").unwrap();
    /// assert_eq!(Pack::read(&text)?.write()?, text);
    /// # Ok::<(), Refused>(())
    /// ```
    pub fn write(&self) -> Result<Vec<u8>, Refused> {
        let mut text = vec![0; LONGEST_TEXT];
        let bytes = lent::write(&self.words, &mut text)?;
        text.truncate(bytes);
        Ok(text)
    }

    /// Writes the pack as text of form 2, which leaves out the cells that are 0; reading that gives the same pack. It is refused with code 2
    /// where the text would be too long.
    ///
    /// ```
    /// # use zhgarelli::{Pack, Refused};
    /// # let text = std::fs::read("../packs/json.pack").unwrap();
    /// let pack = Pack::read(&text)?;
    /// let second = pack.write_form2()?;
    /// assert!(second.starts_with(b"pack=2\n") && second.len() < text.len());
    /// assert_eq!(Pack::read(&second)?, pack);
    /// # Ok::<(), Refused>(())
    /// ```
    pub fn write_form2(&self) -> Result<Vec<u8>, Refused> {
        let mut text = vec![0; LONGEST_TEXT];
        let bytes = lent::write_form2(&self.words, &mut text)?;
        text.truncate(bytes);
        Ok(text)
    }

    /// Whether the pack keeps the six conditions of the check. It is refused with code 5.
    ///
    /// A pack that passes never gives [`Refused::Several`] or [`Refused::Stuck`], and the records of a query that it accepts are one
    /// derivation of it.
    pub fn check(&self) -> Result<(), Refused> {
        lent::check(&self.words)
    }

    /// Parses a query into the tree, with an allowance of moves for all its scans together. It is refused with code 6, or with 7 to 13.
    ///
    /// Also a refused parse leaves records in the tree: [`Tree::records`] gives them.
    ///
    /// ```
    /// use zhgarelli::{Pack, Record, Refused, Tree};
    ///
    /// # let text = std::fs::read("../packs/profile.pack").unwrap();
    /// let pack = Pack::read(&text)?;
    /// let mut tree = Tree::with_room(100);
    /// match pack.parse("share of group", &mut tree, 1_000) {
    ///     Ok(_) => unreachable!("group is a keyword, and not allowed there"),
    ///     Err(refused) => {
    ///         assert_eq!((refused.code(), refused.values()), (8, [9, 5, 6]));
    ///         let records = tree.records("share of group");
    ///         assert!(matches!(records.last(), Some(Record::Leaf(leaf)) if leaf.bytes == b"of"));
    ///         // Names (terminal 20) and frames (21) are what the state allows there.
    ///         let state = pack.state_on_top(records).unwrap();
    ///         assert_eq!(pack.valid(state).iter().collect::<Vec<_>>(), [20, 21]);
    ///     }
    /// }
    /// # Ok::<(), Refused>(())
    /// ```
    pub fn parse<'t>(
        &self,
        query: &'t (impl AsRef<[u8]> + ?Sized),
        tree: &'t mut Tree,
        allowance: u32,
    ) -> Result<Parsed<'t>, Refused> {
        let query = query.as_ref();
        let answer = tree.parse(&self.words, query, allowance)?;
        Ok(Parsed::new(tree.records(query), answer.moves))
    }

    /// One scan by itself: the longest match from `start` on of the terminals of a set, rejects included. It is refused with code 6 or 13.
    ///
    /// ```
    /// # use zhgarelli::{Pack, Refused, Terminals};
    /// # let text = std::fs::read("../packs/small.pack").unwrap();
    /// let pack = Pack::read(&text)?;
    /// let name = Terminals::one(2);
    /// assert_eq!(pack.scan("bye", 0, name, u32::MAX)?.found.map(|found| found.length), Some(3));
    /// // `by` outranks names, so it is none; and `b` is not taken for one instead.
    /// assert_eq!(pack.scan("by", 0, name, u32::MAX)?.found, None);
    /// # Ok::<(), Refused>(())
    /// ```
    pub fn scan(
        &self,
        text: impl AsRef<[u8]>,
        start: usize,
        set: Terminals,
        allowance: u32,
    ) -> Result<Scanned, Refused> {
        lent::scan(&self.words, text.as_ref(), start, set, allowance)
    }

    /// The state that the parse is in behind these records: the one on top of its stack.
    ///
    /// The last record tells it. A leaf has the state that shifted it, whose action on the leaf's terminal names the state that was pushed;
    /// a node has the state uncovered, whose goto names it. Without records it is state 0. Records that no parse by this pack leaves may
    /// have none.
    pub fn state_on_top(&self, records: Records) -> Option<usize> {
        match records.last() {
            None => Some(0),
            Some(Record::Leaf(leaf)) => match self.action(leaf.state, leaf.terminal) {
                Action::Shift(state) => Some(state),
                _ => None,
            },
            Some(Record::Node(node)) => self.goto(node.state, node.nonterminal),
        }
    }

    /// The sizes.
    pub fn sizes(&self) -> Sizes {
        self.sizes
    }

    /// A word; 0 where there is none.
    fn word(&self, place: usize) -> usize {
        self.words.get(place).copied().unwrap_or_default().into()
    }

    /// The set whose first word stands at a place.
    fn set(&self, place: usize) -> Terminals {
        let bits = (0..SET_WORDS).map(|i| (self.word(place + i) as u64) << (16 * i));
        Terminals::of_bits(bits.sum())
    }

    /// The terminals that are skipped between tokens.
    pub fn layout(&self) -> Terminals {
        self.set(LAYOUT_PLACE)
    }

    /// The terminals that outrank this one; none where it is no terminal.
    pub fn outranks(&self, terminal: usize) -> Terminals {
        if terminal < self.sizes.terminals {
            self.set(LAYOUT_PLACE + SET_WORDS + SET_WORDS * terminal)
        } else {
            Terminals::NONE
        }
    }

    /// A production, if there is one of that number.
    pub fn production(&self, production: usize) -> Option<Production> {
        let place = row(
            self.places.prod,
            PROD_WORDS,
            production,
            self.sizes.productions,
        )?;
        Some(Production {
            left: self.word(place),
            symbols: (0..self.word(place + 1))
                .map(|i| Symbol::of(self.word(place + 2 + i)))
                .collect(),
        })
    }

    /// What a state does on a terminal; an error where there is no such state or terminal.
    pub fn action(&self, state: usize, terminal: usize) -> Action {
        if state >= self.sizes.states || terminal >= self.sizes.terminals {
            return Action::Error;
        }
        match self.word(self.places.act + state * self.sizes.terminals + terminal) {
            0 => Action::Error,
            1 => Action::Accept,
            code if code % 2 == 0 => Action::Shift((code - 2) / 2),
            code => Action::Reduce((code - 3) / 2),
        }
    }

    /// V(s): the terminals that a state allows, the end (terminal 0) among them; none where there is no such state.
    pub fn valid(&self, state: usize) -> Terminals {
        (0..self.sizes.terminals)
            .filter(|&terminal| self.action(state, terminal) != Action::Error)
            .collect()
    }

    /// The state that another one goes to on a nonterminal.
    pub fn goto(&self, state: usize, nonterminal: usize) -> Option<usize> {
        if state >= self.sizes.states || nonterminal >= self.sizes.nonterminals {
            return None;
        }
        self.word(self.places.goto + state * self.sizes.nonterminals + nonterminal)
            .checked_sub(1)
    }

    /// All edges that lead to a state: where each one starts, and the symbol that it carries.
    pub fn edges_into(&self, state: usize) -> Vec<(usize, Symbol)> {
        let mut edges = Vec::new();
        for from in 0..self.sizes.states {
            for terminal in 0..self.sizes.terminals {
                if self.action(from, terminal) == Action::Shift(state) {
                    edges.push((from, Symbol::Terminal(terminal)));
                }
            }
            for nonterminal in 0..self.sizes.nonterminals {
                if self.goto(from, nonterminal) == Some(state) {
                    edges.push((from, Symbol::Nonterminal(nonterminal)));
                }
            }
        }
        edges
    }

    /// A range of bytes, if there is one of that number.
    pub fn range(&self, range: usize) -> Option<ByteRange> {
        let place = row(self.places.class, RANGE_WORDS, range, self.sizes.ranges)?;
        Some(ByteRange {
            low: self.word(place) as u8,
            high: self.word(place + 1) as u8,
            class: self.word(place + 2),
        })
    }

    /// The class of a byte: that of the range which holds it, or 0.
    pub fn class(&self, byte: u8) -> usize {
        (0..self.sizes.ranges)
            .filter_map(|range| self.range(range))
            .find(|range| (range.low..=range.high).contains(&byte))
            .map_or(0, |range| range.class)
    }

    /// The scan state that another one moves to on a class.
    pub fn moved(&self, scan_state: usize, class: usize) -> Option<usize> {
        if scan_state >= self.sizes.scan_states || class >= self.sizes.classes {
            return None;
        }
        self.word(self.places.moves + scan_state * self.sizes.classes + class)
            .checked_sub(1)
    }

    /// The sets of a scan state, if there is one of that number.
    pub fn scan_sets(&self, scan_state: usize) -> Option<ScanSets> {
        let place = row(
            self.places.scan,
            SCAN_WORDS,
            scan_state,
            self.sizes.scan_states,
        )?;
        Some(ScanSets {
            accepted: self.set(place),
            rejected: self.set(place + SET_WORDS),
            possible: self.set(place + 2 * SET_WORDS),
        })
    }

    /// A group, if there is one of that number.
    pub fn group(&self, group: usize) -> Option<Group> {
        let place = row(self.places.group, GROUP_WORDS, group, self.sizes.groups)?;
        Some(Group {
            terminals: self.set(place),
            chosen: self.word(place + SET_WORDS),
        })
    }
}

impl FromStr for Pack {
    type Err = Refused;

    fn from_str(text: &str) -> Result<Pack, Refused> {
        Pack::read(text)
    }
}

impl fmt::Debug for Pack {
    fn fmt(&self, f: &mut fmt::Formatter) -> fmt::Result {
        f.debug_struct("Pack")
            .field("sizes", &self.sizes)
            .finish_non_exhaustive()
    }
}
