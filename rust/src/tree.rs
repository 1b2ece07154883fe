//! The tree that a parse writes: its records, and the way they hang together.

use std::iter::FusedIterator;
use std::ops::Range;

use crate::lent::{self, LONGEST_TEXT, MOST_RECORDS, RECORD_WORDS};
use crate::refused::{Refused, Work};

/// Room for the records of a parse. It can be used again and again.
#[derive(Clone, Debug)]
pub struct Tree {
    words: Vec<u16>,
    records: usize,
}

impl Tree {
    /// Room for as many records as a parse may ever write: 65,535.
    pub fn new() -> Tree {
        Tree::with_room(MOST_RECORDS)
    }

    /// Room for so many records, and 65,535 at the most.
    pub fn with_room(records: usize) -> Tree {
        Tree {
            words: vec![0; RECORD_WORDS * records.min(MOST_RECORDS)],
            records: 0,
        }
    }

    /// A tree of records from elsewhere, four words each; words over are dropped. They need not be those of any parse.
    pub fn of_words(words: impl Into<Vec<u16>>) -> Tree {
        let mut words = words.into();
        let records = (words.len() / RECORD_WORDS).min(MOST_RECORDS);
        words.truncate(RECORD_WORDS * records);
        Tree { words, records }
    }

    /// How many records there is room for.
    pub fn room(&self) -> usize {
        self.words.len() / RECORD_WORDS
    }

    /// The records that the last parse left, also one that was refused. The text is the query: the leaves' bytes are parts of it.
    pub fn records<'t>(&'t self, text: &'t (impl AsRef<[u8]> + ?Sized)) -> Records<'t> {
        Records {
            words: &self.words[..RECORD_WORDS * self.records],
            text: text.as_ref(),
        }
    }

    /// Parses into this tree. What a refused parse leaves is counted too.
    pub(crate) fn parse(
        &mut self,
        image: &[u16],
        query: &[u8],
        allowance: u32,
    ) -> Result<Work, Refused> {
        let answer = lent::parse(image, query, &mut self.words, allowance);
        let work = match answer {
            Ok(work) => work,
            Err(refused) => refused.work().unwrap_or_default(),
        };
        self.records = work.records.min(self.room());
        answer
    }
}

impl Default for Tree {
    fn default() -> Tree {
        Tree::new()
    }
}

/// A leaf: a terminal and the bytes that it stands for.
#[derive(Clone, Copy, Debug, PartialEq, Eq, Hash)]
pub struct Leaf<'t> {
    /// The terminal.
    pub terminal: usize,
    /// Where it starts in the query.
    pub start: usize,
    /// How many bytes it has.
    pub length: usize,
    /// Those bytes, a part of the query itself; none where the record does not fit the text.
    pub bytes: &'t [u8],
    /// The state that shifted it.
    pub state: usize,
}

/// A node: a nonterminal by one of its productions.
#[derive(Clone, Copy, Debug, PartialEq, Eq, Hash)]
pub struct Node {
    /// The nonterminal.
    pub nonterminal: usize,
    /// The production.
    pub production: usize,
    /// How many children it has: whole trees, right before it.
    pub children: usize,
    /// The state that was uncovered by the reduction.
    pub state: usize,
}

/// A record of a tree.
#[derive(Clone, Copy, Debug, PartialEq, Eq, Hash)]
pub enum Record<'t> {
    /// A leaf.
    Leaf(Leaf<'t>),
    /// A node.
    Node(Node),
}

/// Records in the order in which they were made, each node after its children, beside the text that they are about.
///
/// ```
/// use zhgarelli::{Pack, Record, Refused, Tree};
///
/// # let text = std::fs::read("../packs/small.pack").unwrap();
/// let pack = Pack::read(&text)?;
/// let mut tree = Tree::new();
/// let parsed = pack.parse("tax by day", &mut tree, u32::MAX)?;
/// for record in parsed.records() {
///     match record {
///         Record::Leaf(leaf) => println!("terminal {}: {:?}", leaf.terminal, String::from_utf8_lossy(leaf.bytes)),
///         Record::Node(node) => println!("nonterminal {} of {} children", node.nonterminal, node.children),
///     }
/// }
/// assert_eq!(parsed.records().words(), [2, 0, 3, 0, 1, 4, 2, 1, 2, 7, 3, 2, 64, 1, 3, 0]);
/// # Ok::<(), Refused>(())
/// ```
#[derive(Clone, Copy, Debug, PartialEq, Eq)]
pub struct Records<'t> {
    words: &'t [u16],
    text: &'t [u8],
}

impl<'t> Records<'t> {
    /// The records as the words that stand in the tree, four each.
    pub fn words(&self) -> &'t [u16] {
        self.words
    }

    /// The text that they are about.
    pub fn text(&self) -> &'t [u8] {
        self.text
    }

    /// How many there are.
    pub fn len(&self) -> usize {
        self.words.len() / RECORD_WORDS
    }

    /// Whether there is none.
    pub fn is_empty(&self) -> bool {
        self.words.is_empty()
    }

    /// One of them.
    pub fn get(&self, index: usize) -> Option<Record<'t>> {
        let first = index.checked_mul(RECORD_WORDS)?;
        let words = self.words.get(first..)?.get(..RECORD_WORDS)?;
        let record: [u16; RECORD_WORDS] = words.try_into().ok()?;
        let [symbol, second, third, state] = record.map(usize::from);
        Some(match symbol.checked_sub(64) {
            None => Record::Leaf(Leaf {
                terminal: symbol,
                start: second,
                length: third,
                bytes: lent::leaf(self.text, record),
                state,
            }),
            Some(nonterminal) => Record::Node(Node {
                nonterminal,
                production: second,
                children: third,
                state,
            }),
        })
    }

    /// The last of them: of a query that was accepted, the top of the tree.
    pub fn last(&self) -> Option<Record<'t>> {
        self.get(self.len().checked_sub(1)?)
    }

    /// All of them, in order.
    pub fn iter(&self) -> RecordIter<'t> {
        RecordIter {
            records: *self,
            rest: 0..self.len(),
        }
    }

    /// The trees that they make: one for a query that was accepted, as many as the stack had states above its first for one that was not.
    pub fn forest(&self) -> Forest<'t> {
        Forest::new(*self)
    }

    /// The printout of the tree that they are: a node in parentheses with its production and its children, a leaf as its terminal and its
    /// bytes in square brackets, as [`lent::print`] has it. Trees that differ in any of these never print alike.
    ///
    /// It is refused with code 14 where the records are not one whole tree, with 15 where more than 256 nodes are on one way down, and with
    /// 3 where there is not so much memory. Those of a query that was accepted are one whole tree.
    ///
    /// ```
    /// # use zhgarelli::{Pack, Refused, Tree};
    /// # let text = std::fs::read("../packs/small.pack").unwrap();
    /// let pack = Pack::read(&text)?;
    /// let mut tree = Tree::new();
    /// let parsed = pack.parse("tax by day", &mut tree, u32::MAX)?;
    /// assert_eq!(parsed.records().print()?, b"(1 2:[tax] 1:[by] 2:[day])");
    /// # Ok::<(), Refused>(())
    /// ```
    pub fn print(&self) -> Result<Vec<u8>, Refused> {
        // Enough for what a parse writes: each byte of the text is in one leaf at the most and may be escaped; besides a leaf has up to
        // two digits, `:[]` and a blank, and a node three digits, `()` and a blank. Leaves from elsewhere may share bytes.
        let enough = 2 * self.text.len().min(LONGEST_TEXT) + 6 * self.len();
        let mut printed = vec![0; enough];
        let mut answer = lent::print(self.text, self.words, &mut printed);
        if let Err(Refused::Room { needed }) = answer {
            printed.clear();
            let memory = printed.try_reserve_exact(needed);
            memory.map_err(|_| Refused::Room { needed })?;
            printed.resize(needed, 0);
            answer = lent::print(self.text, self.words, &mut printed);
        }
        printed.truncate(answer?);
        Ok(printed)
    }
}

impl<'t> IntoIterator for Records<'t> {
    type Item = Record<'t>;
    type IntoIter = RecordIter<'t>;

    fn into_iter(self) -> RecordIter<'t> {
        self.iter()
    }
}

/// The iterator of [`Records::iter`].
#[derive(Clone, Debug)]
pub struct RecordIter<'t> {
    records: Records<'t>,
    rest: Range<usize>,
}

impl<'t> Iterator for RecordIter<'t> {
    type Item = Record<'t>;

    fn next(&mut self) -> Option<Record<'t>> {
        self.records.get(self.rest.next()?)
    }

    fn size_hint(&self) -> (usize, Option<usize>) {
        self.rest.size_hint()
    }
}

impl<'t> DoubleEndedIterator for RecordIter<'t> {
    fn next_back(&mut self) -> Option<Record<'t>> {
        self.records.get(self.rest.next_back()?)
    }
}

impl ExactSizeIterator for RecordIter<'_> {}
impl FusedIterator for RecordIter<'_> {}

/// A query that was accepted.
#[derive(Clone, Copy, Debug, PartialEq, Eq)]
pub struct Parsed<'t> {
    records: Records<'t>,
    moves: u32,
}

impl<'t> Parsed<'t> {
    pub(crate) fn new(records: Records<'t>, moves: u32) -> Parsed<'t> {
        Parsed { records, moves }
    }

    /// The moves of all scans together.
    pub fn moves(&self) -> u32 {
        self.moves
    }

    /// The records of the tree.
    pub fn records(&self) -> Records<'t> {
        self.records
    }

    /// The leaves, in the order of the text.
    pub fn leaves(&self) -> impl Iterator<Item = Leaf<'t>> {
        self.records.iter().filter_map(|record| match record {
            Record::Leaf(leaf) => Some(leaf),
            Record::Node(_) => None,
        })
    }

    /// The tree, to walk over.
    pub fn forest(&self) -> Forest<'t> {
        self.records.forest()
    }
}

/// Records as trees. Any records will do: a node that asks for more children than there are whole trees before it gets those there are.
///
/// ```
/// use zhgarelli::{Pack, Record, Refused, Tree};
///
/// # let text = std::fs::read("../packs/small.pack").unwrap();
/// let pack = Pack::read(&text)?;
/// let mut tree = Tree::new();
/// let forest = pack.parse("tax by day", &mut tree, u32::MAX)?.forest();
/// let top = forest.top().unwrap();
/// assert_eq!(top.children().count(), 3);
/// assert_eq!(top.span(), 0..10);
/// let depths: Vec<usize> = forest.walk().map(|step| step.depth).collect();
/// assert_eq!(depths, [0, 1, 1, 1]);
/// # Ok::<(), Refused>(())
/// ```
#[derive(Clone, Debug)]
pub struct Forest<'t> {
    records: Records<'t>,
    /// For each record, the first record of the tree that it is the top of.
    first: Vec<usize>,
    /// The records that are below no other.
    tops: Vec<usize>,
}

impl<'t> Forest<'t> {
    fn new(records: Records<'t>) -> Forest<'t> {
        let mut first = Vec::with_capacity(records.len());
        let mut tops: Vec<usize> = Vec::new();
        for (at, record) in records.iter().enumerate() {
            let children = match record {
                Record::Leaf(_) => 0,
                Record::Node(node) => node.children.min(tops.len()),
            };
            let below = tops.split_off(tops.len() - children);
            first.push(below.first().map_or(at, |&child| first[child]));
            tops.push(at);
        }
        Forest {
            records,
            first,
            tops,
        }
    }

    /// The records.
    pub fn records(&self) -> Records<'t> {
        self.records
    }

    /// The trees, in the order of the text.
    pub fn tops(&self) -> impl DoubleEndedIterator<Item = Subtree<'_, 't>> {
        self.tops.iter().map(|&at| Subtree { forest: self, at })
    }

    /// The last tree: of a query that was accepted, the whole one.
    pub fn top(&self) -> Option<Subtree<'_, 't>> {
        self.tops().next_back()
    }

    /// The tree below a record.
    pub fn subtree(&self, index: usize) -> Option<Subtree<'_, 't>> {
        (index < self.first.len()).then_some(Subtree {
            forest: self,
            at: index,
        })
    }

    /// Every record from the top down, each before its children, with how deep it stands. It needs no recursion, however deep the tree is.
    pub fn walk(&self) -> Walk<'_, 't> {
        Walk {
            forest: self,
            waiting: Walk::steps(self, &self.tops, 0),
        }
    }

    /// The tops of the trees below a record, from left to right.
    fn children(&self, at: usize) -> Vec<usize> {
        let mut children = Vec::new();
        let mut next = at;
        while next > self.first[at] {
            children.push(next - 1);
            next = self.first[next - 1];
        }
        children.reverse();
        children
    }
}

/// A record with all that is below it.
#[derive(Clone, Copy, Debug)]
pub struct Subtree<'f, 't> {
    forest: &'f Forest<'t>,
    at: usize,
}

impl<'f, 't> Subtree<'f, 't> {
    /// The number of its record.
    pub fn index(&self) -> usize {
        self.at
    }

    /// The record on top.
    pub fn record(&self) -> Record<'t> {
        self.forest
            .records
            .get(self.at)
            .expect("a subtree's top is one of the records")
    }

    /// How many records it has, the top counted.
    pub fn size(&self) -> usize {
        self.at + 1 - self.forest.first[self.at]
    }

    /// The trees right below, from left to right.
    pub fn children(&self) -> impl DoubleEndedIterator<Item = Subtree<'f, 't>> {
        let forest = self.forest;
        let children = forest.children(self.at).into_iter();
        children.map(move |at| Subtree { forest, at })
    }

    /// The leaves, in order.
    pub fn leaves(&self) -> impl DoubleEndedIterator<Item = Leaf<'t>> + 'f {
        let forest = self.forest;
        let records = forest.first[self.at]..self.at + 1;
        records.filter_map(move |at| match forest.records.get(at) {
            Some(Record::Leaf(leaf)) => Some(leaf),
            _ => None,
        })
    }

    /// The part of the text from its first leaf to its last, layout between them included; empty at 0 where it has no leaves.
    pub fn span(&self) -> Range<usize> {
        let first = self.leaves().next();
        let last = self.leaves().next_back();
        match (first, last) {
            (Some(first), Some(last)) => first.start..last.start + last.length,
            _ => 0..0,
        }
    }
}

/// One step of a walk.
#[derive(Clone, Copy, Debug)]
pub struct Step<'f, 't> {
    /// How many nodes stand above it.
    pub depth: usize,
    /// Whether it is the last child of its parent, or the last tree.
    pub last: bool,
    /// What is here.
    pub subtree: Subtree<'f, 't>,
}

/// The iterator of [`Forest::walk`].
#[derive(Clone, Debug)]
pub struct Walk<'f, 't> {
    forest: &'f Forest<'t>,
    /// What is still to come, the next one last.
    waiting: Vec<Step<'f, 't>>,
}

impl<'f, 't> Walk<'f, 't> {
    /// Steps to these subtrees, the next one last.
    fn steps(forest: &'f Forest<'t>, tops: &[usize], depth: usize) -> Vec<Step<'f, 't>> {
        let right_to_left = tops.iter().rev().enumerate();
        right_to_left
            .map(|(i, &at)| Step {
                depth,
                last: i == 0,
                subtree: Subtree { forest, at },
            })
            .collect()
    }

    /// Leaves out what is below the record that came last.
    pub fn skip_children(&mut self, step: &Step<'f, 't>) {
        while self
            .waiting
            .last()
            .is_some_and(|next| next.depth > step.depth)
        {
            self.waiting.pop();
        }
    }
}

impl<'f, 't> Iterator for Walk<'f, 't> {
    type Item = Step<'f, 't>;

    fn next(&mut self) -> Option<Step<'f, 't>> {
        let step = self.waiting.pop()?;
        let children = self.forest.children(step.subtree.at);
        self.waiting
            .extend(Walk::steps(self.forest, &children, step.depth + 1));
        Some(step)
    }
}

impl FusedIterator for Walk<'_, '_> {}
