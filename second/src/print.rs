//! The printout of a derivation (document 02, No. 1): tree records as nested parentheses.

use crate::image::FIRST_NONTERMINAL;
use crate::leaf;
use crate::numbers::{DONE, NODES_DOWN, NOT_ONE_TREE, RECORD_WORDS, ROOM_SMALL, TOO_DEEP};

/// What a printout gives: the bytes printed with 0, the bytes needed with 3, otherwise 0.
#[derive(Clone, Copy, Debug, Default, PartialEq, Eq)]
pub struct Printed {
    pub code: u32,
    pub number: u64,
}

/// What one record is: its own numbers, and of a node the records that are its children.
enum Tree {
    Leaf {
        terminal: u16,
        start: usize,
        length: usize,
    },
    Node {
        production: u16,
        children: Vec<usize>,
    },
}

/// The records of one whole tree; the last one is its top.
struct Trees<'t> {
    text: &'t [u8],
    trees: Vec<Tree>,
    /// The most nodes on a way down from each record, itself counted.
    nodes_down: Vec<usize>,
}

/// Is a backslash put before the byte?
fn is_escaped(byte: u8) -> bool {
    matches!(byte, b'[' | b']' | b'\\')
}

fn digits(number: u16) -> String {
    number.to_string()
}

impl Trees<'_> {
    /// The tree that the words are; `None` where they are not one whole tree, where words are left over, and where a
    /// first word is 0.
    fn of<'t>(text: &'t [u8], words: &[u16]) -> Option<Trees<'t>> {
        let records = words.chunks_exact(RECORD_WORDS);
        if !records.remainder().is_empty() {
            return None;
        }
        let (mut trees, mut nodes_down) = (Vec::new(), Vec::new());
        // The trees that are whole so far and are nobody's children yet, from left to right.
        let mut roots: Vec<usize> = Vec::new();
        for (number, record) in records.enumerate() {
            let record = [record[0], record[1], record[2], record[3]];
            let [first, production, count, _] = record;
            if first == 0 {
                return None;
            }
            if usize::from(first) < FIRST_NONTERMINAL {
                let (start, length) = leaf::part(text, record);
                trees.push(Tree::Leaf {
                    terminal: first,
                    start,
                    length,
                });
                nodes_down.push(0);
            } else {
                let children = roots.split_off(roots.len().checked_sub(count.into())?);
                let below = children.iter().map(|&child| nodes_down[child]).max();
                nodes_down.push(1 + below.unwrap_or(0));
                trees.push(Tree::Node {
                    production,
                    children,
                });
            }
            roots.push(number);
        }
        (roots.len() == 1).then_some(Trees {
            text,
            trees,
            nodes_down,
        })
    }

    /// The bytes of the printout, as a sum over the records: each has its own, and a child's blank is its node's.
    fn size(&self) -> u64 {
        // How many of the bytes before each place have a backslash put before them.
        let mut escaped = vec![0];
        for (place, &byte) in self.text.iter().enumerate() {
            escaped.push(escaped[place] + usize::from(is_escaped(byte)));
        }
        let own = |tree: &Tree| match tree {
            Tree::Leaf {
                terminal,
                start,
                length,
            } => {
                let end = start + length;
                digits(*terminal).len() + ":[]".len() + length + escaped[end] - escaped[*start]
            }
            Tree::Node {
                production,
                children,
            } => "()".len() + digits(*production).len() + children.len(),
        };
        self.trees.iter().map(|tree| own(tree) as u64).sum()
    }

    /// A node prints its children, and each child prints itself by the same rule.
    fn print(&self, number: usize, out: &mut Vec<u8>) {
        match &self.trees[number] {
            Tree::Leaf {
                terminal,
                start,
                length,
            } => {
                out.extend(digits(*terminal).bytes());
                out.extend(b":[");
                for &byte in &self.text[*start..start + length] {
                    if is_escaped(byte) {
                        out.push(b'\\');
                    }
                    out.push(byte);
                }
                out.push(b']');
            }
            Tree::Node {
                production,
                children,
            } => {
                out.push(b'(');
                out.extend(digits(*production).bytes());
                for &child in children {
                    out.push(b' ');
                    self.print(child, out);
                }
                out.push(b')');
            }
        }
    }
}

/// Prints the tree of a text to the front of the room. A refusal leaves the room as it was.
pub fn print(text: &[u8], tree: &[u16], room: &mut [u8]) -> Printed {
    let refused = |code| Printed { code, number: 0 };
    let Some(trees) = Trees::of(text, tree) else {
        return refused(NOT_ONE_TREE);
    };
    let top = trees.trees.len() - 1;
    if trees.nodes_down[top] > NODES_DOWN {
        return refused(TOO_DEEP);
    }
    let number = trees.size();
    if number > room.len() as u64 {
        let code = ROOM_SMALL;
        return Printed { code, number };
    }
    let mut out = Vec::new();
    trees.print(top, &mut out);
    assert_eq!(out.len() as u64, number, "the size is the printout's");
    room[..out.len()].copy_from_slice(&out);
    Printed { code: DONE, number }
}
