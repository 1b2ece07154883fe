//! Engines that are wrong on purpose ("Errors that look right" in document 01), to see that a comparison finds them.

use crate::engine::{Engine, SECOND};
use crate::image::{Pack, FIRST_NONTERMINAL};
use crate::leaf::leaf;
use crate::numbers::{ALLOWANCE, DONE, RECORD_WORDS, ROOM_SMALL, TEXT_LIMIT};
use crate::print::{print, Printed};
use crate::scan::Scanned;
use crate::sets::{self, Set};
use crate::shape;

/// Longest match over all terminals, filtered by the valid set afterwards.
pub const FILTERS_AFTERWARDS: Engine = Engine {
    name: "filters-afterwards",
    scan: |image, text, start, set, allowance| {
        wrong_scan(image, text, start, set, allowance, |pack, valid| {
            let all = sets::below(pack.sizes.terminals) & !sets::single(0);
            (all, valid, true)
        })
    },
    ..SECOND
};

/// Keeps the shorter match after a reject.
pub const KEEPS_AFTER_REJECT: Engine = Engine {
    name: "keeps-after-reject",
    scan: |image, text, start, set, allowance| {
        wrong_scan(image, text, start, set, allowance, |_, valid| {
            (valid, valid, false)
        })
    },
    ..SECOND
};

/// Does not put a backslash before a backslash.
pub const PRINTS_BARE_BACKSLASHES: Engine = Engine {
    name: "prints-bare-backslashes",
    print: |text, tree, room| wrong_print(text, tree, room, |byte| byte != b'\\', false),
    ..SECOND
};

/// Prints the children of a node from the last to the first.
pub const PRINTS_CHILDREN_IN_REVERSE: Engine = Engine {
    name: "prints-children-in-reverse",
    print: |text, tree, room| wrong_print(text, tree, room, |_| true, true),
    ..SECOND
};

/// A printout like the true one, but for: the bytes that are escaped where they should be, and the order of children. It
/// joins the printouts of the trees that stand before each record.
fn wrong_print(
    text: &[u8],
    tree: &[u16],
    room: &mut [u8],
    escapes: impl Fn(u8) -> bool,
    reverse: bool,
) -> Printed {
    let printed = print(text, tree, &mut []);
    if printed.code != ROOM_SMALL || printed.number > 1 << 20 {
        return print(text, tree, room);
    }
    let mut parts: Vec<Vec<u8>> = Vec::new();
    for record in tree.chunks_exact(RECORD_WORDS) {
        let mut part = Vec::new();
        if usize::from(record[0]) < FIRST_NONTERMINAL {
            part.extend(format!("{}:[", record[0]).bytes());
            for &byte in leaf(text, [record[0], record[1], record[2], record[3]]) {
                if b"[]\\".contains(&byte) && escapes(byte) {
                    part.push(b'\\');
                }
                part.push(byte);
            }
            part.push(b']');
        } else {
            let mut children = parts.split_off(parts.len() - usize::from(record[2]));
            if reverse {
                children.reverse();
            }
            part.extend(format!("({}", record[1]).bytes());
            for child in children {
                part.push(b' ');
                part.extend(child);
            }
            part.push(b')');
        }
        parts.push(part);
    }
    let whole = parts.concat();
    let number = whole.len() as u64;
    match room.get_mut(..whole.len()) {
        Some(front) => {
            front.copy_from_slice(&whole);
            Printed { code: DONE, number }
        }
        None => Printed {
            code: ROOM_SMALL,
            number,
        },
    }
}

/// A scan like the true one, but for: the set scanned with, the set that filters the match at the end, and whether a
/// reject forgets.
fn wrong_scan(
    image: &[u16],
    text: &[u8],
    start: usize,
    set: Set,
    allowance: u32,
    habit: impl Fn(&Pack, Set) -> (Set, Set, bool),
) -> Scanned {
    let pack = match shape::pack(image) {
        Ok(pack) if text.len() <= TEXT_LIMIT => pack,
        _ => return crate::scan::scan(image, text, start, set, allowance),
    };
    let start = start.min(text.len());
    let valid = set & sets::below(pack.sizes.terminals) & !sets::single(0);
    let (scanned, kept, forgets) = habit(&pack, valid);
    let classes = pack.classes();
    let mut answer = Scanned {
        place: start as u32,
        ..Scanned::default()
    };
    let mut state = 0;
    for (&byte, length) in text[start..].iter().zip(1..) {
        let class = usize::from(classes[usize::from(byte)]);
        let (true, Some(next)) = (
            pack.poss(state) & scanned != sets::EMPTY,
            pack.moved(state, class),
        ) else {
            break;
        };
        if answer.moves == allowance {
            return Scanned {
                code: ALLOWANCE,
                set: 0,
                length: 0,
                ..answer
            };
        }
        answer.moves += 1;
        state = next;
        if pack.acc(state) & scanned != sets::EMPTY {
            (answer.set, answer.length) = (pack.acc(state) & scanned, length);
        } else if forgets && pack.rej(state) & scanned != sets::EMPTY {
            (answer.set, answer.length) = (sets::EMPTY, 0);
        }
    }
    answer.code = DONE;
    answer.set &= kept;
    if answer.set == sets::EMPTY {
        answer.length = 0;
    }
    answer
}
