//! Trees and texts to print: whole trees of any form, chains of nodes about the limit, and damaged trees.

use super::rng::Rng;
use crate::numbers::{NODES_DOWN, RECORD_WORDS};

/// Numbers at which the count of digits changes, and the least and the greatest.
const DIGITS: [u16; 11] = [0, 9, 10, 99, 100, 999, 1_000, 9_999, 10_000, 65_534, 65_535];

/// Bytes of which many are escaped.
pub fn text(rng: &mut Rng, length: usize) -> Vec<u8> {
    let many = rng.percent(50);
    (0..length)
        .map(|_| match many {
            true => *rng.pick(b"[]\\[]\\:( )09a"),
            false => rng.number() as u8,
        })
        .collect()
}

/// A leaf, mostly within the text.
fn leaf(rng: &mut Rng, bytes: usize) -> [u16; RECORD_WORDS] {
    let terminal = match rng.below(4) {
        0 => *rng.pick(&[1, 9, 10, 63]),
        _ => rng.from_to(1, 63) as u16,
    };
    let (start, length) = match rng.below(12) {
        // About the end of the text, on either side of it.
        0 => {
            let start = rng.from_to(0, bytes);
            (start, bytes - start + rng.below(2))
        }
        1 => (rng.number() as usize, rng.number() as usize),
        2 => (rng.from_to(0, bytes), 0),
        _ => {
            let start = rng.from_to(0, bytes);
            (start, rng.from_to(0, (bytes - start).min(12)))
        }
    };
    [terminal, start as u16, length as u16, rng.number() as u16]
}

fn node(rng: &mut Rng, children: usize) -> [u16; RECORD_WORDS] {
    let first = match rng.below(4) {
        0 => *rng.pick(&[64, 95, 96, 65_535]),
        _ => rng.from_to(64, 95) as u16,
    };
    let production = match rng.below(3) {
        0 => *rng.pick(&DIGITS),
        1 => rng.below(128) as u16,
        _ => rng.number() as u16,
    };
    [first, production, children as u16, rng.number() as u16]
}

/// A whole tree of about so many records. Its nodes take some of the trees that stand before them, and the last one all
/// that are left.
pub fn tree(rng: &mut Rng, bytes: usize, records: usize) -> Vec<u16> {
    let nodes = *rng.pick(&[5, 30, 50]);
    let most = *rng.pick(&[1, 3, 3, 14, records]);
    let (mut words, mut roots) = (Vec::new(), 0);
    for _ in 1..records {
        if rng.percent(nodes) {
            let children = rng.from_to(0, roots.min(most));
            words.extend(node(rng, children));
            roots -= children;
        } else {
            words.extend(leaf(rng, bytes));
        }
        roots += 1;
    }
    if roots == 0 && rng.percent(50) {
        words.extend(leaf(rng, bytes));
    } else if roots != 1 || rng.percent(50) {
        words.extend(node(rng, roots));
    }
    words
}

/// A chain of so many nodes, each in the one above it, with other leaves beside some of them; at its end a leaf or
/// nothing.
pub fn chain(rng: &mut Rng, bytes: usize, nodes: usize) -> Vec<u16> {
    let beside = *rng.pick(&[0, 0, 10]);
    let mut words = Vec::new();
    // What stands before a node's part of the chain comes before the whole of that part.
    let mut before = Vec::new();
    for _ in 0..nodes {
        let leaves = if rng.percent(beside) { rng.below(3) } else { 0 };
        (0..leaves).for_each(|_| words.extend(leaf(rng, bytes)));
        before.push(leaves);
    }
    let mut below = usize::from(rng.percent(70));
    (0..below).for_each(|_| words.extend(leaf(rng, bytes)));
    for leaves in before.into_iter().rev() {
        let behind = if rng.percent(beside) { rng.below(3) } else { 0 };
        (0..behind).for_each(|_| words.extend(leaf(rng, bytes)));
        words.extend(node(rng, leaves + below + behind));
        below = 1;
    }
    words
}

/// A chain, or several under one node, about as long as may be printed.
pub fn deep(rng: &mut Rng, bytes: usize) -> Vec<u16> {
    let about = |rng: &mut Rng| match rng.below(8) {
        0 => rng.from_to(1, 2 * NODES_DOWN),
        _ => rng.from_to(NODES_DOWN - 2, NODES_DOWN + 2),
    };
    if rng.percent(70) {
        let nodes = about(rng);
        return chain(rng, bytes, nodes);
    }
    let chains = rng.from_to(2, 3);
    let mut words = Vec::new();
    for _ in 0..chains {
        let nodes = about(rng).saturating_sub(1);
        let mut part = chain(rng, bytes, nodes);
        if part.is_empty() {
            part.extend(leaf(rng, bytes));
        }
        words.extend(part);
    }
    words.extend(node(rng, chains));
    words
}

/// The tree with one thing changed.
pub fn damaged(rng: &mut Rng, tree: &[u16]) -> Vec<u16> {
    let mut words = tree.to_vec();
    let records = words.len() / RECORD_WORDS;
    if records == 0 {
        words.push(rng.number() as u16);
        return words;
    }
    let at = rng.below(records) * RECORD_WORDS;
    match rng.below(12) {
        // A count of children, of a node if there is one near.
        0..=3 => {
            let node = (at..words.len())
                .step_by(RECORD_WORDS)
                .find(|&at| words[at] >= 64);
            let count = &mut words[node.unwrap_or(at) + 2];
            *count = match rng.below(4) {
                0 => count.wrapping_add(1),
                1 => count.wrapping_sub(1),
                2 => rng.number() as u16,
                _ => rng.below(4) as u16,
            };
        }
        4 => words[at] = 0,
        // A leaf instead of a node, or the other way round.
        5 => words[at] = *rng.pick(&[1, 63, 64, 65_535]),
        6 => words.truncate(words.len() - rng.from_to(1, words.len().min(9))),
        7 => (0..rng.from_to(1, 4)).for_each(|_| words.push(rng.number() as u16)),
        8 => {
            words.drain(at..at + RECORD_WORDS);
        }
        9 => {
            let record = words[at..at + RECORD_WORDS].to_vec();
            let to = rng.from_to(0, records) * RECORD_WORDS;
            words.splice(to..to, record);
        }
        10 => {
            let with = rng.below(records) * RECORD_WORDS;
            (0..RECORD_WORDS).for_each(|i| words.swap(at + i, with + i));
        }
        _ => {
            let i = rng.below(words.len());
            words[i] ^= 1 << rng.below(16);
        }
    }
    words
}
