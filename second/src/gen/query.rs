//! Queries: derived from a grammar, or random bytes.

use super::damage;
use super::passing::Language;
use super::rng::Rng;
use crate::image::Pack;
use crate::sets;

/// Bytes that a query is likely to be made of: those of the pack's ranges, and a few more.
pub fn likely_bytes(rng: &mut Rng, pack: &Pack) -> Vec<u8> {
    let mut bytes = Vec::new();
    for r in 0..pack.sizes.ranges {
        let range = pack.range(r);
        for _ in 0..3 {
            let byte = rng.from_to(usize::from(range.lo), usize::from(range.hi));
            bytes.push(byte as u8);
        }
    }
    bytes.extend([b' ', b'a', rng.number() as u8]);
    bytes
}

pub fn random(rng: &mut Rng, likely: &[u8], longest: usize) -> Vec<u8> {
    let length = rng.from_to(0, longest);
    (0..length).map(|_| *rng.pick(likely)).collect()
}

/// One byte or two, so often that the stack can fill up.
pub fn repeated(rng: &mut Rng, likely: &[u8]) -> Vec<u8> {
    let bytes = [b'a', *rng.pick(likely)];
    let used = rng.from_to(1, 2);
    let length = rng.from_to(500, 700);
    (0..length).map(|_| *rng.pick(&bytes[..used])).collect()
}

/// Bytes that lead from scan state 0 to a given one by a short way, if there is one.
pub fn path_to(rng: &mut Rng, pack: &Pack, q: usize) -> Option<Vec<u8>> {
    let classes = pack.classes();
    let mut byte_of = vec![None; pack.sizes.classes];
    let mut bytes: Vec<u8> = (0..=255).collect();
    rng.shuffle(&mut bytes);
    for byte in bytes {
        byte_of[usize::from(classes[usize::from(byte)])] = Some(byte);
    }
    // For each state, the state before it and the byte between; the states in the order they are reached.
    let mut before: Vec<Option<(usize, u8)>> = vec![None; pack.sizes.scan_states];
    let mut reached = vec![0];
    let mut next = 0;
    while next < reached.len() {
        let from = reached[next];
        next += 1;
        for (c, byte) in byte_of.iter().enumerate() {
            if let (Some(byte), Some(to)) = (*byte, pack.moved(from, c)) {
                if before[to].is_none() {
                    before[to] = Some((from, byte));
                    reached.push(to);
                }
            }
        }
    }
    let mut text = Vec::new();
    let mut state = q;
    while let Some((from, byte)) = before[state] {
        text.push(byte);
        state = from;
        if state == 0 {
            text.reverse();
            return Some(text);
        }
    }
    None
}

/// Tokens of a language, with layout between them, and now and then one that outranks the token that is due.
fn spell(rng: &mut Rng, language: &Language, terminals: &[u16]) -> Vec<u8> {
    let mut text = Vec::new();
    let apart = *rng.pick(&[0, 50, 90, 100]);
    let outranked = *rng.pick(&[0, 0, 0, 0, 0, 20]);
    for (i, &t) in terminals.iter().enumerate() {
        if (i > 0 && rng.percent(apart)) || (i == 0 && rng.percent(apart / 4)) {
            layout(rng, language, &mut text);
        }
        let mut t = usize::from(t);
        if outranked > 0 && rng.percent(outranked) {
            let above: Vec<usize> = sets::members(language.dom[t]).collect();
            if !above.is_empty() {
                t = *rng.pick(&above);
            }
        }
        if let Some(pattern) = &language.patterns[t] {
            pattern.sample(rng, &mut text);
        }
    }
    if rng.percent(apart / 4) {
        layout(rng, language, &mut text);
    }
    text
}

fn layout(rng: &mut Rng, language: &Language, text: &mut Vec<u8>) {
    if language.layout.is_empty() {
        return;
    }
    for _ in 0..rng.from_to(1, 2) {
        // Now and then a token that begins as layout does, where it may not be due.
        let t = match language.alike.is_empty() || rng.percent(75) {
            true => *rng.pick(&language.layout),
            false => *rng.pick(&language.alike),
        };
        if let Some(pattern) = &language.patterns[t] {
            pattern.sample(rng, text);
        }
    }
}

/// A query of a language: derived, derived and damaged, or tokens in any order.
pub fn derived(rng: &mut Rng, language: &Language, likely: &[u8]) -> Vec<u8> {
    let about = *rng.pick(&[1, 3, 6, 12, 30]);
    let derivation = language.grammar.derive(rng, &language.heights, about);
    match rng.below(10) {
        0..=5 => spell(rng, language, &derivation),
        6 | 7 => {
            let mut text = spell(rng, language, &derivation);
            damage::query(rng, &mut text, likely);
            text
        }
        8 => {
            // A derivation with tokens dropped, doubled or replaced.
            let mut terminals = derivation;
            let any = (language.patterns.len() - 1).max(1);
            for _ in 0..rng.from_to(1, 2) {
                let place = rng.from_to(0, terminals.len());
                match rng.below(3) {
                    0 => terminals.insert(place, rng.from_to(1, any) as u16),
                    1 if place < terminals.len() => {
                        terminals.remove(place);
                    }
                    _ if place < terminals.len() => {
                        terminals[place] = rng.from_to(1, any) as u16;
                    }
                    _ => (),
                }
            }
            terminals.retain(|&t| usize::from(t) < language.patterns.len());
            spell(rng, language, &terminals)
        }
        _ => {
            // Long: a derivation with one of its tokens repeated, deep enough to fill the stack.
            let mut terminals = language.grammar.derive(rng, &language.heights, 700);
            if terminals.len() < 600 && !terminals.is_empty() && rng.percent(50) {
                let place = rng.below(terminals.len());
                let repeated = vec![terminals[place]; 600];
                terminals.splice(place..place, repeated);
            }
            spell(rng, language, &terminals)
        }
    }
}
