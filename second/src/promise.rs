//! Demand 3, as far as a program can test it: for a pack that passes, no parse ends with code 9 or 10; the records of
//! an accepted text are one derivation, its leaves and skipped layout cover the text once and in order, and each leaf
//! and each piece of layout is the longest one by the definition, for the terminals of the state on top and layout
//! together. And the tree of an accepted text prints, if it is not too deep. Nothing here uses the scan or the parse but
//! to get the answer that is tested.

use crate::check::check;
use crate::gen::mix::Promised;
use crate::image::{Action, Pack, FIRST_NONTERMINAL};
use crate::numbers::{ALLOWANCE, DONE, RECORD_WORDS, ROOM_SMALL, SEVERAL, STUCK, TOO_DEEP};
use crate::parse::parse;
use crate::print::print;
use crate::sets::{self, Set};

/// Counts of a run.
#[derive(Clone, Debug, Default)]
pub struct Counts {
    pub packs: usize,
    pub parses: usize,
    pub leaves: usize,
    pub by_group: usize,
    /// Leaves that are longer than layout which begins alike.
    pub over_layout: usize,
    /// Pieces of layout, those that a group chose, and those skipped after a reduction.
    pub pieces: usize,
    pub pieces_by_group: usize,
    pub pieces_after_node: usize,
    pub too_deep: usize,
    pub codes: [usize; 14],
}

/// Makes at least `parses` parses; the error is the first violation.
pub fn run(parses: usize, seed: u64) -> Result<Counts, String> {
    let mut promised = Promised::new(seed);
    let mut counts = Counts::default();
    while counts.parses < parses {
        let (image, queries) = promised.pack_and_parses();
        if check(&image).code != DONE {
            return Err(format!("a pack that does not pass: {image:?}"));
        }
        counts.packs += 1;
        let pack = Pack::new(&image);
        for query in queries {
            let mut tree = vec![0; query.tree];
            let parsed = parse(&image, &query.text, &mut tree, query.allowance);
            counts.parses += 1;
            counts.codes[parsed.code as usize] += 1;
            let records: Vec<[u16; RECORD_WORDS]> = tree
                .chunks_exact(RECORD_WORDS)
                .take(parsed.records as usize)
                .map(|words| [words[0], words[1], words[2], words[3]])
                .collect();
            let place = parsed.place as usize;
            let kept = match parsed.code {
                SEVERAL | STUCK => Err(format!("code {}", parsed.code)),
                DONE => accepted(&pack, &query.text, &records, &mut counts)
                    .and_then(|()| prints(&query.text, &records, &mut counts)),
                code => cover(&pack, &query.text, &records, &mut counts).and_then(|end| {
                    // A refusal stands past the layout of the state on top; of the allowance, perhaps before it.
                    match place == end || code == ALLOWANCE && place < end {
                        true => Ok(()),
                        false => Err(format!("it should stand at {end}")),
                    }
                }),
            };
            if let Err(wrong) = kept {
                return Err(format!(
                    "{wrong}\nparse {} of this run: {parsed:?}\nquery: \"{}\"\nrecords: {records:?}\nimage: {image:?}",
                    counts.parses,
                    query.text.escape_ascii()
                ));
            }
        }
    }
    Ok(counts)
}

/// What an accepted parse promises: one derivation, and the whole text covered.
pub fn accepted(
    pack: &Pack,
    text: &[u8],
    records: &[[u16; RECORD_WORDS]],
    counts: &mut Counts,
) -> Result<(), String> {
    derivation(pack, records)?;
    let end = cover(pack, text, records, counts)?;
    match end == text.len() {
        true => Ok(()),
        false => Err(format!("the text is covered up to {end} only")),
    }
}

/// An accepted tree is whole: it wants room, and is refused otherwise only where it is too deep.
fn prints(text: &[u8], records: &[[u16; RECORD_WORDS]], counts: &mut Counts) -> Result<(), String> {
    match print(text, &records.concat(), &mut []).code {
        ROOM_SMALL => Ok(()),
        TOO_DEEP => {
            counts.too_deep += 1;
            Ok(())
        }
        code => Err(format!("an accepted tree prints with code {code}")),
    }
}

/// The records, children before their node, are one derivation from the start symbol by the pack's productions.
fn derivation(pack: &Pack, records: &[[u16; RECORD_WORDS]]) -> Result<(), String> {
    let mut roots: Vec<u16> = Vec::new();
    for &[symbol, second, len, _] in records {
        if usize::from(symbol) < FIRST_NONTERMINAL {
            roots.push(symbol);
            continue;
        }
        let (p, len) = (usize::from(second), usize::from(len));
        if p >= pack.sizes.productions {
            return Err(format!("there is no production {p}"));
        }
        let lhs = FIRST_NONTERMINAL + pack.lhs(p);
        let children = roots
            .len()
            .checked_sub(len)
            .map(|first| roots.split_off(first));
        if usize::from(symbol) != lhs || children.as_deref() != Some(pack.symbols(p)) {
            return Err(format!("a node is not by production {p}"));
        }
        roots.push(symbol);
    }
    if roots == [FIRST_NONTERMINAL as u16] {
        Ok(())
    } else {
        Err("the records are not one derivation from the start symbol".to_string())
    }
}

/// The last length at which, reading on from the front, some terminal of the set matches or is rejected, and the scan
/// state there. It reads all of the text for which there are moves.
fn last_seen(pack: &Pack, text: &[u8], set: Set) -> Option<(usize, usize)> {
    let mut q = 0;
    let mut last = None;
    for (i, &byte) in text.iter().enumerate() {
        let mut class = 0;
        for r in 0..pack.sizes.ranges {
            let range = pack.range(r);
            if (range.lo..=range.hi).contains(&u16::from(byte)) {
                class = usize::from(range.class);
            }
        }
        q = match pack.moved(q, class) {
            Some(next) => next,
            None => break,
        };
        if (pack.acc(q) | pack.rej(q)) & set != sets::EMPTY {
            last = Some((i + 1, q));
        }
    }
    last
}

/// What stands at a place for a state: a terminal of its own or layout, its length, whether a group chose it.
struct Piece {
    terminal: usize,
    length: usize,
    by_group: bool,
}

/// It ends at the last byte where any terminal that is valid in the state, or layout, matches or is rejected; it matches
/// there, is outranked by nothing that matches the same bytes, and is alone or chosen by a group.
fn piece(pack: &Pack, text: &[u8], state: usize) -> Result<Option<Piece>, String> {
    let sought = (pack.valid_set(state) | pack.layout()) & !sets::single(0);
    let Some((length, q)) = last_seen(pack, text, sought) else {
        return Ok(None);
    };
    let accepted = pack.acc(q) & sought;
    let mut members = sets::members(accepted);
    let (terminal, by_group) = match (members.next(), members.next()) {
        (None, _) => return Ok(None),
        (Some(t), None) => (t, false),
        _ => {
            let group = (0..pack.sizes.groups).find(|&g| pack.group(g) == accepted);
            (
                pack.chosen(group.ok_or("neither alone nor in a group")?),
                true,
            )
        }
    };
    if pack.dom(terminal) & (pack.acc(q) | pack.rej(q)) != sets::EMPTY {
        return Err(format!("{terminal} is outranked"));
    }
    Ok(Some(Piece {
        terminal,
        length,
        by_group,
    }))
}

/// Past the layout that a state skips from a place on, and what stands there.
fn past_layout(
    pack: &Pack,
    text: &[u8],
    state: usize,
    mut place: usize,
    after_node: bool,
    counts: &mut Counts,
) -> Result<(usize, Option<Piece>), String> {
    loop {
        match piece(pack, &text[place..], state)? {
            Some(piece) if sets::has(pack.layout(), piece.terminal) => {
                place += piece.length;
                counts.pieces += 1;
                counts.pieces_by_group += usize::from(piece.by_group);
                counts.pieces_after_node += usize::from(after_node);
            }
            piece => return Ok((place, piece)),
        }
    }
}

/// Leaves and skipped layout cover the text once and in order, up to the place that is given. The recorded states are
/// those of the stack; each leaf is what its state sees past the layout that it skips. Holds for the records of a
/// refused parse too.
pub fn cover(
    pack: &Pack,
    text: &[u8],
    records: &[[u16; RECORD_WORDS]],
    counts: &mut Counts,
) -> Result<usize, String> {
    let mut stack = vec![0];
    let mut at = past_layout(pack, text, 0, 0, false, counts)?;
    for &record in records {
        let [symbol, second, third, state] = record.map(usize::from);
        let mut place = at.0;
        let after_node = symbol >= FIRST_NONTERMINAL;
        if after_node {
            let height = stack.len().checked_sub(third);
            stack.truncate(height.ok_or("too few states")?);
            let there = symbol - FIRST_NONTERMINAL < pack.sizes.nonterminals;
            if stack.last() != Some(&state) || !there {
                return Err(format!("{record:?} did not uncover its state"));
            }
            let goto = pack.goto(state, symbol - FIRST_NONTERMINAL);
            stack.push(goto.ok_or("no goto")?);
        } else {
            if stack.last() != Some(&state) || symbol >= pack.sizes.terminals || second != place {
                return Err(format!(
                    "{record:?} was not shifted by its state at {place}"
                ));
            }
            let Action::Shift(next) = pack.action(state, symbol) else {
                return Err(format!("{record:?} is no shift"));
            };
            stack.push(next);
            let Some(piece) = &at.1 else {
                return Err(format!("{record:?}: nothing matches there"));
            };
            if (piece.terminal, piece.length) != (symbol, third) {
                let Piece {
                    terminal, length, ..
                } = piece;
                return Err(format!(
                    "{record:?}: there is {terminal} of length {length}"
                ));
            }
            let layout = last_seen(pack, &text[place..], pack.layout());
            counts.leaves += 1;
            counts.by_group += usize::from(piece.by_group);
            counts.over_layout += usize::from(layout.is_some_and(|(length, _)| length < third));
            place += third;
        }
        let top = stack[stack.len() - 1];
        at = past_layout(pack, text, top, place, after_node, counts)?;
    }
    Ok(at.0)
}

/// The counts as lines.
pub fn table(counts: &Counts) -> String {
    let mut lines = format!(
        "packs: {}\nparses: {}\naccepted: {}\nof these too deep to print: {}\nleaves: {}\nleaves chosen by a group: {}\n\
        leaves longer than layout that begins alike: {}\npieces of layout: {}\npieces chosen by a group: {}\n\
        pieces skipped after a reduction: {}\n",
        counts.packs,
        counts.parses,
        counts.codes[0],
        counts.too_deep,
        counts.leaves,
        counts.by_group,
        counts.over_layout,
        counts.pieces,
        counts.pieces_by_group,
        counts.pieces_after_node
    );
    for (code, count) in counts.codes.iter().enumerate() {
        if *count > 0 {
            lines.push_str(&format!("{count:9}  code {code}\n"));
        }
    }
    lines
}
