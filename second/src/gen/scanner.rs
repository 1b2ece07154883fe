//! Scan tables from patterns: the positions of all patterns make one nondeterministic machine, its sets of positions
//! are the scan states, and bytes that no pattern tells apart make one class.

use std::collections::BTreeMap;

use super::pattern::{Bytes, Pattern};
use super::rng::Rng;
use crate::image::Range;
use crate::sets::{self, Set};

/// Why patterns have no scan tables.
#[derive(Clone, Copy, Debug, PartialEq, Eq, PartialOrd, Ord)]
pub enum NoScanner {
    MatchesEmpty,
    TooManyStates,
    TooManyClasses,
    TooManyRanges,
}

/// Byte classes, moves, and for each scan state the terminals that match there.
#[derive(Clone, Debug)]
pub struct ScanTables {
    pub classes: usize,
    pub ranges: Vec<Range>,
    /// Codes: 0 none, 1+q.
    pub moves: Vec<Vec<u16>>,
    pub matching: Vec<Set>,
}

/// The positions of one pattern that can come first and last.
struct Ends {
    empty: bool,
    first: Vec<usize>,
    last: Vec<usize>,
}

/// The machine of positions: each consumes one byte of its set.
#[derive(Default)]
struct Positions {
    bytes: Vec<Bytes>,
    follow: Vec<Vec<usize>>,
    matching: Vec<Set>,
    first: Vec<usize>,
}

impl Positions {
    fn new(patterns: &[(usize, Pattern)]) -> Result<Positions, NoScanner> {
        let mut positions = Positions::default();
        for (terminal, pattern) in patterns {
            let ends = positions.add(pattern);
            if ends.empty {
                return Err(NoScanner::MatchesEmpty);
            }
            for &position in &ends.last {
                positions.matching[position] |= sets::single(*terminal);
            }
            positions.first.extend(ends.first);
        }
        Ok(positions)
    }

    fn add(&mut self, pattern: &Pattern) -> Ends {
        match pattern {
            Pattern::One(bytes) => {
                let position = self.bytes.len();
                self.bytes.push(*bytes);
                self.follow.push(Vec::new());
                self.matching.push(sets::EMPTY);
                Ends {
                    empty: false,
                    first: vec![position],
                    last: vec![position],
                }
            }
            Pattern::Seq(parts) => {
                let mut whole = Ends {
                    empty: true,
                    first: Vec::new(),
                    last: Vec::new(),
                };
                for part in parts {
                    let part = self.add(part);
                    self.join(&whole.last, &part.first);
                    if whole.empty {
                        whole.first.extend(&part.first);
                    }
                    if !part.empty {
                        whole.last.clear();
                    }
                    whole.last.extend(part.last);
                    whole.empty &= part.empty;
                }
                whole
            }
            Pattern::Either(parts) => {
                let mut whole = Ends {
                    empty: false,
                    first: Vec::new(),
                    last: Vec::new(),
                };
                for part in parts {
                    let part = self.add(part);
                    whole.first.extend(part.first);
                    whole.last.extend(part.last);
                    whole.empty |= part.empty;
                }
                whole
            }
            Pattern::Plus(part) => {
                let ends = self.add(part);
                self.join(&ends.last, &ends.first);
                ends
            }
            Pattern::Opt(part) => Ends {
                empty: true,
                ..self.add(part)
            },
        }
    }

    fn join(&mut self, before: &[usize], after: &[usize]) {
        for &position in before {
            for &next in after {
                if !self.follow[position].contains(&next) {
                    self.follow[position].push(next);
                }
            }
        }
    }
}

/// Builds the tables for terminals and their patterns.
pub fn build(rng: &mut Rng, patterns: &[(usize, Pattern)]) -> Result<ScanTables, NoScanner> {
    let positions = Positions::new(patterns)?;
    let class_of = byte_classes(rng, &positions.bytes);
    let classes = 1 + class_of.iter().copied().max().unwrap_or(0);
    if classes > 32 {
        return Err(NoScanner::TooManyClasses);
    }
    let ranges = ranges(&class_of);
    if ranges.len() > 64 {
        return Err(NoScanner::TooManyRanges);
    }
    let mut tables = states(&positions, &class_of, classes)?;
    tables.ranges = ranges;
    if rng.percent(60) {
        merge_equal_states(&mut tables);
    }
    Ok(tables)
}

/// The class of each byte. The bytes of no pattern have class 0, or sometimes another class takes that number.
fn byte_classes(rng: &mut Rng, sets: &[Bytes]) -> Vec<usize> {
    let mut different = sets.to_vec();
    different.sort_unstable();
    different.dedup();
    let signature = |byte: u8| -> Vec<bool> { different.iter().map(|set| set.has(byte)).collect() };
    let mut numbers = BTreeMap::from([(vec![false; different.len()], 0)]);
    let mut class_of: Vec<usize> = (0..=255)
        .map(|byte| {
            let fresh = numbers.len();
            *numbers.entry(signature(byte)).or_insert(fresh)
        })
        .collect();
    if rng.once_in(5) {
        let swapped = rng.below(numbers.len());
        for class in &mut class_of {
            *class = match *class {
                0 => swapped,
                c if c == swapped => 0,
                c => c,
            };
        }
    }
    class_of
}

/// The runs of bytes of one class other than 0.
fn ranges(class_of: &[usize]) -> Vec<Range> {
    let mut ranges: Vec<Range> = Vec::new();
    for (byte, &class) in class_of.iter().enumerate() {
        let (byte, class) = (byte as u16, class as u16);
        match ranges.last_mut() {
            Some(range) if range.class == class && range.hi + 1 == byte => range.hi = byte,
            _ if class != 0 => ranges.push(Range {
                lo: byte,
                hi: byte,
                class,
            }),
            _ => (),
        }
    }
    ranges
}

fn states(
    positions: &Positions,
    class_of: &[usize],
    classes: usize,
) -> Result<ScanTables, NoScanner> {
    let mut byte_of = vec![None; classes];
    for byte in (0..=255u8).rev() {
        byte_of[class_of[usize::from(byte)]] = Some(byte);
    }
    // State 0 has consumed nothing; the others are sets of positions just consumed.
    let mut known: BTreeMap<Vec<usize>, usize> = BTreeMap::new();
    let mut found: Vec<Vec<usize>> = vec![Vec::new()];
    let mut moves: Vec<Vec<u16>> = Vec::new();
    while moves.len() < found.len() {
        let q = moves.len();
        let next: Vec<usize> = if q == 0 {
            positions.first.clone()
        } else {
            let mut next: Vec<usize> = found[q]
                .iter()
                .flat_map(|&position| positions.follow[position].iter().copied())
                .collect();
            next.sort_unstable();
            next.dedup();
            next
        };
        let mut row = vec![0; classes];
        for (cell, byte) in row.iter_mut().zip(&byte_of) {
            let Some(byte) = *byte else { continue };
            let consumed: Vec<usize> = next
                .iter()
                .copied()
                .filter(|&position| positions.bytes[position].has(byte))
                .collect();
            if consumed.is_empty() {
                continue;
            }
            let to = *known.entry(consumed.clone()).or_insert_with(|| {
                found.push(consumed);
                found.len() - 1
            });
            *cell = 1 + to as u16;
        }
        moves.push(row);
        if found.len() > 128 {
            return Err(NoScanner::TooManyStates);
        }
    }
    let matching = found
        .iter()
        .map(|state| {
            state.iter().fold(sets::EMPTY, |set, &position| {
                set | positions.matching[position]
            })
        })
        .collect();
    Ok(ScanTables {
        classes,
        ranges: Vec::new(),
        moves,
        matching,
    })
}

/// Merges states that match the same and move to merged states alike. State 0 stays state 0.
fn merge_equal_states(tables: &mut ScanTables) {
    let count = tables.moves.len();
    let mut block: Vec<usize> = vec![0; count];
    let mut blocks = 0;
    loop {
        let mut numbers = BTreeMap::new();
        let refined: Vec<usize> = (0..count)
            .map(|q| {
                let row: Vec<usize> = tables.moves[q]
                    .iter()
                    .map(|&code| match code {
                        0 => 0,
                        code => 1 + block[usize::from(code) - 1],
                    })
                    .collect();
                let fresh = numbers.len();
                *numbers
                    .entry((block[q], tables.matching[q], row))
                    .or_insert(fresh)
            })
            .collect();
        block = refined;
        if numbers.len() == blocks {
            break;
        }
        blocks = numbers.len();
    }
    let one_of = |b: usize| block.iter().position(|&other| other == b).unwrap_or(0);
    let moves = (0..blocks)
        .map(|b| {
            let renumbered = |&code: &u16| match code {
                0 => 0,
                code => 1 + block[usize::from(code) - 1] as u16,
            };
            tables.moves[one_of(b)].iter().map(renumbered).collect()
        })
        .collect();
    let matching = (0..blocks).map(|b| tables.matching[one_of(b)]).collect();
    tables.moves = moves;
    tables.matching = matching;
}
