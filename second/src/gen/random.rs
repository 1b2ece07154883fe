//! Source 2: images of good shape that are otherwise random, and single changes that keep the shape.

use super::rng::Rng;
use super::tables::{nonterminal, Production, ScanSets, Tables};
use super::wide::greatest_sizes;
use crate::image::{Range, Sizes, PROD_SYMBOLS};
use crate::sets::{self, Set};

/// Random sizes; `large` ones reach up to the greatest.
pub fn sizes(rng: &mut Rng, large: bool) -> Sizes {
    let most = if large {
        greatest_sizes()
    } else {
        Sizes {
            terminals: 6,
            nonterminals: 3,
            productions: 5,
            states: 6,
            scan_states: 6,
            classes: 5,
            ranges: 6,
            groups: 3,
        }
    };
    let mut sizes = Sizes {
        terminals: rng.from_to(1, most.terminals),
        nonterminals: rng.from_to(1, most.nonterminals),
        productions: rng.from_to(1, most.productions),
        states: rng.from_to(1, most.states),
        scan_states: rng.from_to(1, most.scan_states),
        classes: rng.from_to(1, most.classes),
        ranges: rng.from_to(0, most.ranges),
        groups: rng.from_to(0, most.groups),
    };
    // There are 2^n - n - 1 sets of at least two of n terminals.
    let others = sizes.terminals - 1;
    if others < 6 {
        sizes.groups = sizes.groups.min((1 << others) - others - 1);
    }
    sizes
}

/// Very small random sizes.
pub fn least_sizes(rng: &mut Rng) -> Sizes {
    let terminals = rng.from_to(1, 3);
    Sizes {
        terminals,
        nonterminals: rng.from_to(1, 2),
        productions: rng.from_to(1, 2),
        states: rng.from_to(1, 2),
        scan_states: rng.from_to(1, 2),
        classes: rng.from_to(1, 2),
        ranges: rng.from_to(0, 2),
        groups: usize::from(terminals == 3 && rng.percent(60)),
    }
}

/// Random tables of these sizes.
pub fn tables(rng: &mut Rng, sizes: Sizes) -> Tables {
    let all = sets::below(sizes.terminals) & !sets::single(0);
    let layout = if rng.percent(40) { rng.set(all, 20) } else { 0 };
    let symbols = symbols(sizes, layout);
    let outranking = *rng.pick(&[0, 10, 40]);
    let dom = (0..sizes.terminals)
        .map(|t| match t {
            0 => sets::EMPTY,
            _ => rng.set(all & !sets::single(t), outranking),
        })
        .collect();
    let productions = (0..sizes.productions)
        .map(|_| random_production(rng, sizes.nonterminals, &symbols))
        .collect();
    let dense = *rng.pick(&[15, 40, 70, 95]);
    let act = (0..sizes.states)
        .map(|_| {
            (0..sizes.terminals)
                .map(|t| {
                    if sets::has(layout, t) || !rng.percent(dense) {
                        0
                    } else {
                        random_action(rng, t, sizes.states, sizes.productions)
                    }
                })
                .collect()
        })
        .collect();
    let dense = *rng.pick(&[20, 60, 95]);
    let goto = (0..sizes.states)
        .map(|_| row(rng, sizes.nonterminals, sizes.states, dense))
        .collect();
    let dense = *rng.pick(&[30, 60, 95]);
    let moves = (0..sizes.scan_states)
        .map(|_| row(rng, sizes.classes, sizes.scan_states, dense))
        .collect();
    let accepting = *rng.pick(&[10, 30, 60]);
    let possible = *rng.pick(&[50, 80, 100]);
    let scan = (0..sizes.scan_states)
        .map(|q| {
            let acc = rng.set(all, accepting);
            let rej = rng.set(all & !acc, 15);
            let poss = rng.set(all, possible);
            match q {
                0 => ScanSets {
                    poss,
                    ..ScanSets::default()
                },
                _ => ScanSets { acc, rej, poss },
            }
        })
        .collect();
    let mut tables = Tables {
        nonterminals: sizes.nonterminals,
        classes: sizes.classes,
        layout,
        dom,
        productions,
        act,
        goto,
        ranges: random_ranges(rng, sizes.ranges, sizes.classes),
        moves,
        scan,
        groups: Vec::new(),
    };
    while tables.groups.len() < sizes.groups {
        let set = rng.set(all, 50);
        push_group(rng, &mut tables, set);
    }
    tables
}

fn row(rng: &mut Rng, length: usize, greatest: usize, dense: usize) -> Vec<u16> {
    (0..length)
        .map(|_| {
            if rng.percent(dense) {
                rng.from_to(1, greatest) as u16
            } else {
                0
            }
        })
        .collect()
}

/// The symbols that a production may have.
fn symbols(sizes: Sizes, layout: Set) -> Vec<u16> {
    let terminals = sets::below(sizes.terminals) & !sets::single(0) & !layout;
    sets::members(terminals)
        .map(|t| t as u16)
        .chain((0..sizes.nonterminals).map(nonterminal))
        .collect()
}

/// Small tables but for the productions: about forty, of any length.
pub fn long_productions(rng: &mut Rng) -> Tables {
    let mut sizes = sizes(rng, false);
    sizes.productions = rng.from_to(30, 44);
    let mut tables = tables(rng, sizes);
    let symbols = symbols(sizes, tables.layout);
    for production in &mut tables.productions {
        let len = rng.from_to(0, PROD_SYMBOLS);
        production.symbols = (0..len).map(|_| *rng.pick(&symbols)).collect();
    }
    tables
}

fn random_production(rng: &mut Rng, nonterminals: usize, symbols: &[u16]) -> Production {
    let len = *rng.pick(&[0, 0, 1, 1, 1, 2, 2, 3, 4, 14]);
    Production {
        lhs: rng.below(nonterminals) as u16,
        symbols: (0..len).map(|_| *rng.pick(symbols)).collect(),
    }
}

/// An action other than 0 that column `t` may hold.
fn random_action(rng: &mut Rng, t: usize, states: usize, productions: usize) -> u16 {
    let reduce = 3 + 2 * rng.below(productions) as u16;
    match t {
        0 if rng.percent(30) => 1,
        0 => reduce,
        _ if rng.percent(70) => 2 + 2 * rng.below(states) as u16,
        _ => reduce,
    }
}

/// Ranges mostly among the letters, if there is room for so many.
fn random_ranges(rng: &mut Rng, count: usize, classes: usize) -> Vec<Range> {
    let span: Vec<u16> = if 2 * count <= 26 && rng.percent(75) {
        (97..=122).collect()
    } else {
        (0..=255).collect()
    };
    let mut points = span;
    rng.shuffle(&mut points);
    points.truncate(2 * count);
    points.sort_unstable();
    points
        .chunks_exact(2)
        .map(|pair| Range {
            lo: pair[0],
            hi: if rng.once_in(3) { pair[0] } else { pair[1] },
            class: rng.below(classes) as u16,
        })
        .collect()
}

fn push_group(rng: &mut Rng, tables: &mut Tables, set: Set) {
    if sets::count(set) > 1 && tables.groups.iter().all(|&(other, _)| other != set) {
        let members: Vec<usize> = sets::members(set).collect();
        tables.groups.push((set, *rng.pick(&members) as u16));
    }
}

/// Tables that lead on for ever, so that the stack fills up.
pub fn looping(rng: &mut Rng) -> Tables {
    let mut sizes = sizes(rng, false);
    sizes.terminals = sizes.terminals.max(2);
    sizes.scan_states = sizes.scan_states.max(2);
    let mut tables = tables(rng, sizes);
    if rng.percent(50) {
        loop_by_empty_production(rng, &mut tables);
    } else {
        loop_by_shift(rng, &mut tables);
    }
    tables
}

/// State 0 and two more reduce by an empty production and lead to one another.
fn loop_by_empty_production(rng: &mut Rng, tables: &mut Tables) {
    let sizes = tables.sizes();
    let p = rng.below(sizes.productions);
    tables.productions[p].symbols.clear();
    let lhs = usize::from(tables.productions[p].lhs);
    let reduce = 3 + 2 * p as u16;
    let (first, again) = (rng.below(sizes.states), rng.below(sizes.states));
    for s in [0, first, again] {
        for t in 0..sizes.terminals {
            if !sets::has(tables.layout, t) && rng.percent(70) {
                tables.act[s][t] = reduce;
            }
        }
        tables.act[s][0] = reduce;
    }
    tables.goto[0][lhs] = 1 + first as u16;
    tables.goto[first][lhs] = 1 + again as u16;
    tables.goto[again][lhs] = 1 + again as u16;
}

/// Every state shifts one terminal, which the byte `a` is.
fn loop_by_shift(rng: &mut Rng, tables: &mut Tables) {
    let sizes = tables.sizes();
    let t = rng.from_to(1, sizes.terminals - 1);
    if sets::has(tables.layout, t) {
        return;
    }
    for row in &mut tables.act {
        row[t] = 2 + 2 * rng.below(sizes.states) as u16;
    }
    let of_a = |range: &&Range| (range.lo..=range.hi).contains(&97);
    let class = tables
        .ranges
        .iter()
        .find(of_a)
        .map_or(0, |range| range.class);
    let q = rng.from_to(1, sizes.scan_states - 1);
    tables.moves[0][usize::from(class)] = 1 + q as u16;
    tables.moves[q].fill(0);
    tables.scan[0].poss |= sets::single(t);
    tables.scan[q].acc = sets::single(t);
    tables.scan[q].rej &= !sets::single(t);
}

/// The number of different changes that `change` makes.
const CHANGES: usize = 20;

/// One random change that keeps the shape good. A change that finds nothing to change leaves all as it is.
pub fn change(rng: &mut Rng, tables: &mut Tables) {
    let sizes = tables.sizes();
    let all = sets::below(sizes.terminals) & !sets::single(0);
    let any = |rng: &mut Rng| (sizes.terminals > 1).then(|| rng.from_to(1, sizes.terminals - 1));
    let s = rng.below(sizes.states);
    let q = rng.below(sizes.scan_states);
    let p = rng.below(sizes.productions);
    let t = rng.below(sizes.terminals);
    let n = rng.below(sizes.nonterminals);
    match rng.below(CHANGES) {
        0 | 1 if !sets::has(tables.layout, t) => {
            tables.act[s][t] = match rng.once_in(4) {
                true => 0,
                false => random_action(rng, t, sizes.states, sizes.productions),
            };
        }
        2 => tables.goto[s][n] = rng.from_to(0, sizes.states) as u16,
        3 => tables.goto[s].fill(0),
        4 => {
            let c = rng.below(sizes.classes);
            tables.moves[q][c] = rng.from_to(0, sizes.scan_states) as u16;
        }
        5 if sizes.ranges > 0 => {
            let r = rng.below(sizes.ranges);
            tables.ranges[r].class = rng.below(sizes.classes) as u16;
        }
        6 if q != 0 => {
            if let Some(t) = any(rng) {
                tables.scan[q].acc ^= sets::single(t);
                tables.scan[q].rej &= !sets::single(t);
            }
        }
        7 if q != 0 => {
            if let Some(t) = any(rng) {
                tables.scan[q].rej ^= sets::single(t);
                tables.scan[q].acc &= !sets::single(t);
            }
        }
        8 => {
            if let Some(t) = any(rng) {
                tables.scan[q].poss ^= sets::single(t);
            }
        }
        9 => {
            if let (Some(t), Some(u)) = (any(rng), any(rng)) {
                if t != u {
                    tables.dom[t] ^= sets::single(u);
                }
            }
        }
        10 => {
            // All that match are accepted.
            let sets = &mut tables.scan[q];
            sets.acc |= sets.rej;
            sets.rej = sets::EMPTY;
        }
        11 => tables.act[s][0] = 1,
        12 if sizes.groups > 0 => {
            let g = rng.below(sizes.groups);
            tables.groups.remove(g);
        }
        13 if sizes.groups < 32 => {
            let set = rng.set(all, 50);
            push_group(rng, tables, set);
        }
        18 if sizes.groups < 32 => {
            // A group of what some state sees, layout with it.
            let seen = tables.scan[q].acc & (tables.valid_set(s) | tables.layout);
            push_group(rng, tables, seen);
        }
        14 => tables.productions[p].lhs = n as u16,
        15 => {
            tables.productions[p].symbols.pop();
        }
        16 => {
            let symbols: Vec<u16> = sets::members(all & !tables.layout)
                .map(|t| t as u16)
                .chain((0..sizes.nonterminals).map(nonterminal))
                .collect();
            let symbol = *rng.pick(&symbols);
            let production = &mut tables.productions[p].symbols;
            if production.len() < 14 && rng.percent(50) {
                production.insert(rng.from_to(0, production.len()), symbol);
            } else if !production.is_empty() {
                let i = rng.below(production.len());
                production[i] = symbol;
            }
        }
        17 => {
            // A state that sees more: the shifts and reductions of another row are added.
            let other = tables.act[rng.below(sizes.states)].clone();
            for (cell, code) in tables.act[s].iter_mut().zip(other) {
                if *cell == 0 {
                    *cell = code;
                }
            }
        }
        _ => {
            // No outranking at all: every terminal that matches is accepted.
            tables.dom.fill(sets::EMPTY);
            for sets in &mut tables.scan {
                sets.acc |= sets.rej;
                sets.rej = sets::EMPTY;
            }
        }
    }
}
