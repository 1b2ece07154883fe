//! Source 1: packs that pass. A random grammar gives the parse tables, random patterns the scan tables, and acc, rej,
//! poss and the groups follow from their meaning. Every pack given passes shape and check.

use std::collections::BTreeMap;

use super::grammar::Grammar;
use super::lr::{self, Method, NoTables};
use super::pattern::{Alphabet, Pattern};
use super::rng::Rng;
use super::scanner::{self, NoScanner, ScanTables};
use super::tables::{nonterminal, Production, ScanSets, Tables};
use super::wide::greatest_sizes;
use crate::check;
use crate::image::{Range, Sizes};
use crate::sets::{self, Set};
use crate::shape;

/// How large a pack is meant to be.
#[derive(Clone, Copy, Debug, PartialEq, Eq)]
pub enum Scale {
    Tiny,
    Small,
    Middle,
    Large,
    /// Any of the others, with all sizes raised to their greatest.
    Greatest,
}

/// What a pack was made from, to derive queries with.
#[derive(Clone, Debug)]
pub struct Language {
    pub grammar: Grammar,
    pub heights: Vec<usize>,
    /// By terminal; terminals that match nothing have none.
    pub patterns: Vec<Option<Pattern>>,
    pub layout: Vec<usize>,
    /// Tokens that begin as some layout does.
    pub alike: Vec<usize>,
    /// By terminal: those that outrank it.
    pub dom: Vec<Set>,
}

#[derive(Clone, Debug)]
pub struct Passing {
    pub tables: Tables,
    pub language: Language,
}

/// Why drafts are dropped, and how often.
#[derive(Clone, Debug, Default)]
pub struct Drops {
    pub reasons: BTreeMap<&'static str, usize>,
}

impl Drops {
    fn count<X>(&mut self, reason: &'static str) -> Option<X> {
        *self.reasons.entry(reason).or_default() += 1;
        None
    }
}

/// A pack that passes.
pub fn passing(rng: &mut Rng, scale: Scale, drops: &mut Drops) -> Passing {
    let passing = loop {
        if let Some(passing) = draft(rng, scale, drops) {
            break passing;
        }
    };
    let image = passing.tables.image();
    let failing = match shape::pack(&image) {
        Err(fault) => Some(format!("{fault:?}")),
        Ok(pack) => check::failing(&pack).map(|failing| format!("{failing:?}")),
    };
    if let Some(failing) = failing {
        panic!("a pack from this source passes, but: {failing}");
    }
    passing
}

/// The bounds of a draft: terminals of the grammar, nonterminals, letters, longest word.
fn bounds(rng: &mut Rng, scale: Scale) -> (usize, usize, usize, usize) {
    match scale {
        Scale::Tiny => (rng.from_to(1, 3), 2, 3, 2),
        Scale::Small => (rng.from_to(2, 6), 4, 5, 4),
        Scale::Middle => (rng.from_to(6, 16), 9, 8, 4),
        Scale::Large => (rng.from_to(16, 44), 24, 8, 3),
        Scale::Greatest => match rng.below(3) {
            0 => bounds(rng, Scale::Small),
            1 => bounds(rng, Scale::Middle),
            _ => bounds(rng, Scale::Large),
        },
    }
}

fn draft(rng: &mut Rng, scale: Scale, drops: &mut Drops) -> Option<Passing> {
    let (used, nonterminals, letters, longest) = bounds(rng, scale);
    let layouts = *rng.pick(&[0, 1, 1, 1, 2, 3]);
    let unused = *rng.pick(&[0, 0, 1, 2, 4]);
    let terminals = 1 + used + layouts + unused;

    // Terminals 1.. in any order: those of the grammar, layout, and those that no production uses.
    let mut order: Vec<usize> = (1..terminals).collect();
    rng.shuffle(&mut order);
    let mut pool: Vec<u16> = order[..used].iter().map(|&t| t as u16).collect();
    pool.sort_unstable();
    let layout: Vec<usize> = order[used..used + layouts].to_vec();

    let small = matches!(scale, Scale::Tiny | Scale::Small);
    let grammar = if small && rng.percent(60) {
        Grammar::plain(rng, &pool, nonterminals)
    } else if !small && rng.percent(70) {
        Grammar::layered(rng, &pool, nonterminals)
    } else {
        Grammar::structured(rng, &pool, nonterminals)
    };
    if grammar.productions.len() > 128 {
        return drops.count("more than 128 productions");
    }
    let Some(heights) = grammar.heights() else {
        return drops.count("a nonterminal derives no text");
    };
    let method = *rng.pick(&[Method::Lr1, Method::Lalr1, Method::Slr1]);
    let settle = rng.once_in(25);
    let mut parse = match lr::build(rng, &grammar, terminals, method, settle) {
        Ok(parse) => parse,
        Err(NoTables::Conflict) => return drops.count("a conflict in the parse tables"),
        Err(NoTables::TooManyStates) => return drops.count("more than 128 parse states"),
    };

    let bounds = (letters, longest);
    let Drawn {
        patterns,
        scan,
        alike,
    } = scanner_draft(rng, terminals, &layout, &pool, bounds, drops)?;
    if !alike.is_empty() && rng.percent(40) {
        reduce_on_more(&mut parse.act, &alike);
    }
    let dom = outranking(rng, terminals, &layout, &patterns, &scan);
    let mut tables = Tables {
        nonterminals: grammar.nonterminals,
        classes: scan.classes,
        layout: layout.iter().fold(0, |set, &t| set | sets::single(t)),
        scan: scan_sets(&scan, &dom),
        dom: dom.clone(),
        productions: grammar.productions.clone(),
        act: parse.act,
        goto: parse.goto,
        ranges: scan.ranges,
        moves: scan.moves,
        groups: Vec::new(),
    };
    let mut needed = needed_groups(&tables);
    if needed.len() > 32 {
        return drops.count("ambiguity that asks for more than 32 groups");
    }
    rng.shuffle(&mut needed);
    tables.groups = needed
        .into_iter()
        .map(|set| (set, chosen(rng, set)))
        .collect();
    vary(rng, &mut tables);
    match scale {
        Scale::Greatest => pad(rng, &mut tables, greatest_sizes()),
        _ if rng.once_in(4) => {
            let sizes = tables.sizes();
            let mut more = |size: usize, most: usize| most.min(size + rng.below(4));
            let target = Sizes {
                terminals: more(sizes.terminals, 64),
                nonterminals: more(sizes.nonterminals, 32),
                productions: more(sizes.productions, 128),
                states: more(sizes.states, 128),
                scan_states: more(sizes.scan_states, 128),
                classes: more(sizes.classes, 32),
                ranges: more(sizes.ranges, 64),
                groups: more(sizes.groups, 32),
            };
            pad(rng, &mut tables, target);
        }
        _ => (),
    }
    Some(Passing {
        tables,
        language: Language {
            grammar,
            heights,
            patterns,
            layout,
            alike,
            dom,
        },
    })
}

type Patterns = Vec<Option<Pattern>>;

/// What is drawn for the scanner: patterns, their tables, and the tokens that begin as some layout does.
struct Drawn {
    patterns: Patterns,
    scan: ScanTables,
    alike: Vec<usize>,
}

/// Patterns for all terminals but 0, and their scan tables; `pool` has the terminals of the grammar.
fn scanner_draft(
    rng: &mut Rng,
    terminals: usize,
    layout: &[usize],
    pool: &[u16],
    (letters, longest): (usize, usize),
    drops: &mut Drops,
) -> Option<Drawn> {
    // The parse tables are dear, so a few drafts of the patterns are tried.
    for _ in 0..8 {
        let letters = rng.from_to(2.min(letters), letters);
        let alphabet = Alphabet::random(rng, letters);
        let mut patterns: Patterns = vec![None; terminals];
        for t in 1..terminals {
            let pattern = if layout.contains(&t) {
                alphabet.random_layout(rng)
            } else if t > 1 && rng.once_in(12) {
                match patterns[rng.from_to(1, t - 1)].clone() {
                    Some(same) => same,
                    None => continue,
                }
            } else {
                alphabet.random_pattern(rng, longest)
            };
            patterns[t] = Some(pattern);
        }
        let mut alike = Vec::new();
        if !layout.is_empty() && rng.percent(40) {
            alike = begin_alike(rng, &alphabet, &mut patterns, layout, pool);
        }
        let listed: Vec<(usize, Pattern)> = patterns
            .iter()
            .enumerate()
            .filter_map(|(t, pattern)| Some((t, pattern.clone()?)))
            .collect();
        match scanner::build(rng, &listed) {
            Ok(scan) => {
                return Some(Drawn {
                    patterns,
                    scan,
                    alike,
                })
            }
            Err(NoScanner::MatchesEmpty) => drops.count::<()>("a pattern matches the empty text"),
            Err(NoScanner::TooManyStates) => drops.count("more than 128 scan states"),
            Err(NoScanner::TooManyClasses) => drops.count("more than 32 classes"),
            Err(NoScanner::TooManyRanges) => drops.count("more than 64 ranges"),
        };
    }
    None
}

/// Lets a layout terminal and a token begin alike, and gives such tokens: the token is longer, or the layout, or they are
/// the same, or only some of their words are. Or two layout terminals are the same.
fn begin_alike(
    rng: &mut Rng,
    alphabet: &Alphabet,
    patterns: &mut Patterns,
    layout: &[usize],
    pool: &[u16],
) -> Vec<usize> {
    let sign = *rng.pick(&alphabet.signs);
    let length = if rng.percent(70) { 2 } else { 1 };
    let front = Pattern::word(&[sign, sign][..length]);
    let letters = Pattern::one(alphabet.letters.iter().copied());
    let digits = Pattern::one(alphabet.digits.iter().copied());
    let any = Pattern::Either(vec![letters.clone(), digits.clone()]);
    let with = |more: Pattern| Pattern::Seq(vec![front.clone(), more]);
    let comment = *rng.pick(layout);
    let token = usize::from(*rng.pick(pool));
    let (of_comment, of_token) = match rng.below(6) {
        0 => (
            front.clone(),
            with(Pattern::one([*rng.pick(&alphabet.signs)])),
        ),
        1 => (front.clone(), with(letters.opt())),
        2 => (with(any.plus().opt()), front.clone()),
        3 => (front.clone(), front.clone()),
        4 => (with(letters.clone().plus().opt()), with(any.plus().opt())),
        _ => {
            let other = *rng.pick(layout);
            patterns[other] = patterns[comment].clone();
            return Vec::new();
        }
    };
    patterns[comment] = Some(of_comment);
    patterns[token] = Some(of_token);
    // A token that is shorter than both.
    let other = usize::from(*rng.pick(pool));
    if other != token && rng.percent(30) {
        patterns[other] = Some(Pattern::word(&[sign]));
        return vec![token, other];
    }
    vec![token]
}

/// States that reduce do so on these terminals too, where they have no action, as merged look-ahead makes them. What they
/// reduce by stays.
fn reduce_on_more(act: &mut [Vec<u16>], alike: &[usize]) {
    for row in act {
        let reduction = row.iter().find(|&&code| code > 1 && code % 2 == 1).copied();
        for &t in alike {
            if row[t] == 0 {
                row[t] = reduction.unwrap_or(0);
            }
        }
    }
}

/// The terminals that outrank each: mostly words outrank patterns, where both match.
fn outranking(
    rng: &mut Rng,
    terminals: usize,
    layout: &[usize],
    patterns: &[Option<Pattern>],
    scan: &ScanTables,
) -> Vec<Set> {
    let word = |t: usize| matches!(patterns[t], Some(Pattern::Seq(_)));
    let mut dom = vec![sets::EMPTY; terminals];
    let mut decided = Vec::new();
    let eager = *rng.pick(&[20, 75, 95]);
    let of_layout = *rng.pick(&[0, eager]);
    for &matching in &scan.matching {
        for t in sets::members(matching) {
            for u in sets::members(matching & !sets::below(t + 1)) {
                if decided.contains(&(t, u)) {
                    continue;
                }
                decided.push((t, u));
                let eager = match layout.contains(&t) || layout.contains(&u) {
                    true => of_layout,
                    false => eager,
                };
                if !rng.percent(eager) {
                    continue;
                }
                let u_above = match (word(t), word(u)) {
                    (true, false) => false,
                    (false, true) => true,
                    _ => rng.percent(50),
                };
                if u_above {
                    dom[t] |= sets::single(u);
                } else {
                    dom[u] |= sets::single(t);
                }
            }
        }
    }
    // Some that no text shows, or that go in a circle.
    if terminals > 2 && rng.once_in(6) {
        for _ in 0..rng.from_to(1, 3) {
            let (t, u) = (rng.from_to(1, terminals - 1), rng.from_to(1, terminals - 1));
            if t != u {
                dom[t] |= sets::single(u);
            }
        }
    }
    dom
}

/// acc, rej and poss from their meaning.
fn scan_sets(scan: &ScanTables, dom: &[Set]) -> Vec<ScanSets> {
    let mut states: Vec<ScanSets> = scan
        .matching
        .iter()
        .map(|&matching| {
            let rej = sets::members(matching)
                .filter(|&t| dom[t] & matching != sets::EMPTY)
                .fold(sets::EMPTY, |set, t| set | sets::single(t));
            ScanSets {
                acc: matching & !rej,
                rej,
                poss: matching,
            }
        })
        .collect();
    loop {
        let before = states.clone();
        for (q, row) in scan.moves.iter().enumerate() {
            for &code in row.iter().filter(|&&code| code != 0) {
                states[q].poss |= before[usize::from(code) - 1].poss;
            }
        }
        if before == states {
            return states;
        }
    }
}

/// The sets of several terminals that a parse state, layout beside it, and a scan state leave; also a state without
/// actions, since such rows may be added.
fn needed_groups(tables: &Tables) -> Vec<Set> {
    let mut needed = Vec::new();
    let states = (0..tables.act.len()).map(|s| tables.valid_set(s));
    for valid in states.chain([sets::EMPTY]) {
        let sought = valid | tables.layout;
        for sets in &tables.scan {
            let set = sets.acc & sought;
            if sets::count(set) > 1 && !needed.contains(&set) {
                needed.push(set);
            }
        }
    }
    needed
}

fn chosen(rng: &mut Rng, group: Set) -> u16 {
    let members: Vec<usize> = sets::members(group).collect();
    *rng.pick(&members) as u16
}

/// Changes that keep a passing pack passing.
fn vary(rng: &mut Rng, tables: &mut Tables) {
    if rng.percent(50) {
        renumber_states(rng, tables);
    }
    if rng.once_in(8) {
        // Possible sets may be larger than needed.
        let all = sets::below(tables.dom.len()) & !sets::single(0);
        let more = rng.set(all, 40);
        tables.scan.iter_mut().for_each(|sets| sets.poss |= more);
    }
    if rng.percent(50) {
        for _ in 0..rng.from_to(1, 3) {
            if tables.groups.len() < 32 {
                add_group(rng, tables);
            }
        }
    }
}

/// Renumbers the parse states but 0.
fn renumber_states(rng: &mut Rng, tables: &mut Tables) {
    let count = tables.act.len();
    let mut number: Vec<usize> = (0..count).collect();
    rng.shuffle(&mut number[1..]);
    let (act, goto) = (tables.act.clone(), tables.goto.clone());
    for s in 0..count {
        tables.act[number[s]] = act[s]
            .iter()
            .map(|&code| match code {
                0 | 1 => code,
                _ if code % 2 == 0 => 2 + 2 * number[usize::from(code) / 2 - 1] as u16,
                _ => code,
            })
            .collect();
        tables.goto[number[s]] = goto[s]
            .iter()
            .map(|&code| match code {
                0 => 0,
                _ => 1 + number[usize::from(code) - 1] as u16,
            })
            .collect();
    }
}

/// Adds a group that nobody needs, if one is left.
fn add_group(rng: &mut Rng, tables: &mut Tables) {
    let all = sets::below(tables.dom.len()) & !sets::single(0);
    for _ in 0..20 {
        let set = rng.set(all, 40);
        if sets::count(set) > 1 && tables.groups.iter().all(|&(other, _)| other != set) {
            let chosen = chosen(rng, set);
            tables.groups.push((set, chosen));
            return;
        }
    }
}

/// Raises the sizes with things that nothing leads to, and with copies.
pub fn pad(rng: &mut Rng, tables: &mut Tables, target: Sizes) {
    while tables.dom.len() < target.terminals {
        tables.dom.push(sets::EMPTY);
        tables.act.iter_mut().for_each(|row| row.push(0));
    }
    while tables.nonterminals < target.nonterminals {
        tables.nonterminals += 1;
        tables.goto.iter_mut().for_each(|row| row.push(0));
    }
    let symbols: Vec<u16> = (1..tables.dom.len())
        .filter(|&t| !sets::has(tables.layout, t))
        .map(|t| t as u16)
        .chain((0..tables.nonterminals).map(nonterminal))
        .collect();
    while tables.productions.len() < target.productions {
        let len = rng.below(15);
        tables.productions.push(Production {
            lhs: rng.below(tables.nonterminals) as u16,
            symbols: (0..len).map(|_| *rng.pick(&symbols)).collect(),
        });
    }
    while tables.act.len() < target.states {
        // A copy of a state other than 0, which nothing leads to, or an empty row.
        let s = rng.below(tables.act.len());
        if s == 0 {
            tables.act.push(vec![0; tables.dom.len()]);
            tables.goto.push(vec![0; tables.nonterminals]);
        } else {
            tables.act.push(tables.act[s].clone());
            tables.goto.push(tables.goto[s].clone());
        }
    }
    while tables.moves.len() < target.scan_states {
        let q = rng.below(tables.moves.len());
        tables.moves.push(tables.moves[q].clone());
        tables.scan.push(tables.scan[q]);
    }
    while tables.classes < target.classes {
        let copied = rng.once_in(3).then(|| rng.below(tables.classes));
        tables.classes += 1;
        for row in &mut tables.moves {
            row.push(copied.map_or(0, |c| row[c]));
        }
    }
    while tables.ranges.len() < target.ranges && add_range(rng, tables) {}
    while tables.groups.len() < target.groups {
        let before = tables.groups.len();
        add_group(rng, tables);
        if tables.groups.len() == before {
            break;
        }
    }
}

/// Adds a range: a part of one that holds several bytes, or of class 0 where there is none.
fn add_range(rng: &mut Rng, tables: &mut Tables) -> bool {
    let splits: Vec<usize> = (0..tables.ranges.len())
        .filter(|&r| tables.ranges[r].lo < tables.ranges[r].hi)
        .collect();
    let covered = |byte: u16| {
        tables
            .ranges
            .iter()
            .any(|range| (range.lo..=range.hi).contains(&byte))
    };
    let free: Vec<u16> = (0..256).filter(|&byte| !covered(byte)).collect();
    if !free.is_empty() && (splits.is_empty() || rng.percent(50)) {
        let byte = *rng.pick(&free);
        let r = tables.ranges.iter().take_while(|range| range.hi < byte);
        let r = r.count();
        let range = Range {
            lo: byte,
            hi: byte,
            class: 0,
        };
        tables.ranges.insert(r, range);
        return true;
    }
    if splits.is_empty() {
        return false;
    }
    let r = *rng.pick(&splits);
    let range = tables.ranges[r];
    let hi = rng.from_to(usize::from(range.lo), usize::from(range.hi) - 1) as u16;
    tables.ranges[r].hi = hi;
    tables.ranges.insert(
        r + 1,
        Range {
            lo: hi + 1,
            ..range
        },
    );
    true
}
