//! A pack as tables that can be changed one by one.

use crate::image::{
    Pack, Range, Sizes, FIRST_NONTERMINAL, PROD_SYMBOLS, PROD_WORDS, SET_WORDS, SIZE_LIMITS,
};
use crate::sets::{self, Set};

#[derive(Clone, Debug, PartialEq, Eq)]
pub struct Production {
    pub lhs: u16,
    pub symbols: Vec<u16>,
}

/// The three sets of a scan state.
#[derive(Clone, Copy, Debug, Default, PartialEq, Eq)]
pub struct ScanSets {
    pub acc: Set,
    pub rej: Set,
    pub poss: Set,
}

#[derive(Clone, Debug, PartialEq, Eq)]
pub struct Tables {
    pub nonterminals: usize,
    pub classes: usize,
    pub layout: Set,
    pub dom: Vec<Set>,
    pub productions: Vec<Production>,
    pub act: Vec<Vec<u16>>,
    pub goto: Vec<Vec<u16>>,
    pub ranges: Vec<Range>,
    pub moves: Vec<Vec<u16>>,
    pub scan: Vec<ScanSets>,
    pub groups: Vec<(Set, u16)>,
}

impl Tables {
    /// Good tables of these sizes, with as much 0 as the shape allows.
    pub fn blank(sizes: Sizes) -> Tables {
        let range = |r: usize| Range {
            lo: r as u16,
            hi: r as u16,
            class: 0,
        };
        // The groups are the first pairs of terminals 1.., in order.
        let pairs = (2..sizes.terminals).flat_map(|b| (1..b).map(move |a| (a, b)));
        let groups: Vec<_> = pairs
            .take(sizes.groups)
            .map(|(a, b)| (sets::single(a) | sets::single(b), a as u16))
            .collect();
        assert_eq!(groups.len(), sizes.groups, "terminals for the groups");
        Tables {
            nonterminals: sizes.nonterminals,
            classes: sizes.classes,
            layout: sets::EMPTY,
            dom: vec![sets::EMPTY; sizes.terminals],
            productions: vec![
                Production {
                    lhs: 0,
                    symbols: Vec::new()
                };
                sizes.productions
            ],
            act: vec![vec![0; sizes.terminals]; sizes.states],
            goto: vec![vec![0; sizes.nonterminals]; sizes.states],
            ranges: (0..sizes.ranges).map(range).collect(),
            moves: vec![vec![0; sizes.classes]; sizes.scan_states],
            scan: vec![ScanSets::default(); sizes.scan_states],
            groups,
        }
    }

    pub fn of(pack: &Pack) -> Tables {
        let sizes = pack.sizes;
        Tables {
            nonterminals: sizes.nonterminals,
            classes: sizes.classes,
            layout: pack.layout(),
            dom: (0..sizes.terminals).map(|t| pack.dom(t)).collect(),
            productions: (0..sizes.productions)
                .map(|p| Production {
                    lhs: pack.lhs(p) as u16,
                    symbols: pack.symbols(p).to_vec(),
                })
                .collect(),
            act: (0..sizes.states)
                .map(|s| pack.act_row(s).to_vec())
                .collect(),
            goto: (0..sizes.states)
                .map(|s| pack.goto_row(s).to_vec())
                .collect(),
            ranges: (0..sizes.ranges).map(|r| pack.range(r)).collect(),
            moves: (0..sizes.scan_states)
                .map(|q| pack.move_row(q).to_vec())
                .collect(),
            scan: (0..sizes.scan_states)
                .map(|q| ScanSets {
                    acc: pack.acc(q),
                    rej: pack.rej(q),
                    poss: pack.poss(q),
                })
                .collect(),
            groups: (0..sizes.groups)
                .map(|g| (pack.group(g), pack.chosen(g) as u16))
                .collect(),
        }
    }

    pub fn sizes(&self) -> Sizes {
        Sizes {
            terminals: self.dom.len(),
            nonterminals: self.nonterminals,
            productions: self.productions.len(),
            states: self.act.len(),
            scan_states: self.moves.len(),
            classes: self.classes,
            ranges: self.ranges.len(),
            groups: self.groups.len(),
        }
    }

    /// Are all sizes within their limits?
    pub fn sizes_fit(&self) -> bool {
        let sizes = self.sizes();
        [
            sizes.terminals,
            sizes.nonterminals,
            sizes.productions,
            sizes.states,
            sizes.scan_states,
            sizes.classes,
            sizes.ranges,
            sizes.groups,
        ]
        .into_iter()
        .zip(SIZE_LIMITS)
        .all(|(size, (least, greatest))| {
            (usize::from(least)..=usize::from(greatest)).contains(&size)
        })
    }

    /// V(s).
    pub fn valid_set(&self, s: usize) -> Set {
        self.act[s]
            .iter()
            .enumerate()
            .filter(|(_, &code)| code != 0)
            .fold(sets::EMPTY, |set, (t, _)| set | sets::single(t))
    }

    pub fn image(&self) -> Vec<u16> {
        let mut words = vec![1];
        words.extend(self.sizes().to_words());
        words.extend(sets::to_words(self.layout));
        for &set in &self.dom {
            words.extend(sets::to_words(set));
        }
        for production in &self.productions {
            let unused = PROD_SYMBOLS - production.symbols.len();
            words.extend([production.lhs, production.symbols.len() as u16]);
            words.extend(&production.symbols);
            words.extend(std::iter::repeat_n(0, unused));
        }
        words.extend(self.act.iter().flatten());
        words.extend(self.goto.iter().flatten());
        for range in &self.ranges {
            words.extend([range.lo, range.hi, range.class]);
        }
        words.extend(self.moves.iter().flatten());
        for sets in &self.scan {
            for set in [sets.acc, sets.rej, sets.poss] {
                words.extend(sets::to_words(set));
            }
        }
        for &(set, chosen) in &self.groups {
            words.extend(sets::to_words(set));
            words.push(chosen);
        }
        words
    }
}

/// The symbol number of a nonterminal.
pub fn nonterminal(n: usize) -> u16 {
    (FIRST_NONTERMINAL + n) as u16
}

// `image` lays the tables out by itself; these are the widths it relies on.
const _: () = assert!(PROD_WORDS == PROD_SYMBOLS + 2 && SET_WORDS == 4);
