//! Random grammars and random derivations.

use super::rng::Rng;
use super::tables::{nonterminal, Production};
use crate::image::FIRST_NONTERMINAL;

#[derive(Clone, Debug)]
pub struct Grammar {
    pub nonterminals: usize,
    pub productions: Vec<Production>,
}

impl Grammar {
    /// Productions of any form, over the terminals of the pool.
    pub fn plain(rng: &mut Rng, pool: &[u16], most: usize) -> Grammar {
        let nonterminals = rng.from_to(1, most);
        let mut productions = Vec::new();
        for lhs in 0..nonterminals {
            for _ in 0..rng.from_to(1, 3) {
                let len = *rng.pick(&[0, 1, 1, 1, 2, 2, 2, 3, 3, 4]);
                let symbols = (0..len)
                    .map(|_| {
                        if rng.percent(60) {
                            *rng.pick(pool)
                        } else {
                            nonterminal(rng.below(nonterminals))
                        }
                    })
                    .collect();
                productions.push(Production {
                    lhs: lhs as u16,
                    symbols,
                });
            }
        }
        Grammar {
            nonterminals,
            productions,
        }
    }

    /// Nonterminals made by common forms: sequences, choices, lists, options, operators, brackets.
    pub fn structured(rng: &mut Rng, pool: &[u16], most: usize) -> Grammar {
        let nonterminals = rng.from_to(most.div_ceil(2), most);
        let mut productions = Vec::new();
        for lhs in 0..nonterminals {
            let mut forms = Vec::new();
            let part = |rng: &mut Rng| {
                if lhs + 1 < nonterminals && rng.percent(65) {
                    // Mostly the next one, so that all are used.
                    let next = if rng.percent(70) {
                        lhs + 1
                    } else {
                        rng.from_to(lhs + 1, nonterminals - 1)
                    };
                    nonterminal(next)
                } else {
                    *rng.pick(pool)
                }
            };
            let itself = nonterminal(lhs);
            match rng.below(8) {
                0 => {
                    let len = rng.from_to(1, 5);
                    forms.push((0..len).map(|_| part(rng)).collect());
                }
                1 => {
                    let mut heads = pool.to_vec();
                    rng.shuffle(&mut heads);
                    heads.truncate(rng.from_to(1, 6));
                    for head in heads {
                        let mut symbols = vec![head];
                        symbols.extend((0..rng.below(4)).map(|_| part(rng)));
                        forms.push(symbols);
                    }
                    if rng.once_in(4) {
                        forms.push(Vec::new());
                    }
                }
                2 => {
                    let item = part(rng);
                    let separator = rng.percent(50).then(|| *rng.pick(pool));
                    let mut list = vec![itself];
                    list.extend(separator);
                    list.push(item);
                    forms = vec![list, vec![item]];
                    if separator.is_none() && rng.once_in(3) {
                        forms[1].clear();
                    }
                }
                3 => {
                    let item = part(rng);
                    let separator = rng.percent(50).then(|| *rng.pick(pool));
                    let mut list = vec![item];
                    list.extend(separator);
                    list.push(itself);
                    forms = vec![list, vec![item]];
                    if separator.is_none() && rng.percent(50) {
                        forms[1].clear();
                    }
                }
                4 => forms = vec![vec![part(rng)], Vec::new()],
                5 => {
                    let operand = part(rng);
                    let count = rng.from_to(1, 3);
                    for _ in 0..count {
                        forms.push(vec![itself, *rng.pick(pool), operand]);
                    }
                    forms.push(vec![operand]);
                }
                6 => {
                    let inner = nonterminal(rng.below(nonterminals));
                    let (open, close) = (*rng.pick(pool), *rng.pick(pool));
                    forms = vec![vec![open, inner, close], vec![part(rng)]];
                }
                _ => {
                    let len = rng.from_to(5, 14);
                    forms.push((0..len).map(|_| *rng.pick(pool)).collect());
                    forms.push(vec![part(rng)]);
                }
            }
            forms.sort();
            forms.dedup();
            productions.extend(forms.into_iter().map(|symbols| Production {
                lhs: lhs as u16,
                symbols,
            }));
        }
        Grammar {
            nonterminals,
            productions,
        }
    }

    /// A language of statements, as query languages are: each begins with a word of its own and goes on with
    /// expressions, options and lists. It uses up the pool, so it has many states and few conflicts.
    pub fn layered(rng: &mut Rng, pool: &[u16], most: usize) -> Grammar {
        let mut unused = pool.to_vec();
        rng.shuffle(&mut unused);
        let mut grammar = Grammar {
            nonterminals: 2,
            productions: Vec::new(),
        };
        let (start, statement) = (0, 1);

        // Expressions: levels of operators, then atoms and brackets.
        let levels = rng.from_to(1, 3);
        let expression = grammar.nonterminals;
        grammar.nonterminals += levels + 1;
        for level in expression..expression + levels {
            let (this, next) = (nonterminal(level), nonterminal(level + 1));
            for _ in 0..rng.from_to(1, 3) {
                if let Some(operator) = unused.pop() {
                    let forms = [vec![this, operator, next], vec![next, operator, this]];
                    grammar.add(level, forms[usize::from(rng.once_in(4))].clone());
                }
            }
            grammar.add(level, vec![next]);
        }
        let atom = expression + levels;
        for _ in 0..rng.from_to(1, 4) {
            let terminal = unused.pop().unwrap_or(pool[0]);
            grammar.add(atom, vec![terminal]);
        }
        let whole = nonterminal(expression);
        if let (Some(open), Some(close)) = (unused.pop(), unused.pop()) {
            grammar.add(atom, vec![open, whole, close]);
        }

        // Options, and lists between brackets.
        let mut parts = vec![whole, whole, nonterminal(atom)];
        for _ in 0..rng.below(4) {
            if let (Some(head), true) = (unused.pop(), grammar.nonterminals < most) {
                let option = grammar.fresh();
                grammar.add(option, vec![head, whole]);
                grammar.add(option, Vec::new());
                parts.push(nonterminal(option));
            }
        }
        for _ in 0..rng.below(3) {
            let (Some(separator), true) = (unused.pop(), grammar.nonterminals + 1 < most) else {
                break;
            };
            let (Some(open), Some(close)) = (unused.pop(), unused.pop()) else {
                break;
            };
            let (list, bracketed) = (grammar.fresh(), grammar.fresh());
            grammar.add(list, vec![nonterminal(list), separator, whole]);
            grammar.add(list, vec![whole]);
            grammar.add(bracketed, vec![open, nonterminal(list), close]);
            parts.push(nonterminal(bracketed));
        }

        // Statements, and the start: one or more of them, apart or not.
        let separator = unused.pop();
        let mut statements = 0;
        while let Some(head) = unused.pop() {
            let mut symbols = vec![head];
            symbols.extend((0..rng.below(5)).map(|_| *rng.pick(&parts)));
            grammar.add(statement, symbols);
            statements += 1;
            if rng.once_in(30) {
                break;
            }
        }
        if statements == 0 {
            grammar.add(statement, vec![whole]);
        }
        let (all, one) = (nonterminal(start), nonterminal(statement));
        match (separator, rng.below(3)) {
            (Some(separator), 0) => grammar.add(start, vec![all, separator, one]),
            (Some(separator), _) => grammar.add(start, vec![one, separator, all]),
            (None, _) => (),
        }
        grammar.add(start, vec![one]);
        grammar
    }

    fn fresh(&mut self) -> usize {
        self.nonterminals += 1;
        self.nonterminals - 1
    }

    fn add(&mut self, lhs: usize, symbols: Vec<u16>) {
        self.productions.push(Production {
            lhs: lhs as u16,
            symbols,
        });
    }

    /// For each nonterminal the height of its lowest derivation; none if one of them derives no text.
    pub fn heights(&self) -> Option<Vec<usize>> {
        let mut heights: Vec<Option<usize>> = vec![None; self.nonterminals];
        for height in 1..=self.nonterminals {
            let before = heights.clone();
            for production in &self.productions {
                let low = |&symbol: &u16| match usize::from(symbol).checked_sub(FIRST_NONTERMINAL) {
                    None => true,
                    Some(n) => before[n].is_some(),
                };
                let entry = &mut heights[usize::from(production.lhs)];
                if entry.is_none() && production.symbols.iter().all(low) {
                    *entry = Some(height);
                }
            }
        }
        heights.into_iter().collect()
    }

    /// The terminals of a random derivation from nonterminal 0, about as many as asked for.
    pub fn derive(&self, rng: &mut Rng, heights: &[usize], about: usize) -> Vec<u16> {
        let height = |production: &Production| {
            let heights = production
                .symbols
                .iter()
                .filter_map(|&symbol| usize::from(symbol).checked_sub(FIRST_NONTERMINAL))
                .map(|n| heights[n]);
            heights.max().unwrap_or(0)
        };
        let mut terminals = Vec::new();
        // The symbols still to be derived, the leftmost last.
        let mut left = vec![nonterminal(0)];
        let mut steps = 0;
        while let Some(symbol) = left.pop() {
            let Some(n) = usize::from(symbol).checked_sub(FIRST_NONTERMINAL) else {
                terminals.push(symbol);
                continue;
            };
            steps += 1;
            let mut choices: Vec<&Production> = self
                .productions
                .iter()
                .filter(|production| usize::from(production.lhs) == n)
                .collect();
            if terminals.len() + left.len() > about || steps > 4 * about + 8 {
                let lowest = choices.iter().map(|p| height(p)).min();
                choices.retain(|p| Some(height(p)) == lowest);
            }
            left.extend(rng.pick(&choices).symbols.iter().rev());
        }
        terminals
    }
}
