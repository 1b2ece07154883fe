//! Parse tables from a grammar: LR(1), LALR(1) or SLR(1).

use std::collections::BTreeMap;

use super::grammar::Grammar;
use super::rng::Rng;
use crate::image::{Action, FIRST_NONTERMINAL};
use crate::sets::{self, Set};

#[derive(Clone, Copy, Debug, PartialEq, Eq)]
pub enum Method {
    Lr1,
    Lalr1,
    Slr1,
}

/// Why a grammar has no parse tables.
#[derive(Clone, Copy, Debug, PartialEq, Eq, PartialOrd, Ord)]
pub enum NoTables {
    Conflict,
    TooManyStates,
}

/// Action and goto rows, in the pack's codes.
#[derive(Clone, Debug)]
pub struct ParseTables {
    pub act: Vec<Vec<u16>>,
    pub goto: Vec<Vec<u16>>,
}

/// Items: production (the one past the last is the start's), place of the dot, and the terminals that may follow.
type Items = BTreeMap<(usize, usize), Set>;

/// The states that a state leads to, by symbol.
type Edges = BTreeMap<u16, usize>;

struct Builder<'g> {
    grammar: &'g Grammar,
    start: [u16; 1],
    /// For each nonterminal, the terminals that can come first, and whether it derives the empty text.
    first: Vec<Set>,
    empty: Vec<bool>,
}

impl<'g> Builder<'g> {
    fn new(grammar: &'g Grammar) -> Builder<'g> {
        let mut builder = Builder {
            grammar,
            start: [FIRST_NONTERMINAL as u16],
            first: vec![sets::EMPTY; grammar.nonterminals],
            empty: vec![false; grammar.nonterminals],
        };
        loop {
            let before = (builder.first.clone(), builder.empty.clone());
            for production in &grammar.productions {
                let n = usize::from(production.lhs);
                let (first, empty) = builder.first_of(&production.symbols);
                builder.first[n] |= first;
                builder.empty[n] |= empty;
            }
            if before == (builder.first.clone(), builder.empty.clone()) {
                return builder;
            }
        }
    }

    fn first_of(&self, symbols: &[u16]) -> (Set, bool) {
        let mut first = sets::EMPTY;
        for &symbol in symbols {
            match usize::from(symbol).checked_sub(FIRST_NONTERMINAL) {
                None => return (first | sets::single(usize::from(symbol)), false),
                Some(n) => {
                    first |= self.first[n];
                    if !self.empty[n] {
                        return (first, false);
                    }
                }
            }
        }
        (first, true)
    }

    fn symbols(&self, production: usize) -> &[u16] {
        match self.grammar.productions.get(production) {
            Some(production) => &production.symbols,
            None => &self.start,
        }
    }

    fn closure(&self, kernel: &Items) -> Items {
        let mut items = kernel.clone();
        let mut todo: Vec<(usize, usize)> = items.keys().copied().collect();
        while let Some((p, dot)) = todo.pop() {
            let symbols = self.symbols(p);
            let Some(n) = symbols
                .get(dot)
                .and_then(|&symbol| usize::from(symbol).checked_sub(FIRST_NONTERMINAL))
            else {
                continue;
            };
            let (mut follow, empty) = self.first_of(&symbols[dot + 1..]);
            if empty {
                follow |= items[&(p, dot)];
            }
            for (p, production) in self.grammar.productions.iter().enumerate() {
                if usize::from(production.lhs) != n {
                    continue;
                }
                let is_new = !items.contains_key(&(p, 0));
                let entry = items.entry((p, 0)).or_insert(sets::EMPTY);
                if is_new || *entry | follow != *entry {
                    *entry |= follow;
                    todo.push((p, 0));
                }
            }
        }
        items
    }

    /// The kernels that the items lead to, by symbol.
    fn successors(&self, items: &Items) -> BTreeMap<u16, Items> {
        let mut kernels: BTreeMap<u16, Items> = BTreeMap::new();
        for (&(p, dot), &follow) in items {
            if let Some(&symbol) = self.symbols(p).get(dot) {
                kernels
                    .entry(symbol)
                    .or_default()
                    .insert((p, dot + 1), follow);
            }
        }
        kernels
    }

    /// FOLLOW of each nonterminal.
    fn follow(&self) -> Vec<Set> {
        let mut follow = vec![sets::EMPTY; self.grammar.nonterminals];
        follow[0] = sets::single(0);
        loop {
            let before = follow.clone();
            for production in &self.grammar.productions {
                for (i, &symbol) in production.symbols.iter().enumerate() {
                    if let Some(n) = usize::from(symbol).checked_sub(FIRST_NONTERMINAL) {
                        let (first, empty) = self.first_of(&production.symbols[i + 1..]);
                        follow[n] |= first;
                        if empty {
                            follow[n] |= follow[usize::from(production.lhs)];
                        }
                    }
                }
            }
            if before == follow {
                return follow;
            }
        }
    }

    /// The kernels of all states and the edges between them.
    fn states(&self, method: Method, most: usize) -> Result<(Vec<Items>, Vec<Edges>), NoTables> {
        let key = |kernel: &Items| -> Items {
            let mut key = kernel.clone();
            if method != Method::Lr1 {
                key.values_mut().for_each(|follow| *follow = sets::EMPTY);
            }
            key
        };
        let start: Items = BTreeMap::from([((self.grammar.productions.len(), 0), sets::single(0))]);
        let mut known = BTreeMap::from([(key(&start), 0)]);
        let mut kernels = vec![start];
        let mut edges = vec![BTreeMap::new()];
        let mut todo = vec![0];
        while let Some(s) = todo.pop() {
            let items = self.closure(&kernels[s]);
            for (symbol, kernel) in self.successors(&items) {
                let fresh = kernels.len();
                let to = *known.entry(key(&kernel)).or_insert(fresh);
                edges[s].insert(symbol, to);
                if to == fresh {
                    kernels.push(kernel);
                    edges.push(BTreeMap::new());
                    todo.push(to);
                    continue;
                }
                let mut grown = false;
                for (item, follow) in kernel {
                    let entry = kernels[to].entry(item).or_insert(sets::EMPTY);
                    grown |= *entry | follow != *entry;
                    *entry |= follow;
                }
                if grown {
                    todo.push(to);
                }
            }
            if kernels.len() > most {
                return Err(NoTables::TooManyStates);
            }
        }
        Ok((kernels, edges))
    }
}

/// Builds the tables. A conflict gives none, unless `settle` asks to keep one of the actions at random: then the
/// tables read a part of the grammar's texts, and the conditions of the check still hold.
pub fn build(
    rng: &mut Rng,
    grammar: &Grammar,
    terminals: usize,
    method: Method,
    settle: bool,
) -> Result<ParseTables, NoTables> {
    let builder = Builder::new(grammar);
    let (kernels, edges) = builder.states(method, 128)?;
    let follow = builder.follow();
    let mut act = vec![vec![0; terminals]; kernels.len()];
    let mut goto = vec![vec![0; grammar.nonterminals]; kernels.len()];
    for s in 0..kernels.len() {
        let mut actions: Vec<(usize, Action)> = Vec::new();
        for (&symbol, &to) in &edges[s] {
            match usize::from(symbol).checked_sub(FIRST_NONTERMINAL) {
                None => actions.push((usize::from(symbol), Action::Shift(to))),
                Some(n) => goto[s][n] = 1 + to as u16,
            }
        }
        for (&(p, dot), &lookahead) in &builder.closure(&kernels[s]) {
            if dot < builder.symbols(p).len() {
                continue;
            }
            let Some(production) = grammar.productions.get(p) else {
                actions.push((0, Action::Accept));
                continue;
            };
            let terminals = match method {
                Method::Slr1 => follow[usize::from(production.lhs)],
                _ => lookahead,
            };
            actions.extend(sets::members(terminals).map(|t| (t, Action::Reduce(p))));
        }
        for (t, action) in actions {
            let cell: &mut u16 = &mut act[s][t];
            if *cell != 0 && !settle {
                return Err(NoTables::Conflict);
            }
            if *cell == 0 || rng.percent(50) {
                *cell = action.code();
            }
        }
    }
    Ok(ParseTables { act, goto })
}
