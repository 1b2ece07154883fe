//! Tables that pass, changed so that a condition of the check fails. The shape stays good. Mostly the place is the one
//! that was drawn; where the change shows earlier, it is that earlier one.

use super::rng::Rng;
use super::tables::Tables;
use crate::image::{Action, FIRST_NONTERMINAL};
use crate::sets::{self, Set};

/// Makes a condition, 1 to 6, fail; none where these tables have nothing that could.
pub fn fail(rng: &mut Rng, tables: &mut Tables, condition: usize) -> Option<()> {
    match condition {
        1 => fail_k1(rng, tables),
        2 => fail_k2(rng, tables),
        3 => fail_k3(rng, tables),
        4 => fail_k4(rng, tables),
        5 => fail_k5(rng, tables),
        _ => fail_k6(rng, tables),
    }
}

/// A place from `least` on and below `end`, the first and the last often.
fn spot(rng: &mut Rng, least: usize, end: usize) -> Option<usize> {
    let last = end.checked_sub(1).filter(|&last| last >= least)?;
    Some(match rng.below(4) {
        0 => least,
        1 => last,
        _ => rng.from_to(least, last),
    })
}

fn some_of(rng: &mut Rng, set: Set) -> Option<usize> {
    let members: Vec<usize> = sets::members(set).collect();
    (!members.is_empty()).then(|| *rng.pick(&members))
}

/// The terminals but the end of the text.
fn all(tables: &Tables) -> Set {
    sets::below(tables.dom.len()) & !sets::single(0)
}

/// The terminals that neither outrank nor are outranked by one of the set, and are not in it.
fn apart_from(tables: &Tables, set: Set) -> Set {
    let outranking = sets::members(set).fold(set, |apart, t| apart | tables.dom[t]);
    sets::members(all(tables) & !outranking)
        .filter(|&t| tables.dom[t] & set == sets::EMPTY)
        .fold(sets::EMPTY, |apart, t| apart | sets::single(t))
}

/// An outranked terminal is accepted, or one that nothing outranks is rejected.
fn fail_k1(rng: &mut Rng, tables: &mut Tables) -> Option<()> {
    let q = spot(rng, 1, tables.scan.len())?;
    let state = tables.scan[q];
    let free = state.acc | apart_from(tables, state.acc | state.rej);
    let state = &mut tables.scan[q];
    match some_of(rng, state.rej) {
        Some(t) if rng.percent(50) => {
            state.rej &= !sets::single(t);
            state.acc |= sets::single(t);
        }
        _ => {
            let t = some_of(rng, free)?;
            state.acc &= !sets::single(t);
            state.rej |= sets::single(t);
        }
    }
    Some(())
}

/// The possible set of a state loses a terminal that matches there, or may still match after a move.
fn fail_k2(rng: &mut Rng, tables: &mut Tables) -> Option<()> {
    let q = spot(rng, 0, tables.scan.len())?;
    let state = tables.scan[q];
    let others = tables.moves[q]
        .iter()
        .filter_map(|&code| usize::from(code).checked_sub(1))
        .filter(|&to| to != q);
    let needed = others.fold(state.acc | state.rej, |set, to| set | tables.scan[to].poss);
    let lost = some_of(rng, needed & state.poss)?;
    tables.scan[q].poss &= !sets::single(lost);
    Some(())
}

/// A scan state accepts two terminals that a parse state sees, or one of which is layout, or both; and no group has just
/// these.
fn fail_k3(rng: &mut Rng, tables: &mut Tables) -> Option<()> {
    let s = spot(rng, 0, tables.act.len())?;
    let q = spot(rng, 1, tables.scan.len())?;
    let state = tables.scan[q];
    let wanted = match rng.below(4) {
        0 => all(tables),
        1 => tables.layout,
        _ => all(tables) & !tables.layout,
    };
    let mut apart: Vec<usize> =
        sets::members(apart_from(tables, state.acc | state.rej) & wanted).collect();
    rng.shuffle(&mut apart);
    for t in apart.into_iter().take(2) {
        if sets::count(tables.scan[q].acc & wanted) < 2 {
            tables.scan[q].acc |= sets::single(t);
            tables
                .scan
                .iter_mut()
                .for_each(|state| state.poss |= sets::single(t));
        }
    }
    let reduce = 3 + 2 * rng.below(tables.productions.len()) as u16;
    for t in sets::members(tables.scan[q].acc & !tables.layout) {
        if tables.act[s][t] == 0 {
            tables.act[s][t] = reduce;
        }
    }
    let seen = tables.scan[q].acc & (tables.valid_set(s) | tables.layout);
    tables.groups.retain(|&(set, _)| set != seen);
    (sets::count(seen) > 1).then_some(())
}

/// Lets state `s` lead to `to` on a symbol.
fn put_edge(tables: &mut Tables, s: usize, symbol: usize, to: usize) {
    match symbol.checked_sub(FIRST_NONTERMINAL) {
        Some(n) => tables.goto[s][n] = 1 + to as u16,
        None => tables.act[s][symbol] = Action::Shift(to).code(),
    }
}

/// A symbol that may stand on an edge.
fn some_symbol(rng: &mut Rng, tables: &Tables) -> usize {
    match some_of(rng, all(tables) & !tables.layout) {
        Some(t) if rng.percent(50) => t,
        _ => FIRST_NONTERMINAL + rng.below(tables.nonterminals),
    }
}

/// Two symbols lead to one state, or one leads to state 0.
fn fail_k4(rng: &mut Rng, tables: &mut Tables) -> Option<()> {
    let to = spot(rng, 0, tables.act.len())?;
    for _ in 0..if to == 0 { 1 } else { 2 } {
        let s = rng.below(tables.act.len());
        let symbol = some_symbol(rng, tables);
        put_edge(tables, s, symbol, to);
    }
    Some(())
}

/// The edges into each state: where each comes from, and its symbol.
fn edges(tables: &Tables) -> Vec<Vec<(usize, usize)>> {
    let mut into = vec![Vec::new(); tables.act.len()];
    for s in 0..tables.act.len() {
        for (t, &code) in tables.act[s].iter().enumerate() {
            if let Action::Shift(to) = Action::from_code(code) {
                into[to].push((s, t));
            }
        }
        for (n, &code) in tables.goto[s].iter().enumerate() {
            if let Some(to) = usize::from(code).checked_sub(1) {
                into[to].push((s, FIRST_NONTERMINAL + n));
            }
        }
    }
    into
}

/// A reduction whose way back is wrong: one of its ends loses its goto, another way back is opened, the production
/// changes, or the reduction stands in another row.
fn fail_k5(rng: &mut Rng, tables: &mut Tables) -> Option<()> {
    let p = rng.below(tables.productions.len());
    match rng.below(5) {
        0 => end_without_goto(rng, tables),
        1 | 2 => another_way(rng, tables),
        3 => {
            let symbol = some_symbol(rng, tables) as u16;
            let symbols = &mut tables.productions[p].symbols;
            let i = spot(rng, 0, symbols.len())?;
            symbols[i] = symbol;
            Some(())
        }
        _ => {
            let s = spot(rng, 0, tables.act.len())?;
            let t = match some_of(rng, all(tables) & !tables.layout) {
                Some(t) if rng.percent(50) => t,
                _ => 0,
            };
            tables.act[s][t] = Action::Reduce(p).code();
            Some(())
        }
    }
}

/// Goes back from some reduction by a random way, and takes the goto of its end away.
fn end_without_goto(rng: &mut Rng, tables: &mut Tables) -> Option<()> {
    let reductions: Vec<(usize, usize)> = (0..tables.act.len())
        .flat_map(|s| tables.act[s].iter().map(move |&code| (s, code)))
        .filter_map(|(s, code)| match Action::from_code(code) {
            Action::Reduce(p) => Some((s, p)),
            _ => None,
        })
        .collect();
    let (mut s, p) = *reductions.get(rng.below(reductions.len().max(1)))?;
    let into = edges(tables);
    for _ in 0..tables.productions[p].symbols.len() {
        if into[s].is_empty() {
            return None;
        }
        s = rng.pick(&into[s]).0;
    }
    tables.goto[s][usize::from(tables.productions[p].lhs)] = 0;
    Some(())
}

/// One more edge into a state, on the symbol that leads there already, from a state that had none on it.
fn another_way(rng: &mut Rng, tables: &mut Tables) -> Option<()> {
    let into = edges(tables);
    let to = spot(rng, 1, tables.act.len())?;
    let &(_, symbol) = into[to].first()?;
    let s = rng.below(tables.act.len());
    let free = match symbol.checked_sub(FIRST_NONTERMINAL) {
        Some(n) => tables.goto[s][n] == 0,
        None => tables.act[s][symbol] == 0,
    };
    free.then(|| put_edge(tables, s, symbol, to))
}

/// Some state accepts.
fn fail_k6(rng: &mut Rng, tables: &mut Tables) -> Option<()> {
    let s = spot(rng, 0, tables.act.len())?;
    tables.act[s][0] = Action::Accept.code();
    Some(())
}

/// A state that nothing leads to, which may reduce by any production with symbols, and accept.
pub fn unreached_state(rng: &mut Rng, tables: &mut Tables) {
    if tables.act.len() == 128 {
        return;
    }
    let mut act = vec![0; tables.dom.len()];
    let mut goto = vec![0; tables.nonterminals];
    for (t, cell) in act.iter_mut().enumerate() {
        let p = rng.below(tables.productions.len());
        let of_symbols = !tables.productions[p].symbols.is_empty();
        if !sets::has(tables.layout, t) && of_symbols && rng.percent(30) {
            *cell = Action::Reduce(p).code();
        }
    }
    if rng.once_in(4) {
        act[0] = Action::Accept.code();
    }
    // It may lead to a state to which its own symbol leads already; that is another way back.
    if rng.once_in(4) {
        let into = edges(tables);
        let to = rng.below(into.len());
        if let Some(&(_, symbol)) = into[to].first() {
            match symbol.checked_sub(FIRST_NONTERMINAL) {
                Some(n) => goto[n] = 1 + to as u16,
                None => act[symbol] = Action::Shift(to).code(),
            }
        }
    }
    tables.act.push(act);
    tables.goto.push(goto);
}
