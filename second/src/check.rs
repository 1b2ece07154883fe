//! The check: after shape, the conditions K1 to K6 in order, each with its least places.

use crate::image::{Action, Pack, FIRST_NONTERMINAL};
use crate::numbers::{CHECK, DONE, SHAPE};
use crate::sets;
use crate::shape;

/// Code 0, 4 or 5 and three numbers: for 4 the word, for 5 the condition and its places.
#[derive(Clone, Copy, Debug, Default, PartialEq, Eq)]
pub struct Checked {
    pub code: u32,
    pub numbers: [u32; 3],
}

/// A condition that fails, 1..6, and its places, absent ones 0.
#[derive(Clone, Copy, Debug, PartialEq, Eq)]
pub struct Failing {
    pub condition: u32,
    pub places: [usize; 2],
}

pub fn check(image: &[u16]) -> Checked {
    let pack = match shape::pack(image) {
        Ok(pack) => pack,
        Err(fault) => {
            return Checked {
                code: SHAPE,
                numbers: [fault.place as u32, 0, 0],
            }
        }
    };
    match failing(&pack) {
        None => Checked {
            code: DONE,
            numbers: [0; 3],
        },
        Some(Failing { condition, places }) => Checked {
            code: CHECK,
            numbers: [condition, places[0] as u32, places[1] as u32],
        },
    }
}

/// The first condition that fails for a pack of good shape.
pub fn failing(pack: &Pack) -> Option<Failing> {
    conditions(pack, &Edges::new(pack)).next()
}

/// The conditions that fail for a pack of good shape, in order.
pub fn conditions<'p>(pack: &'p Pack, edges: &'p Edges) -> impl Iterator<Item = Failing> + 'p {
    let one = |place: Option<usize>| place.map(|first| (first, 0));
    (1..=6).filter_map(move |condition| {
        let places = match condition {
            1 => one(k1(pack)),
            2 => one(k2(pack)),
            3 => k3(pack),
            4 => one(k4(pack, edges)),
            5 => k5(pack, edges),
            _ => one(k6(pack, edges)),
        };
        places.map(|(first, second)| Failing {
            condition,
            places: [first, second],
        })
    })
}

/// K1: with M = acc ∪ rej, rej is exactly the t in M with dom(t) ∩ M nonempty.
fn k1(pack: &Pack) -> Option<usize> {
    (0..pack.sizes.scan_states).find(|&q| {
        let matching = pack.acc(q) | pack.rej(q);
        let outranked = sets::members(matching)
            .filter(|&t| pack.dom(t) & matching != sets::EMPTY)
            .fold(sets::EMPTY, |set, t| set | sets::single(t));
        pack.rej(q) != outranked
    })
}

/// K2: M ⊆ poss, and poss of every state moved to ⊆ poss of q.
fn k2(pack: &Pack) -> Option<usize> {
    (0..pack.sizes.scan_states).find(|&q| {
        let poss = pack.poss(q);
        let moved_to = (0..pack.sizes.classes).filter_map(|c| pack.moved(q, c));
        !sets::subset(pack.acc(q) | pack.rej(q), poss)
            || moved_to
                .into_iter()
                .any(|to| !sets::subset(pack.poss(to), poss))
    })
}

/// K3: acc(q) ∩ (V(s) ∪ layout) has at most one terminal or equals a group.
fn k3(pack: &Pack) -> Option<(usize, usize)> {
    let accs: Vec<_> = (0..pack.sizes.scan_states).map(|q| pack.acc(q)).collect();
    for s in 0..pack.sizes.states {
        let sought = pack.valid_set(s) | pack.layout();
        for (q, acc) in accs.iter().enumerate() {
            let set = acc & sought;
            if sets::count(set) > 1 && pack.chosen_of(set).is_none() {
                return Some((s, q));
            }
        }
    }
    None
}

/// Shifts and gotos, gathered by the state they lead to.
pub struct Edges {
    /// For each state, the edges into it: the state each comes from and the symbol it carries.
    pub into: Vec<Vec<(usize, usize)>>,
}

impl Edges {
    pub fn new(pack: &Pack) -> Edges {
        let mut into = vec![Vec::new(); pack.sizes.states];
        for s in 0..pack.sizes.states {
            for t in 0..pack.sizes.terminals {
                if let Action::Shift(to) = pack.action(s, t) {
                    into[to].push((s, t));
                }
            }
            for n in 0..pack.sizes.nonterminals {
                if let Some(to) = pack.goto(s, n) {
                    into[to].push((s, FIRST_NONTERMINAL + n));
                }
            }
        }
        Edges { into }
    }

    pub fn all_carry(&self, v: usize, symbol: usize) -> bool {
        self.into[v].iter().all(|&(_, carried)| carried == symbol)
    }
}

/// K4: no edge leads to state 0, and all edges into v carry one symbol.
fn k4(pack: &Pack, edges: &Edges) -> Option<usize> {
    (0..pack.sizes.states).find(|&v| match edges.into[v].first() {
        None => false,
        Some(&(_, symbol)) => v == 0 || !edges.all_carry(v, symbol),
    })
}

/// K5: each state and production that its row reduces by.
fn k5(pack: &Pack, edges: &Edges) -> Option<(usize, usize)> {
    for s in 0..pack.sizes.states {
        let mut reduces = vec![false; pack.sizes.productions];
        for t in 0..pack.sizes.terminals {
            if let Action::Reduce(p) = pack.action(s, t) {
                reduces[p] = true;
            }
        }
        let fails = |&p: &usize| reduces[p] && !goes_back(pack, edges, s, p);
        if let Some(p) = (0..pack.sizes.productions).find(fails) {
            return Some((s, p));
        }
    }
    None
}

/// Goes back the edges of production `p` from `s` in every way, and finds the gotos there.
fn goes_back(pack: &Pack, edges: &Edges, s: usize, p: usize) -> bool {
    let mut reached = vec![false; pack.sizes.states];
    reached[s] = true;
    for &symbol in pack.symbols(p).iter().rev() {
        let mut before = vec![false; pack.sizes.states];
        for v in (0..pack.sizes.states).filter(|&v| reached[v]) {
            if v == 0 || !edges.all_carry(v, usize::from(symbol)) {
                return false;
            }
            for &(from, _) in &edges.into[v] {
                before[from] = true;
            }
        }
        reached = before;
    }
    (0..pack.sizes.states)
        .filter(|&v| reached[v])
        .all(|v| pack.goto(v, pack.lhs(p)).is_some())
}

/// K6: a state that accepts is not 0, and every edge into it comes from state 0 on symbol 64.
fn k6(pack: &Pack, edges: &Edges) -> Option<usize> {
    (0..pack.sizes.states).find(|&s| {
        pack.action(s, 0) == Action::Accept
            && (s == 0
                || edges.into[s]
                    .iter()
                    .any(|&edge| edge != (0, FIRST_NONTERMINAL)))
    })
}
