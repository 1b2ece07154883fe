//! `desk check`: which condition fails, where, and what that means.

use std::collections::BTreeSet;

use zhgarelli::{Action, Failure, Pack, Refused, Symbol, Terminals};

use crate::json::Json;
use crate::names::Names;
use crate::paint::Paint;
use crate::text::{count, listed, word};
use crate::words::Words;

/// What the conditions are, and what comes of a pack that does not keep them.
fn meaning(condition: u32) -> [&'static str; 2] {
    match condition {
        1 => [
            "Of what matches in a scan state, what is outranked must be rejected and the rest accepted.",
            "So a word would be read as one that another outranks, or be refused although none does.",
        ],
        2 => [
            "What matches must have been announced as possible, and what is possible must only shrink along a scan.",
            "So a scan could stop before the longest match, and give a shorter word.",
        ],
        3 => [
            "Several words that match the same bytes, each allowed in a parse state or layout, must be a group, which says which one it is.",
            "So a parse could end with code 9, left with several terminals.",
        ],
        4 => [
            "No edge may lead to parse state 0, and all edges into another state must carry the same symbol.",
            "So the states on the stack would not tell which symbols were read.",
        ],
        5 => [
            "Whichever way led to a reduction, its symbols must lie on the stack, and the state below them must have a goto.",
            "So a parse could get stuck with code 10, or make a node of the wrong children.",
        ],
        _ => [
            "A state that accepts must not be state 0, and only the start symbol may lead to it, from state 0.",
            "So a parse could get stuck with code 10 at the end, or accept what is no whole query.",
        ],
    }
}

struct Checker<'a> {
    pack: &'a Pack,
    names: &'a Names,
}

impl Checker<'_> {
    fn symbols(&self, edges: &[(usize, Symbol)]) -> String {
        let words: Vec<String> = edges
            .iter()
            .take(6)
            .map(|&(from, symbol)| format!("{} from state {from}", self.names.symbol(symbol)))
            .chain((edges.len() > 6).then(|| format!("{} more", edges.len() - 6)))
            .collect();
        listed(&words, "and")
    }

    /// A scan state by the text that leads there.
    fn scan_state(&self, state: usize) -> String {
        match Words::new(self.pack).way_to(state) {
            Some(way) if way.is_empty() => format!("scan state {state}, where a scan begins"),
            Some(way) => format!("scan state {state}, behind `{}`", word(&way)),
            None => format!("scan state {state}, to which no text leads"),
        }
    }

    fn sets(&self, state: usize) -> [Terminals; 3] {
        let sets = self.pack.scan_sets(state);
        sets.map_or([Terminals::NONE; 3], |sets| {
            [sets.accepted, sets.rejected, sets.possible]
        })
    }

    fn k1(&self, state: usize) -> String {
        let [accepted, rejected, _] = self.sets(state);
        let matching = accepted | rejected;
        let outranked = |terminal: usize| self.pack.outranks(terminal) & matching;
        let wrong = matching
            .iter()
            .find(|&terminal| outranked(terminal).is_empty() == rejected.contains(terminal));
        let name = wrong.map_or(String::new(), |terminal| self.names.terminal(terminal));
        let by = wrong.map_or(Terminals::NONE, outranked);
        let told = match by.is_empty() {
            true => format!("{name} is rejected although nothing that matches there outranks it"),
            false => format!(
                "{name} is accepted although it is outranked by {}",
                self.names.all(by, "and")
            ),
        };
        format!("In {}, {told}.", self.scan_state(state))
    }

    fn k2(&self, state: usize) -> String {
        let [accepted, rejected, possible] = self.sets(state);
        let here = self.scan_state(state);
        let unannounced = (accepted | rejected) - possible;
        if !unannounced.is_empty() {
            let names = self.names.all(unannounced, "and");
            return format!("In {here}, there matches what is not announced as possible: {names}.");
        }
        let moves = (0..self.pack.sizes().classes)
            .filter_map(|class| Some((class, self.pack.moved(state, class)?)));
        let mut wrong = moves.map(|(class, next)| (class, next, self.sets(next)[2] - possible));
        match wrong.find(|(_, _, more)| !more.is_empty()) {
            Some((class, next, more)) => format!(
                "From {here}, class {class} leads to scan state {next}, where more is possible than before: {}.",
                self.names.all(more, "and")
            ),
            None => format!("In {here}, what is possible is not announced."),
        }
    }

    fn k3(&self, state: usize, scan_state: usize) -> String {
        let sought = self.pack.valid(state) | self.pack.layout();
        let both = self.sets(scan_state)[0] & sought;
        format!(
            "Parse state {state} looks for {}, which are all accepted in {}, and no group is just these.",
            self.names.all(both, "and"),
            self.scan_state(scan_state)
        )
    }

    fn k4(&self, state: usize) -> String {
        let edges = self.pack.edges_into(state);
        let mut different: Vec<(usize, Symbol)> = Vec::new();
        for &(from, symbol) in &edges {
            if state == 0 || different.iter().all(|&(_, other)| other != symbol) {
                different.push((from, symbol));
            }
        }
        format!(
            "Edges into parse state {state}: {}.",
            self.symbols(&different)
        )
    }

    fn k5(&self, state: usize, production: usize) -> String {
        let Some(found) = self.pack.production(production) else {
            return String::new();
        };
        let start = format!(
            "Parse state {state} reduces by {}",
            self.names.production(self.pack, production)
        );
        let mut states = BTreeSet::from([state]);
        for (back, &due) in found.symbols.iter().rev().enumerate() {
            let mut before = BTreeSet::new();
            let there = match back {
                0 => format!("{start}. On top"),
                _ => format!("{start}. {} back", count(back, "step")),
            };
            for &state in &states {
                if state == 0 {
                    return format!(
                        "{there} may stand the first state of the stack, and {} is still due.",
                        self.names.symbol(due)
                    );
                }
                let edges = self.pack.edges_into(state);
                if let Some(&(from, other)) = edges.iter().find(|&&(_, symbol)| symbol != due) {
                    return format!(
                        "{there} may stand state {state}, reached by {} from state {from}, and not by {}.",
                        self.names.symbol(other),
                        self.names.symbol(due)
                    );
                }
                before.extend(edges.iter().map(|&(from, _)| from));
            }
            states = before;
        }
        let left = self.names.nonterminal(found.left);
        match states
            .iter()
            .find(|&&state| self.pack.goto(state, found.left).is_none())
        {
            Some(below) => format!(
                "{start}. Below its symbols may stand state {below}, which has no goto on {left}."
            ),
            None => format!("{start}."),
        }
    }

    fn k6(&self, state: usize) -> String {
        if state == 0 {
            return "Parse state 0 accepts.".to_string();
        }
        let edges = self.pack.edges_into(state);
        let good = (0, Symbol::Nonterminal(0));
        let wrong: Vec<(usize, Symbol)> = edges.into_iter().filter(|&edge| edge != good).collect();
        format!(
            "Parse state {state} accepts. Edges into it: {}.",
            self.symbols(&wrong)
        )
    }

    fn explain(&self, failure: Failure) -> String {
        match failure {
            Failure::K1 { scan_state } => self.k1(scan_state),
            Failure::K2 { scan_state } => self.k2(scan_state),
            Failure::K3 { state, scan_state } => self.k3(state, scan_state),
            Failure::K4 { state } => self.k4(state),
            Failure::K5 { state, production } => self.k5(state, production),
            Failure::K6 { state } => self.k6(state),
        }
    }
}

/// Checks a pack. What comes back says whether it passes.
pub fn answer(pack: &Pack, names: &Names, as_json: bool, paint: Paint) -> (bool, String) {
    let failure = match pack.check() {
        Err(Refused::Check(failure)) => Some(failure),
        _ => None,
    };
    let told = failure.map(|failure| Checker { pack, names }.explain(failure));
    let words = match (failure, told) {
        (None, _) if as_json => {
            let zeros = ["condition", "first", "second"].map(|name| (name, Json::Number(0)));
            let fields = [("passes", Json::Truth(true)), ("code", Json::Number(0))];
            format!(
                "{}\n",
                Json::Object(fields.into_iter().chain(zeros).collect())
            )
        }
        (Some(failure), Some(told)) if as_json => {
            let [first, second] = failure.places();
            let [rule, then] = meaning(failure.condition());
            let fields = vec![
                ("passes", Json::Truth(false)),
                ("code", Json::Number(5)),
                ("condition", Json::Number(failure.condition().into())),
                ("first", Json::number(first)),
                ("second", Json::number(second)),
                ("found", Json::text(told)),
                ("rule", Json::text(rule)),
                ("consequence", Json::text(then)),
            ];
            format!("{}\n", Json::Object(fields))
        }
        (Some(failure), Some(told)) => {
            let [rule, then] = meaning(failure.condition());
            let title = paint.red(&format!("refused: {failure} (code 5)"));
            format!("{title}\n\n{told}\n{rule}\n{then}\n")
        }
        _ => {
            let accepting =
                (0..pack.sizes().states).any(|state| pack.action(state, 0) == Action::Accept);
            let none = if accepting {
                ""
            } else {
                "But no state of it accepts, so every query is refused.\n"
            };
            format!(
                "{}\nNo parse by it is ever stuck or left with several terminals, and what it accepts is one derivation of the whole query.\n{none}",
                paint.green("passes: the shape is good, and K1 to K6 hold")
            )
        }
    };
    (failure.is_none(), words)
}
