//! The names behind a pack's numbers, from the file `.names` beside it.

use std::collections::BTreeMap;

use zhgarelli::{Pack, Symbol, Terminals};

use crate::text::{listed, shown, word};
use crate::words::Words;

/// Names of terminals and nonterminals. Without a file of names they are numbers.
#[derive(Default)]
pub struct Names {
    symbols: BTreeMap<usize, String>,
}

impl Names {
    /// A file of names has a line `NUMBER NAME` for each symbol. Other lines, such as those of the productions, are not needed.
    pub fn read(text: &[u8]) -> Names {
        let text = shown_lines(text);
        let symbols = text.iter().filter_map(|line| {
            let mut words = line.split_whitespace();
            let number = words.next()?.parse().ok()?;
            Some((number, words.next()?.to_string()))
        });
        Names {
            symbols: symbols.collect(),
        }
    }

    pub fn symbol(&self, symbol: Symbol) -> String {
        match (self.symbols.get(&symbol.number()), symbol) {
            (Some(name), _) => name.clone(),
            (None, Symbol::Terminal(0)) => "end".to_string(),
            (None, Symbol::Terminal(terminal)) => format!("t{terminal}"),
            (None, Symbol::Nonterminal(nonterminal)) => format!("n{nonterminal}"),
        }
    }

    pub fn terminal(&self, terminal: usize) -> String {
        self.symbol(Symbol::Terminal(terminal))
    }

    pub fn nonterminal(&self, nonterminal: usize) -> String {
        self.symbol(Symbol::Nonterminal(nonterminal))
    }

    /// A production as `Left = Symbol Symbol`; its number where there is none.
    pub fn production(&self, pack: &Pack, production: usize) -> String {
        match pack.production(production) {
            None => format!("production {production}"),
            Some(found) => {
                let right: Vec<String> = found
                    .symbols
                    .iter()
                    .map(|&symbol| self.symbol(symbol))
                    .collect();
                format!("{} = {}", self.nonterminal(found.left), right.join(" "))
                    .trim_end()
                    .to_string()
            }
        }
    }

    /// The names of a set, as `{A, B}`.
    pub fn set(&self, set: Terminals) -> String {
        let names: Vec<String> = set.iter().map(|terminal| self.terminal(terminal)).collect();
        format!("{{{}}}", names.join(", "))
    }

    /// The names of a set in a sentence.
    pub fn all(&self, set: Terminals, join: &str) -> String {
        let names: Vec<String> = set.iter().map(|terminal| self.terminal(terminal)).collect();
        listed(&names, join)
    }

    /// The names of a set in a sentence, each with what it looks like.
    pub fn allowed(&self, pack: &Pack, set: Terminals) -> String {
        let words = Words::new(pack);
        let names: Vec<String> = set
            .iter()
            .map(|terminal| match (terminal, words.example(terminal)) {
                (0, _) => "the end of the query".to_string(),
                (_, None) => self.terminal(terminal),
                (_, Some((text, true))) => format!("{} `{}`", self.terminal(terminal), word(&text)),
                (_, Some((text, false))) => {
                    format!("{} such as `{}`", self.terminal(terminal), word(&text))
                }
            })
            .collect();
        listed(&names, "or")
    }
}

/// The lines of a file of names; what cannot be shown is escaped.
fn shown_lines(text: &[u8]) -> Vec<String> {
    text.split(|&byte| byte == b'\n').map(shown).collect()
}
