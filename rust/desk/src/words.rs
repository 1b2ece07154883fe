//! Words that a pack's scanner reads: a shortest text for a terminal or for a scan state, found by going through the scanner's tables.

use std::collections::VecDeque;

use zhgarelli::{Pack, Terminals};

pub struct Words<'p> {
    pack: &'p Pack,
    /// The bytes of each class, those first that are best to look at.
    bytes: Vec<Vec<u8>>,
}

/// Small letters first, then digits and other letters, then all that can be seen.
fn rank(byte: u8) -> u32 {
    match byte {
        b'a'..=b'z' => 0,
        b'0'..=b'9' => 1,
        b'A'..=b'Z' => 2,
        b'!'..=b'~' => 3,
        b' ' => 4,
        _ => 5,
    }
}

impl<'p> Words<'p> {
    pub fn new(pack: &'p Pack) -> Words<'p> {
        let mut bytes = vec![Vec::new(); pack.sizes().classes];
        for byte in 0..=255 {
            bytes[pack.class(byte)].push(byte);
        }
        for class in &mut bytes {
            class.sort_by_key(|&byte| rank(byte));
        }
        Words { pack, bytes }
    }

    /// The bytes of a class.
    pub fn class(&self, class: usize) -> &[u8] {
        &self.bytes[class]
    }

    /// The moves of a scan for some terminals out of a state, each as the class and the state moved to: none where the scan stops there.
    fn moves(&self, state: usize, wanted: Terminals) -> impl Iterator<Item = (usize, usize)> + '_ {
        let possible = self
            .pack
            .scan_sets(state)
            .map_or(Terminals::NONE, |sets| sets.possible);
        let stops = (possible & wanted).is_empty();
        let classes = 0..if stops { 0 } else { self.bytes.len() };
        let moves = classes.filter_map(move |class| Some((class, self.pack.moved(state, class)?)));
        moves.filter(|&(class, _)| !self.bytes[class].is_empty())
    }

    /// For each scan state, a shortest text by which a scan for some terminals comes there.
    fn ways(&self, wanted: Terminals) -> Vec<Option<Vec<u8>>> {
        let mut ways = vec![None; self.pack.sizes().scan_states];
        ways[0] = Some(Vec::new());
        let mut waiting = VecDeque::from([(0, Vec::new())]);
        while let Some((state, way)) = waiting.pop_front() {
            let mut moves: Vec<(u8, usize)> = self
                .moves(state, wanted)
                .map(|(class, next)| (self.bytes[class][0], next))
                .collect();
            moves.sort_by_key(|&(byte, _)| (rank(byte), byte));
            for (byte, next) in moves {
                if ways[next].is_none() {
                    let longer = [way.as_slice(), &[byte]].concat();
                    ways[next] = Some(longer.clone());
                    waiting.push_back((next, longer));
                }
            }
        }
        ways
    }

    /// A shortest text that leads to a scan state, if one does.
    pub fn way_to(&self, scan_state: usize) -> Option<Vec<u8>> {
        self.ways(Terminals::ALL).get(scan_state).cloned().flatten()
    }

    /// A shortest text that a terminal matches, and whether it is the only one.
    pub fn example(&self, terminal: usize) -> Option<(Vec<u8>, bool)> {
        let wanted = Terminals::one(terminal);
        let ways = self.ways(wanted);
        let accepts = |state: usize| {
            self.pack
                .scan_sets(state)
                .is_some_and(|sets| sets.accepted.contains(terminal))
        };
        let accepting = (1..ways.len()).filter(|&state| accepts(state));
        let text = accepting
            .filter_map(|state| ways[state].clone())
            .min_by_key(|text| {
                (
                    text.len(),
                    text.iter()
                        .map(|&byte| (rank(byte), byte))
                        .collect::<Vec<_>>(),
                )
            })?;
        let live = self.live(wanted, &ways, accepts);
        // It is the only text if along it every other byte leads to where the terminal is lost, and no byte leads on from its end.
        let mut state = 0;
        for at in 0..=text.len() {
            let on: Vec<(usize, usize)> = self
                .moves(state, wanted)
                .filter(|&(_, next)| live[next])
                .collect();
            let bytes: usize = on.iter().map(|&(class, _)| self.bytes[class].len()).sum();
            match (text.get(at), on.first()) {
                (Some(_), Some(&(_, next))) if bytes == 1 && !accepts(state) => state = next,
                (None, None) => return Some((text, true)),
                _ => break,
            }
        }
        Some((text, false))
    }

    /// The states from which a scan can still come to one that accepts.
    fn live(
        &self,
        wanted: Terminals,
        ways: &[Option<Vec<u8>>],
        accepts: impl Fn(usize) -> bool,
    ) -> Vec<bool> {
        let mut live: Vec<bool> = (0..ways.len())
            .map(|state| ways[state].is_some() && accepts(state))
            .collect();
        loop {
            let leads_on = |state: usize| self.moves(state, wanted).any(|(_, next)| live[next]);
            let more: Vec<usize> = (0..live.len())
                .filter(|&state| !live[state] && leads_on(state))
                .collect();
            if more.is_empty() {
                return live;
            }
            for state in more {
                live[state] = true;
            }
        }
    }
}
