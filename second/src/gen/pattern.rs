//! Patterns: what a terminal matches. They are made at random, sampled for queries, and turned into scan tables.

use super::rng::Rng;

/// A set of bytes.
#[derive(Clone, Copy, Debug, PartialEq, Eq, PartialOrd, Ord)]
pub struct Bytes([u64; 4]);

impl Bytes {
    pub fn none() -> Bytes {
        Bytes([0; 4])
    }

    pub fn of(bytes: impl IntoIterator<Item = u8>) -> Bytes {
        bytes.into_iter().fold(Bytes::none(), |mut set, byte| {
            set.0[usize::from(byte / 64)] |= 1 << (byte % 64);
            set
        })
    }

    pub fn has(&self, byte: u8) -> bool {
        self.0[usize::from(byte / 64)] >> (byte % 64) & 1 == 1
    }

    pub fn all_but(self) -> Bytes {
        Bytes(self.0.map(|part| !part))
    }

    pub fn members(&self) -> Vec<u8> {
        (0..=255).filter(|&byte| self.has(byte)).collect()
    }
}

#[derive(Clone, Debug, PartialEq, Eq)]
pub enum Pattern {
    One(Bytes),
    Seq(Vec<Pattern>),
    Either(Vec<Pattern>),
    /// Once or more.
    Plus(Box<Pattern>),
    /// Not at all, or once.
    Opt(Box<Pattern>),
}

impl Pattern {
    pub fn word(word: &[u8]) -> Pattern {
        Pattern::Seq(
            word.iter()
                .map(|&byte| Pattern::One(Bytes::of([byte])))
                .collect(),
        )
    }

    pub fn one(bytes: impl IntoIterator<Item = u8>) -> Pattern {
        Pattern::One(Bytes::of(bytes))
    }

    pub fn plus(self) -> Pattern {
        Pattern::Plus(Box::new(self))
    }

    pub fn opt(self) -> Pattern {
        Pattern::Opt(Box::new(self))
    }

    /// Does it match no bytes at all?
    pub fn empty(&self) -> bool {
        match self {
            Pattern::One(_) => false,
            Pattern::Seq(parts) => parts.iter().all(Pattern::empty),
            Pattern::Either(parts) => parts.iter().any(Pattern::empty),
            Pattern::Plus(part) => part.empty(),
            Pattern::Opt(_) => true,
        }
    }

    /// Appends some bytes that it matches.
    pub fn sample(&self, rng: &mut Rng, text: &mut Vec<u8>) {
        match self {
            Pattern::One(bytes) => text.push(*rng.pick(&bytes.members())),
            Pattern::Seq(parts) => parts.iter().for_each(|part| part.sample(rng, text)),
            Pattern::Either(parts) => rng.pick(parts).sample(rng, text),
            Pattern::Plus(part) => {
                part.sample(rng, text);
                while rng.percent(45) {
                    part.sample(rng, text);
                }
            }
            Pattern::Opt(part) => {
                if rng.percent(50) {
                    part.sample(rng, text);
                }
            }
        }
    }
}

/// What random patterns are made of: few letters, so that patterns meet.
pub struct Alphabet {
    pub letters: Vec<u8>,
    pub digits: Vec<u8>,
    pub signs: Vec<u8>,
}

impl Alphabet {
    pub fn random(rng: &mut Rng, letters: usize) -> Alphabet {
        let some = |rng: &mut Rng, all: &[u8], count: usize| {
            let mut all = all.to_vec();
            rng.shuffle(&mut all);
            all.truncate(count.max(1));
            all.sort_unstable();
            all
        };
        let all: Vec<u8> = (b'a'..=b'z').collect();
        let signs = b"+-*/=<>()[]{};:.,!?\x00\x80\xff";
        let digits = rng.from_to(2, 10);
        let sign_count = rng.from_to(2, 8);
        Alphabet {
            letters: some(rng, &all, letters),
            digits: some(rng, b"0123456789", digits),
            signs: some(rng, signs, sign_count),
        }
    }

    pub fn random_word(&self, rng: &mut Rng, longest: usize) -> Vec<u8> {
        let length = rng.from_to(1, longest);
        (0..length).map(|_| *rng.pick(&self.letters)).collect()
    }

    /// A pattern that does not match the empty text.
    pub fn random_pattern(&self, rng: &mut Rng, longest: usize) -> Pattern {
        let letters = Pattern::one(self.letters.iter().copied());
        let digits = Pattern::one(self.digits.iter().copied());
        match rng.below(100) {
            // A word.
            0..=39 => Pattern::word(&self.random_word(rng, longest)),
            // One sign or two.
            40..=59 => {
                let length = rng.from_to(1, 2);
                let signs: Vec<u8> = (0..length).map(|_| *rng.pick(&self.signs)).collect();
                Pattern::word(&signs)
            }
            // Names.
            60..=69 => letters.plus(),
            70..=76 => {
                let more = Pattern::Either(vec![letters.clone(), digits]);
                Pattern::Seq(vec![letters, more.plus().opt()])
            }
            // Numbers, with or without a part behind a sign.
            77..=82 => digits.plus(),
            83..=85 => {
                let sign = Pattern::one([*rng.pick(&self.signs)]);
                let part = Pattern::Seq(vec![sign, digits.clone().plus()]);
                Pattern::Seq(vec![digits.plus(), part.opt()])
            }
            // Between two signs.
            86..=88 => {
                let sign = *rng.pick(&self.signs);
                let inside = Pattern::One(Bytes::of([sign]).all_but());
                let sign = Pattern::one([sign]);
                Pattern::Seq(vec![sign.clone(), inside.plus().opt(), sign])
            }
            // Anything.
            _ => loop {
                let pattern = self.anything(rng, 3);
                if !pattern.empty() {
                    break pattern;
                }
            },
        }
    }

    fn anything(&self, rng: &mut Rng, depth: usize) -> Pattern {
        let choice = if depth == 0 { 0 } else { rng.below(8) };
        match choice {
            0..=2 => {
                let mut bytes = self.letters.clone();
                bytes.extend(&self.digits);
                rng.shuffle(&mut bytes);
                bytes.truncate(rng.from_to(1, 3));
                Pattern::one(bytes)
            }
            3 | 4 => {
                let count = rng.from_to(2, 3);
                Pattern::Seq((0..count).map(|_| self.anything(rng, depth - 1)).collect())
            }
            5 => {
                let count = rng.from_to(2, 3);
                Pattern::Either((0..count).map(|_| self.anything(rng, depth - 1)).collect())
            }
            6 => self.anything(rng, depth - 1).plus(),
            _ => self.anything(rng, depth - 1).opt(),
        }
    }

    /// A pattern for layout.
    pub fn random_layout(&self, rng: &mut Rng) -> Pattern {
        match rng.below(8) {
            0..=2 => Pattern::one([b' ']).plus(),
            3 => Pattern::one([b' ']),
            4 => Pattern::one(*b" \n\t").plus(),
            5 => {
                let rest = Pattern::One(Bytes::of([b'\n']).all_but());
                Pattern::Seq(vec![Pattern::one([b'#']), rest.plus().opt()])
            }
            6 => {
                let sign = *rng.pick(&self.signs);
                let rest = Pattern::One(Bytes::of([b'\n']).all_but());
                Pattern::Seq(vec![Pattern::word(&[sign, sign]), rest.plus().opt()])
            }
            _ => Pattern::word(&self.random_word(rng, 2)),
        }
    }
}
