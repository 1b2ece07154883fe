//! Terminal sets: 64 bits, bit t for terminal t.

pub type Set = u64;

pub const EMPTY: Set = 0;

/// The set of terminal `t` alone; empty for a number that is no terminal.
pub fn single(t: usize) -> Set {
    if t < 64 {
        1 << t
    } else {
        EMPTY
    }
}

/// The terminals 0..t.
pub fn below(t: usize) -> Set {
    if t < 64 {
        (1 << t) - 1
    } else {
        Set::MAX
    }
}

/// Is `t` in the set? A number that is no terminal is in none.
pub fn has(set: Set, t: usize) -> bool {
    set & single(t) != EMPTY
}

pub fn subset(part: Set, whole: Set) -> bool {
    part & !whole == EMPTY
}

pub fn count(set: Set) -> u32 {
    set.count_ones()
}

/// The lowest terminal of a set that is not empty.
pub fn lowest(set: Set) -> Option<usize> {
    if set == EMPTY {
        None
    } else {
        Some(set.trailing_zeros() as usize)
    }
}

/// The terminals of the set, rising.
pub fn members(set: Set) -> impl Iterator<Item = usize> {
    (0..64).filter(move |&t| has(set, t))
}

/// Four words, lowest first.
pub fn to_words(set: Set) -> [u16; 4] {
    [0, 16, 32, 48].map(|shift| (set >> shift) as u16)
}

pub fn from_words(words: &[u16]) -> Set {
    words[..4]
        .iter()
        .rev()
        .fold(EMPTY, |set, &word| set << 16 | Set::from(word))
}
