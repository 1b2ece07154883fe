//! Packs that tell the class of a byte, for the borders of the ranges.

use super::rng::Rng;
use super::tables::Tables;
use crate::image::{Range, Sizes};
use crate::sets;

const CLASSES: usize = 32;

/// So many ranges, anywhere in the bytes; some touch. Each has another class than the one before it.
pub fn ranges(rng: &mut Rng, count: usize) -> Vec<Range> {
    // The ends of the ranges rise where each range is moved up by the number of those before it.
    let mut places: Vec<usize> = (0..256 + count).collect();
    rng.shuffle(&mut places);
    places.truncate(2 * count);
    places.sort_unstable();
    let ends = places.chunks(2).enumerate();
    ends.map(|(r, ends)| Range {
        lo: (ends[0] - r) as u16,
        hi: (ends[1] - r - 1) as u16,
        class: (1 + r % (CLASSES - 1)) as u16,
    })
    .collect()
}

/// A pack with these ranges, one parse state and so many scan states.
fn blank(ranges: &[Range], scan_states: usize) -> Tables {
    let words = [
        CLASSES as u16 + 1,
        1,
        1,
        1,
        scan_states as u16,
        CLASSES as u16,
        ranges.len() as u16,
        0,
    ];
    let mut tables = Tables::blank(Sizes::from_words(&words));
    tables.ranges = ranges.to_vec();
    tables
}

/// A pack with these ranges. A byte of class c moves from scan state 0 to a state that accepts terminal c + 1, and no further.
pub fn telling(ranges: &[Range]) -> Tables {
    let mut tables = blank(ranges, CLASSES + 1);
    for class in 0..CLASSES {
        let terminal = sets::single(class + 1);
        tables.moves[0][class] = class as u16 + 2;
        tables.scan[0].poss |= terminal;
        tables.scan[class + 1].acc = terminal;
        tables.scan[class + 1].poss = terminal;
    }
    tables
}

/// A pack with these ranges whose scans stop at the end of the text alone. The state that one comes to hangs on the class of every byte: two that
/// differ stay different whatever follows. Of three states one accepts a terminal by its number, and one rejects it.
pub fn remembering(ranges: &[Range]) -> Tables {
    const STATES: usize = 64;
    let mut tables = blank(ranges, STATES);
    for q in 0..STATES {
        for class in 0..CLASSES {
            tables.moves[q][class] = 1 + ((q * 31 + class * 17 + 5) % STATES) as u16;
        }
        tables.scan[q].poss = (1..=CLASSES).map(sets::single).sum();
        let terminal = sets::single(1 + q % CLASSES);
        match q % 3 {
            1 => tables.scan[q].acc = terminal,
            2 => tables.scan[q].rej = terminal,
            _ => {}
        }
    }
    tables
}
