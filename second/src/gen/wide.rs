//! Images of good shape near the limits of the text.

use super::rng::Rng;
use super::tables::{nonterminal, Production, Tables};
use crate::image::{Pack, Range, Sizes, PROD_SYMBOLS, SIZE_LIMITS};
use crate::text::{text_in, text_of, Form};

/// The greatest sizes.
pub fn greatest_sizes() -> Sizes {
    Sizes::from_words(&SIZE_LIMITS.map(|(_, greatest)| greatest))
}

/// An image of the greatest sizes whose text has exactly `length` bytes, for lengths from 50,000 to 75,000. Its goto,
/// move and act cells are 0 but for as many longer codes as the length asks for.
pub fn with_text_length(length: usize) -> Vec<u16> {
    let mut tables = Tables::blank(greatest_sizes());
    let mut missing = length - text_of(&Pack::new(&tables.image())).len();
    let rows = tables
        .goto
        .iter_mut()
        .chain(&mut tables.moves)
        .chain(&mut tables.act);
    for cell in rows.flatten() {
        let digits = missing.min(2);
        // 125 is a reduction as an action, so it may stand in any column.
        *cell = [0, 25, 125][digits];
        missing -= digits;
    }
    assert_eq!(missing, 0, "a text of {length} bytes");
    tables.image()
}

/// Tables of the greatest sizes without a cell that is not 0, whose other lines are as long as they can be, or nearly.
fn long_lines() -> Tables {
    let mut tables = Tables::blank(greatest_sizes());
    let symbol = nonterminal(0);
    for production in &mut tables.productions {
        *production = Production {
            lhs: 10,
            symbols: vec![symbol; PROD_SYMBOLS],
        };
    }
    for (r, range) in tables.ranges.iter_mut().enumerate() {
        let byte = 192 + r as u16;
        *range = Range {
            lo: byte,
            hi: byte,
            class: 10,
        };
    }
    tables
}

/// An image of the greatest sizes whose text of one form has exactly `length` bytes. Its cells are 0 but for as many codes
/// of so many digits as the length asks for, in the lowest columns, where form 2 is shortest. With three digits the texts of
/// both forms are near the limit where about 7,000 cells are not 0; with one digit form 1 is the shorter.
pub fn with_length(rng: &mut Rng, form: Form, length: usize, digits: usize) -> Vec<u16> {
    // A code in an action row, which is a reduction and so may stand in any column, and in a row of another kind.
    let (reductions, others) = match digits {
        1 => ((0, 3), (1, 9)),
        _ => ((49, 127), (100, 128)),
    };
    let mut filled = long_lines();
    // The cells by their columns: the number of the row, counted through the three tables, and the code.
    let mut cells: Vec<(usize, usize, u16)> = Vec::new();
    let rows =
        [&filled.act, &filled.goto, &filled.moves].map(|table| (table.len(), table[0].len()));
    for column in 0..64 {
        let mut there: Vec<usize> = Vec::new();
        let mut first = 0;
        for (count, columns) in rows {
            there.extend((first..first + count).filter(|_| column < columns));
            first += count;
        }
        rng.shuffle(&mut there);
        for row in there {
            let code = match row < rows[0].0 {
                true => 3 + 2 * rng.from_to(reductions.0, reductions.1),
                false => rng.from_to(others.0, others.1),
            };
            cells.push((row, column, code as u16));
        }
    }
    let with = |count: usize| {
        let mut tables = filled.clone();
        let mut rows: Vec<&mut Vec<u16>> = tables
            .act
            .iter_mut()
            .chain(&mut tables.goto)
            .chain(&mut tables.moves)
            .collect();
        for &(row, column, code) in &cells[..count] {
            rows[row][column] = code;
        }
        tables
    };
    let bytes = |tables: &Tables| text_in(form, &Pack::new(&tables.image())).len();
    // The least number of cells with which the text is long enough.
    let (mut few, mut enough) = (0, cells.len());
    while few < enough {
        let middle = (few + enough) / 2;
        match bytes(&with(middle)) < length {
            true => few = middle + 1,
            false => enough = middle,
        }
    }
    filled = with(enough);
    // Some symbols of one digit in place of two, for the bytes that are too many.
    let more = bytes(&filled) - length;
    for production in &mut filled.productions[..more] {
        production.symbols[0] = 1;
    }
    assert_eq!(bytes(&filled), length, "a text of form {form:?}");
    filled.image()
}
