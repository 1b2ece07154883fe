//! Bytes for people: what can be shown is shown, the rest is escaped, and a caret stands under the right columns.

use std::ops::Range;

use crate::paint::Paint;

/// The most columns of a line that is shown; of a longer one the part around the caret is.
const WIDEST: usize = 100;
/// The most columns of a word that is named in a sentence.
const WORD: usize = 40;

/// Some bytes as one thing to show.
struct Cell {
    shown: String,
    columns: usize,
    bytes: Range<usize>,
}

/// How many columns a character takes on a terminal.
fn columns(letter: char) -> usize {
    match letter as u32 {
        0x0300..=0x036f | 0x0483..=0x0489 | 0x0591..=0x05bd | 0x1ab0..=0x1aff | 0x1dc0..=0x1dff => {
            0
        }
        0x20d0..=0x20ff | 0xfe00..=0xfe0f | 0xfe20..=0xfe2f => 0,
        0x1100..=0x115f | 0x2e80..=0xa4cf | 0xac00..=0xd7a3 | 0xf900..=0xfaff => 2,
        0xfe30..=0xfe6f | 0xff00..=0xff60 | 0xffe0..=0xffe6 | 0x1f300..=0x1f64f => 2,
        0x1f680..=0x1f6ff | 0x1f900..=0x1f9ff | 0x20000..=0x3fffd => 2,
        _ => 1,
    }
}

/// Whether a character shows nothing, or turns the direction of those around it.
fn hidden(letter: char) -> bool {
    let number = letter as u32;
    letter.is_control()
        || matches!(number, 0x00ad | 0x061c | 0x200b..=0x200f | 0x2028..=0x202e | 0x2060..=0x206f | 0xfeff)
}

fn cells(bytes: &[u8]) -> Vec<Cell> {
    let mut cells = Vec::new();
    let mut at = 0;
    let mut put = |shown: String, columns: usize, count: usize| {
        cells.push(Cell {
            shown,
            columns,
            bytes: at..at + count,
        });
        at += count;
    };
    for chunk in bytes.utf8_chunks() {
        for letter in chunk.valid().chars() {
            let shown: String = if hidden(letter) {
                letter.escape_default().collect()
            } else {
                letter.to_string()
            };
            let width = shown.chars().map(columns).sum();
            put(shown, width, letter.len_utf8());
        }
        for byte in chunk.invalid() {
            put(format!("\\x{byte:02x}"), 4, 1);
        }
    }
    cells
}

/// Bytes as they are shown, whole.
pub fn shown(bytes: &[u8]) -> String {
    cells(bytes).into_iter().map(|cell| cell.shown).collect()
}

/// How many columns a text takes.
pub fn width(text: &str) -> usize {
    text.chars().map(columns).sum()
}

/// Bytes as they are shown, and cut off where they are many.
pub fn word(bytes: &[u8]) -> String {
    let mut word = String::new();
    let mut taken = 0;
    // No character has more than four bytes, so this front has all that can be shown.
    for cell in cells(&bytes[..bytes.len().min(4 * WORD + 4)]) {
        taken += cell.columns;
        if taken > WORD {
            word.push('…');
            break;
        }
        word.push_str(&cell.shown);
    }
    word
}

/// The line in which a place stands, counted from 1, and the bytes of that line without its line end.
pub fn line_at(text: &[u8], place: usize) -> (usize, Range<usize>) {
    let place = place.min(text.len());
    let before = &text[..place];
    let number = before.iter().filter(|&&byte| byte == b'\n').count() + 1;
    let start = before
        .iter()
        .rposition(|&byte| byte == b'\n')
        .map_or(0, |at| at + 1);
    let rest = text[place..].iter().position(|&byte| byte == b'\n');
    (
        number,
        start..rest.map_or(text.len(), |count| place + count),
    )
}

/// The column of a place in its line, counted from 1, in characters.
pub fn column(text: &[u8], place: usize) -> usize {
    let (_, line) = line_at(text, place);
    let place = place.min(text.len());
    let before = cells(&text[line.start..place]);
    before.len() + 1
}

/// A line of the text with carets under some of its bytes, at least one.
pub fn excerpt(text: &[u8], place: usize, length: usize, paint: Paint) -> String {
    let (number, mut line) = line_at(text, place);
    if place == line.end && line.end < text.len() {
        // The line end itself is meant, so it is shown.
        line.end += 1;
    }
    let marked = place..place.saturating_add(length.max(1));
    let mut left: Vec<Cell> = Vec::new();
    let mut under: Vec<Cell> = Vec::new();
    let mut right: Vec<Cell> = Vec::new();
    for cell in cells(&text[line.clone()]) {
        let at = line.start + cell.bytes.start..line.start + cell.bytes.end;
        if at.end <= marked.start {
            left.push(cell);
        } else if at.start < marked.end {
            under.push(cell);
        } else {
            right.push(cell);
        }
    }
    let (under, under_columns, cut) = front(under.into_iter(), WIDEST / 2);
    let (left, left_columns, left_cut) = front(left.into_iter().rev(), WIDEST / 2);
    let room = WIDEST.saturating_sub(left_columns + under_columns);
    let (right, _, right_cut) = front(right.into_iter(), if cut { 0 } else { room });
    let left: String = left.into_iter().rev().collect();
    let [before, behind] = [left_cut, cut || right_cut].map(|cut| if cut { "…" } else { "" });
    let number = number.to_string();
    let margin = " ".repeat(number.len());
    let blanks = " ".repeat(left_columns + usize::from(left_cut));
    let carets = "^".repeat(under_columns.max(1));
    let shown = [
        before,
        &left,
        &paint.bold(&under.concat()),
        &right.concat(),
        behind,
    ]
    .concat();
    let lines = [
        format!("  {} {shown}", paint.dim(&format!("{number} |"))),
        format!(
            "  {} {blanks}{}",
            paint.dim(&format!("{margin} |")),
            paint.red(&carets)
        ),
    ];
    lines.map(|line| format!("{}\n", line.trim_end())).concat()
}

/// As many cells from the front as fit, their columns, and whether some are left out.
fn front(cells: impl Iterator<Item = Cell>, most: usize) -> (Vec<String>, usize, bool) {
    let mut taken = Vec::new();
    let mut columns = 0;
    for cell in cells {
        if columns + cell.columns > most {
            return (taken, columns, true);
        }
        columns += cell.columns;
        taken.push(cell.shown);
    }
    (taken, columns, false)
}

/// One thing, two things or many in a sentence: `a`, `a or b`, `a, b or c`.
pub fn listed(items: &[String], join: &str) -> String {
    match items {
        [] => "nothing".to_string(),
        [one] => one.clone(),
        [front @ .., last] => format!("{} {join} {last}", front.join(", ")),
    }
}

/// `1 byte`, `2 bytes`.
pub fn count(number: usize, what: &str) -> String {
    format!("{number} {what}{}", if number == 1 { "" } else { "s" })
}

/// Rows in columns, the first row as the head. Numbers stand on the right.
pub fn table(rows: &[Vec<String>], paint: Paint) -> String {
    let columns = rows.iter().map(Vec::len).max().unwrap_or(0);
    let cell = |row: &Vec<String>, column: usize| row.get(column).cloned().unwrap_or_default();
    let widths: Vec<usize> = (0..columns)
        .map(|column| {
            rows.iter()
                .map(|row| width(&cell(row, column)))
                .max()
                .unwrap_or(0)
        })
        .collect();
    let numbers: Vec<bool> = (0..columns)
        .map(|column| {
            let mut body = rows.iter().skip(1).map(|row| cell(row, column));
            body.all(|text| text.bytes().all(|byte| byte.is_ascii_digit()))
        })
        .collect();
    let mut lines = String::new();
    for (i, row) in rows.iter().enumerate() {
        let mut line = String::from(" ");
        for column in 0..columns {
            let text = cell(row, column);
            let blanks = " ".repeat(widths[column] - width(&text));
            let (before, behind) = if numbers[column] {
                (blanks.as_str(), "")
            } else {
                ("", blanks.as_str())
            };
            line.push_str(&format!(" {before}{text}{behind} "));
        }
        let line = line.trim_end();
        lines.push_str(&if i == 0 {
            paint.dim(line)
        } else {
            line.to_string()
        });
        lines.push('\n');
    }
    lines
}
