//! What the program `readq` prints.

use crate::image::{Places, Sizes, SIZE_LIMITS};
use crate::numbers::{DONE, RECORD_WORDS};
use crate::parse::{parse, Parsed};
use crate::text::read;

/// Room for 6,000 records.
const ROOM: usize = 6_000 * RECORD_WORDS;

/// The words of the largest image.
pub fn largest_image() -> usize {
    let greatest = SIZE_LIMITS.map(|(_, greatest)| greatest);
    let Places { end, .. } = Sizes::from_words(&greatest).places();
    end
}

/// The lines printed for a pack text and a query.
pub fn readq(pack_text: &[u8], query: &[u8]) -> String {
    let mut room = vec![0; largest_image()];
    let read = read(pack_text, &mut room);
    if read.code != DONE {
        return format!("code={}\nplace={}\n", read.code, read.number);
    }
    let image = &room[..read.number as usize];
    let mut tree = vec![0; ROOM];
    let Parsed {
        code,
        place,
        length,
        terminal,
        records,
        moves,
    } = parse(image, query, &mut tree, u32::MAX);
    let mut lines = format!(
        "code={code}\nplace={place}\nlength={length}\nterminal={terminal}\nrecords={records}\nmoves={moves}\n"
    );
    for record in tree.chunks_exact(RECORD_WORDS).take(records as usize) {
        let [a, b, c, d] = [record[0], record[1], record[2], record[3]];
        lines.push_str(&format!("rec={a},{b},{c},{d}\n"));
    }
    lines
}
