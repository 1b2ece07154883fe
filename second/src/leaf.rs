//! A leaf's bytes.

/// The part of the lent text that a leaf record names, or the empty part at its front.
pub fn leaf(text: &[u8], words: [u16; 4]) -> &[u8] {
    let [terminal, start, length, _] = words.map(usize::from);
    if (1..=63).contains(&terminal) && start + length <= text.len() {
        &text[start..start + length]
    } else {
        &text[..0]
    }
}

/// Where the part that `leaf` returns stands in the text, and its length.
pub fn part(text: &[u8], words: [u16; 4]) -> (usize, usize) {
    let part = leaf(text, words);
    (part.as_ptr() as usize - text.as_ptr() as usize, part.len())
}
