//! Request No. 2: layout and the state's terminals are looked for together.

use second::check::check;
use second::marked::*;
use second::parse::parse;

/// The six numbers and the leaves.
fn run(image: &[u16], text: &[u8], allowance: u32) -> ([u32; 6], Vec<[u16; 4]>) {
    let mut tree = [0; 400];
    let parsed = parse(image, text, &mut tree, allowance);
    let records = tree.chunks_exact(4).take(parsed.records as usize);
    let leaves = records.filter(|record| record[0] < 64);
    let numbers = [
        parsed.code,
        parsed.place,
        parsed.length,
        parsed.terminal,
        parsed.records,
        parsed.moves,
    ];
    let leaves = leaves.map(|r| [r[0], r[1], r[2], r[3]]).collect();
    (numbers, leaves)
}

fn ample(image: &[u16], text: &[u8]) -> ([u32; 6], Vec<[u16; 4]>) {
    run(image, text, u32::MAX)
}

fn passes(image: &[u16]) {
    assert_eq!(check(image).code, 0);
}

#[test]
fn an_operator_that_is_longer_than_a_comment_is_seen() {
    let image = image_of(OPERATOR_PACK);
    passes(&image);
    // 1 for the name, 3 for the operator, 1 for the name.
    let (numbers, leaves) = ample(&image, b"a//=a");
    assert_eq!(numbers, [0, 5, 0, 0, 4, 5]);
    assert_eq!(leaves, [[1, 0, 1, 0], [2, 1, 3, 1], [1, 4, 1, 2]]);
    let (numbers, leaves) = ample(&image, b" a //= // a");
    assert_eq!(leaves, [[1, 1, 1, 0], [2, 3, 3, 1], [1, 10, 1, 2]]);
    // 1 and 1, then 1 and 3, then 1, 2, 1 and 1.
    assert_eq!(numbers, [0, 11, 0, 0, 4, 11]);
}

#[test]
fn a_comment_is_skipped_where_it_is_longer_or_the_operator_is_not_allowed() {
    let image = image_of(OPERATOR_PACK);
    // `//a` in the state that allows the operator.
    assert_eq!(ample(&image, b"a//a").0, [0, 4, 0, 0, 2, 4]);
    // State 0 does not allow it: `//` is layout, seen after a move over the `=`, and then `=` is nothing.
    assert_eq!(ample(&image, b"//=a").0, [7, 2, 0, 0, 0, 3]);
    // The last state allows the end alone. A scan for all but layout finds nothing at `=`.
    assert_eq!(ample(&image, b"a//=a//=").0, [7, 7, 0, 0, 3, 8]);
    // The operator is not finished: neither it nor the comment is there, and no terminal begins so.
    assert_eq!(ample(&image, b"a/").0, [7, 1, 0, 0, 1, 3]);
}

#[test]
fn a_comment_to_the_end_of_its_line_still_wins() {
    let image = image_with(OPERATOR_PACK, COMMENT_TO_THE_END);
    assert_eq!(check(&image).code, 0);
    // `//=a` is one comment of 4 bytes.
    let (numbers, leaves) = ample(&image, b"a//=a");
    assert_eq!((numbers, leaves), ([0, 5, 0, 0, 2, 5], vec![[1, 0, 1, 0]]));
    // Alone, `//=` is as long as the operator, and the group chooses that.
    let (numbers, leaves) = ample(&image, b"a//= a");
    assert_eq!(numbers, [0, 6, 0, 0, 4, 6]);
    assert_eq!(leaves, [[1, 0, 1, 0], [2, 1, 3, 1], [1, 5, 1, 2]]);
}

#[test]
fn a_group_chooses_between_a_token_and_layout() {
    let [operator, comment, none] =
        OPERATOR_OR_COMMENT.map(|replaced| image_with(OPERATOR_PACK, replaced));
    passes(&operator);
    let (numbers, leaves) = ample(&operator, b"a// a");
    assert_eq!(numbers, [0, 5, 0, 0, 4, 5]);
    assert_eq!(leaves, [[1, 0, 1, 0], [2, 1, 2, 1], [1, 4, 1, 2]]);
    // Where the operator is not allowed there is the comment alone.
    let (numbers, leaves) = ample(&operator, b"// a// // a");
    assert_eq!(numbers, [0, 11, 0, 0, 4, 11]);
    assert_eq!(leaves, [[1, 3, 1, 0], [2, 4, 2, 1], [1, 10, 1, 2]]);
    passes(&comment);
    assert_eq!(ample(&comment, b"a//").0, [0, 3, 0, 0, 2, 3]);
    // The name behind it is unexpected; a scan in vain and a second one.
    assert_eq!(ample(&comment, b"a// a").0, [8, 4, 1, 1, 1, 6]);
    assert_eq!(check(&none).numbers, [3, 1, 3]);
    assert_eq!(ample(&none, b"a// a").0, [9, 1, 2, 0, 1, 3]);
    assert_eq!(ample(&none, b"a //").0, [9, 2, 2, 0, 1, 4]);
    // The longer comment is one terminal, and so is the operator.
    assert_eq!(ample(&none, b"a//a").0, [0, 4, 0, 0, 2, 4]);
    assert_eq!(ample(&none, b"a//=a").0, [0, 5, 0, 0, 4, 5]);
}

#[test]
fn two_layout_terminals_need_a_group_too() {
    let [blank, comment, none] =
        BLANK_OR_COMMENT.map(|replaced| image_with(OPERATOR_PACK, replaced));
    for image in [blank, comment] {
        passes(&image);
        assert_eq!(ample(&image, b" a ").0, [0, 3, 0, 0, 2, 3]);
    }
    assert_eq!(check(&none).numbers, [3, 0, 5]);
    assert_eq!(ample(&none, b" ").0, [9, 0, 1, 0, 0, 1]);
    assert_eq!(ample(&none, b"a  ").0, [9, 1, 2, 0, 1, 3]);
}

#[test]
fn layout_is_looked_for_again_after_a_reduction() {
    let image = image_of(REDUCED_PACK);
    passes(&image);
    // State 1 sees `//=` in 3 moves and reduces. State 2 sees `//`, again in 3 moves, and then the name `=`.
    let (numbers, leaves) = ample(&image, b"a//=");
    assert_eq!(numbers, [0, 4, 0, 0, 4, 1 + 3 + 3 + 1]);
    assert_eq!(leaves, [[1, 0, 1, 0], [1, 3, 1, 2]]);
    // Layout that state 1 skips is skipped once; the name is seen by both.
    let (numbers, leaves) = ample(&image, b"a//a");
    assert_eq!(numbers, [0, 4, 0, 0, 4, 1 + 2 + 1 + 1]);
    assert_eq!(leaves, [[1, 0, 1, 0], [1, 3, 1, 2]]);
}

#[test]
fn the_allowance_is_used_up_where_the_very_scan_began() {
    let image = small_image();
    let run = |text: &[u8], allowance| run(&image, text, allowance).0;
    // Two blanks are one piece.
    assert_eq!(run(b"  tax", 1), [13, 0, 0, 0, 0, 1]);
    assert_eq!(run(b"  tax", 3), [13, 2, 0, 0, 0, 3]);
    assert_eq!(run(b"  tax", 4), [13, 2, 0, 0, 0, 4]);
    assert_eq!(run(b"  tax", 5), [0, 5, 0, 0, 2, 5]);
    // The scan in vain and the second scan of `tax day` begin at 4.
    for allowance in 4..8 {
        assert_eq!(run(b"tax day", allowance), [13, 4, 0, 0, 1, allowance]);
    }
    assert_eq!(run(b"tax ", 3), [13, 3, 0, 0, 1, 3]);
    // Nothing is scanned at the end.
    assert_eq!(run(b"tax ", 4), [0, 4, 0, 0, 2, 4]);
}

/// Two layout terminals that outrank each other reject both, and a token is forgotten for it. The second scan, which
/// leaves layout out, finds that very token: code 8 names a terminal that is allowed. The pack passes.
#[test]
fn code_8_may_name_a_terminal_that_is_valid() {
    let image = image_of(CIRCLE_PACK);
    passes(&image);
    assert_eq!(ample(&image, b"a").0, [0, 1, 0, 0, 2, 1]);
    assert_eq!(ample(&image, b"ab").0, [8, 0, 1, 1, 0, 4]);
}
