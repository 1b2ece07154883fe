//! The text form: what is of the form and what is not, each with its place.

use second::cases::word_pattern;
use second::marked::SMALL_PACK;
use second::text::{read, Written};

/// Reads with ample room; a refusal leaves the room untouched.
fn reads(text: &[u8]) -> (u32, u32) {
    let mut room = word_pattern(20_700);
    let Written { code, number } = read(text, &mut room);
    if code != 0 {
        assert!(room == word_pattern(20_700), "a refusal leaves the room");
    }
    (code, number)
}

/// Replaces line `number` (from 0) of the small pack; gives the text and the start of that line.
fn with_line(number: usize, line: &str) -> (String, u32) {
    let mut lines: Vec<String> = SMALL_PACK.lines().map(|l| format!("{l}\n")).collect();
    let start: usize = lines[..number].iter().map(String::len).sum();
    lines[number] = line.to_string();
    (lines.concat(), start as u32)
}

#[test]
fn a_line_not_of_the_form_is_refused_at_its_start() {
    let wrong: &[(usize, &str)] = &[
        (0, "pack=0\n"),
        (0, "pack=3\n"),
        (0, "pack=02\n"),
        (0, "pack=12\n"),
        (0, "pack=01\n"),
        (0, "pack=1,1\n"),
        (0, "pack=\n"),
        (0, "pack=1 \n"),
        (0, "pack=1\r\n"),
        (0, "Pack=1\n"),
        (0, " pack=1\n"),
        (0, "\n"),
        (0, ""),
        (1, "size=4,1,2,5,5,5,6\n"),
        (1, "size=4,1,2,5,5,5,6,0,0\n"),
        (1, "size=4,1,2,5,5,5,6,\n"),
        (1, "size=4,1,2,5,5,5,6,33\n"),
        (1, "size=4,1,2,5,5,5,65,0\n"),
        (1, "size=4,1,2,5,5,33,6,0\n"),
        (1, "size=4,1,2,5,129,5,6,0\n"),
        (1, "size=4,1,2,129,5,5,6,0\n"),
        (1, "size=4,1,129,5,5,5,6,0\n"),
        (1, "size=4,33,2,5,5,5,6,0\n"),
        (1, "size=65,1,2,5,5,5,6,0\n"),
        (1, "size=0,1,2,5,5,5,6,0\n"),
        (1, "size=4,0,2,5,5,5,6,0\n"),
        (1, "size=4,1,0,5,5,5,6,0\n"),
        (1, "size=4,1,2,0,5,5,6,0\n"),
        (1, "size=4,1,2,5,0,5,6,0\n"),
        (1, "size=4,1,2,5,5,0,6,0\n"),
        (1, "size=65540,1,2,5,5,5,6,0\n"),
        (2, "layout=000000000000008\n"),
        (2, "layout=00000000000000008\n"),
        (2, "layout=000000000000000E\n"),
        (2, "layout=000000000000000g\n"),
        (2, "layout=0000000000000008,0000000000000000\n"),
        (2, "layout=\n"),
        (2, "dom=0000000000000008\n"),
        (5, "dom=0000000000000002,\n"),
        (7, "prod=0\n"),
        (7, "prod=0,1\n"),
        (7, "prod=0,1,2,2\n"),
        (7, "prod=0,15,2,2,2,2,2,2,2,2,2,2,2,2,2,2,2\n"),
        (7, "prod=0,65536\n"),
        (7, "prod=0,-0\n"),
        (7, "prod=,1,2\n"),
        (9, "act=0,0,4\n"),
        (9, "act=0,0,4,0,0\n"),
        (9, "act=0,0,4,00\n"),
        (9, "act=0,0,04,0\n"),
        (9, "act=0,0,+4,0\n"),
        (9, "act=0,0,-4,0\n"),
        (9, "act=0, 0,4,0\n"),
        (9, "act=0,,4,0\n"),
        (9, "act=,0,4,0\n"),
        (9, "act=0,0,4,0,\n"),
        (9, "act=0,0,65536,0\n"),
        (9, "act=0,0,100000,0\n"),
        (9, "act=0,0,4,0\r\n"),
        (9, "act=0,0,4,a\n"),
        (9, "act=0,0,4;0\n"),
        (9, "act 0,0,4,0\n"),
        (9, "act\n"),
        (9, "\nact=0,0,4,0\n"),
        (14, "goto=\n"),
        (14, "goto=5,0\n"),
        (19, "class=32,32\n"),
        (19, "class=32,32,4,0\n"),
        (25, "move=0,2,4,4\n"),
        (30, "scan=0000000000000000,0000000000000000\n"),
        (
            30,
            "scan=0000000000000000,0000000000000000,000000000000000e,0000000000000000\n",
        ),
        (30, "scan=0,0,e\n"),
        (
            34,
            "scan=0000000000000008,0000000000000000,0000000000000008",
        ),
        (
            34,
            "scan=0000000000000008,0000000000000000,0000000000000008\r\n",
        ),
    ];
    for &(number, line) in wrong {
        let (text, start) = with_line(number, line);
        assert_eq!(reads(text.as_bytes()), (1, start), "{line:?}");
    }
    // The first line of form 2 is good, and then the first row of cells is not.
    let (text, _) = with_line(0, "pack=2\n");
    assert_eq!(reads(text.as_bytes()), (1, with_line(9, "").1));
}

#[test]
fn good_texts_that_look_odd() {
    // The same line again, a production of no symbols and one of 14.
    let (text, _) = with_line(9, "act=0,0,4,0\n");
    assert_eq!(reads(text.as_bytes()), (0, 189));
    let (text, _) = with_line(7, "prod=0,0\n");
    assert_eq!(reads(text.as_bytes()), (0, 189));
    let (text, _) = with_line(7, "prod=0,14,2,2,2,2,2,2,2,2,2,2,2,2,2,64\n");
    assert_eq!(reads(text.as_bytes()), (0, 189));
}

#[test]
fn a_missing_line_is_at_the_end_and_what_follows_the_last_at_its_start() {
    let text = SMALL_PACK.as_bytes();
    // A text cut anywhere is wrong at the start of the line that is cut or missing.
    for cut in 0..text.len() {
        let start = text[..cut]
            .iter()
            .rposition(|&b| b == b'\n')
            .map_or(0, |lf| lf + 1);
        assert_eq!(reads(&text[..cut]), (1, start as u32), "cut at {cut}");
    }
    for more in ["\n", "x", "group=", "pack=1\n", "scan=\n", " \n", "\0"] {
        let text = format!("{SMALL_PACK}{more}");
        assert_eq!(
            reads(text.as_bytes()),
            (1, SMALL_PACK.len() as u32),
            "{more:?}"
        );
    }
}

#[test]
fn lines_swapped_or_doubled_are_refused_where_another_line_is_due() {
    let lines: Vec<&str> = SMALL_PACK.split_inclusive('\n').collect();
    let start = |number: usize| -> u32 { lines[..number].concat().len() as u32 };
    let mut swapped = lines.clone();
    swapped.swap(13, 14);
    assert_eq!(reads(swapped.concat().as_bytes()), (1, start(13)));
    let mut doubled = lines.clone();
    doubled.insert(13, lines[13]);
    assert_eq!(reads(doubled.concat().as_bytes()), (1, start(14)));
    let mut dropped = lines.clone();
    dropped.remove(13);
    assert_eq!(reads(dropped.concat().as_bytes()), (1, start(13)));
}

#[test]
fn other_rules_are_shape_and_give_the_word() {
    // lhs over N, a symbol over T, an action of no state: words 29, 31 and 63 of the image.
    for (number, line, word) in [
        (7, "prod=1,1,2\n", 29),
        (7, "prod=0,1,4\n", 31),
        (9, "act=0,0,12,0\n", 63),
        (9, "act=0,0,65535,0\n", 63),
        (19, "class=300,300,4\n", 87),
    ] {
        let (text, _) = with_line(number, line);
        assert_eq!(reads(text.as_bytes()), (4, word), "{line:?}");
    }
}
