//! The order of refusals in each entry point.

use second::cases::{byte_pattern, word_pattern};
use second::check::check;
use second::gen::wide::with_text_length;
use second::image::Pack;
use second::marked::*;
use second::parse::{parse, Parsed};
use second::scan::{scan, Scanned};
use second::text::{read, text_of, write, Written};

fn written(code: u32, number: u32) -> Written {
    Written { code, number }
}

/// Reads into a room of so many words, which a refusal leaves untouched.
fn reads(text: &[u8], room: u32) -> Written {
    let mut words = word_pattern(room);
    let answer = read(text, &mut words);
    if answer.code != 0 {
        assert_eq!(words, word_pattern(room));
    }
    answer
}

fn writes(image: &[u16], room: u32) -> Written {
    let mut bytes = byte_pattern(room);
    let answer = write(image, &mut bytes);
    if answer.code != 0 {
        assert_eq!(bytes, byte_pattern(room));
    }
    answer
}

#[test]
fn the_reader_refuses_2_then_1_then_4_then_3() {
    // All four faults: too long, a wrong last line, a wrong word, no room.
    let bad_word = SMALL_PACK.replace("prod=0,1,2\n", "prod=1,1,2\n");
    let bad_line = format!("{bad_word}x");
    let long = format!("{bad_line}{}", "x".repeat(65_536 - bad_line.len()));
    assert_eq!(long.len(), 65_536);
    assert_eq!(reads(long.as_bytes(), 0), written(2, 0));
    let place = bad_word.len() as u32;
    assert_eq!(reads(&long.as_bytes()[..65_535], 0), written(1, place));
    assert_eq!(reads(bad_line.as_bytes(), 0), written(1, place));
    assert_eq!(reads(bad_word.as_bytes(), 0), written(4, 29));
    assert_eq!(reads(SMALL_PACK.as_bytes(), 0), written(3, 189));
    assert_eq!(reads(SMALL_PACK.as_bytes(), 188), written(3, 189));
    assert_eq!(reads(SMALL_PACK.as_bytes(), 189), written(0, 189));
}

#[test]
fn the_writer_refuses_4_then_2_then_3() {
    let long = with_text_length(65_536);
    let mut bad = long.clone();
    *bad.last_mut().unwrap() = 0;
    assert_eq!(text_of(&Pack::new(&bad)).len(), 65_536);
    assert_eq!(writes(&bad, 0), written(4, 20_588));
    assert_eq!(writes(&long, 0), written(2, 0));
    let small = small_image();
    let length = SMALL_PACK.len() as u32;
    assert_eq!(writes(&small, 0), written(3, length));
    assert_eq!(writes(&small, length - 1), written(3, length));
    assert_eq!(writes(&small, length), written(0, length));
    assert_eq!(writes(&[], 0), written(4, 0));
}

#[test]
fn the_check_refuses_4_then_5() {
    let mut image = without_goto();
    assert_eq!((check(&image).code, check(&image).numbers), (5, [5, 1, 0]));
    image[188] = 16;
    assert_eq!(
        (check(&image).code, check(&image).numbers),
        (4, [185, 0, 0])
    );
}

#[test]
fn the_parse_refuses_6_then_4_then_runs() {
    let mut image = small_image();
    image[0] = 0;
    let long = vec![b' '; 65_536];
    for (text, code) in [(&long[..], 6), (&long[..65_535], 4), (b"", 4)] {
        let mut tree = word_pattern(40);
        let refused = Parsed {
            code,
            ..Parsed::default()
        };
        assert_eq!(parse(&image, text, &mut tree, 0), refused);
        assert_eq!(tree, word_pattern(40));
    }
    image[0] = 1;
    image[100] = 5;
    image[101] = 9;
    let refused = Parsed {
        code: 4,
        place: 100,
        ..Parsed::default()
    };
    assert_eq!(parse(&image, b"tax", &mut [], 0), refused);
    // The run: 13 for the first scan comes before anything else.
    let parsed = parse(&small_image(), b"tax", &mut [], 0);
    assert_eq!((parsed.code, parsed.place), (13, 0));
}

#[test]
fn the_scan_refuses_6_then_4_then_13_or_0() {
    let good = small_image();
    let mut bad = good.clone();
    bad[61] = 1;
    bad[62] = 1;
    let long = vec![b'a'; 65_536];
    let answer = |code, place, set, length, moves| Scanned {
        code,
        place,
        set,
        length,
        moves,
    };
    assert_eq!(scan(&bad, &long, 9, 4, 0), answer(6, 0, 0, 0, 0));
    assert_eq!(scan(&bad, b"a", 9, 4, 0), answer(4, 62, 0, 0, 0));
    assert_eq!(scan(&good, b"aa", 1, 4, 0), answer(13, 1, 0, 0, 0));
    assert_eq!(scan(&good, b"aaa", 1, 4, 1), answer(13, 1, 0, 0, 1));
    assert_eq!(scan(&good, b"aaa", 1, 4, 2), answer(0, 1, 4, 2, 2));
}

#[test]
fn stuck_comes_before_tree_room_in_one_action() {
    // Case 11 with room for its leaf only: the reduction has no goto and no room.
    let mut tree = word_pattern(4);
    let parsed = parse(&without_goto(), b"tax", &mut tree, 9);
    assert_eq!((parsed.code, parsed.place, parsed.records), (10, 3, 1));
    assert_eq!(tree, [2, 0, 3, 0]);
    // Too few states: row 0 reduces by a production of one symbol, and there is no room at all.
    let image = image_with(SMALL_PACK, &[("act=", 0, "act=3,0,4,0")]);
    let parsed = parse(&image, b"", &mut [], 9);
    assert_eq!((parsed.code, parsed.place, parsed.records), (10, 0, 0));
    // An accept on a stack of one state, and of three.
    let image = image_with(SMALL_PACK, &[("act=", 0, "act=1,0,4,0")]);
    let parsed = parse(&image, b" ", &mut [], 9);
    assert_eq!((parsed.code, parsed.place, parsed.moves), (10, 1, 1));
    let image = image_with(SMALL_PACK, &[("act=", 2, "act=1,0,8,0")]);
    let parsed = parse(&image, b"a by ", &mut [0; 8], 99);
    assert_eq!((parsed.code, parsed.place, parsed.records), (10, 5, 2));
}
