//! The second form of a pack text and the moves between the forms: document 02, No. 4, by hand.

use second::cases::{byte_pattern, word_pattern};
use second::gen::passing::{passing, Drops, Scale};
use second::gen::random;
use second::gen::rng::Rng;
use second::gen::wide::with_length;
use second::image::Pack;
use second::marked::{small_image, LEAST_PACK, SMALL_PACK};
use second::text::{form1, form2, move_to, read, text_in, write2, write_in, Form, Written};

/// The small pack in form 2.
const SMALL_PACK_2: &str = "\
pack=2
size=4,1,2,5,5,5,6,0
layout=0000000000000008
dom=0000000000000000
dom=0000000000000000
dom=0000000000000002
dom=0000000000000000
prod=0,1,2
prod=0,3,2,1,2
act=2:4
act=0:3,1:6
act=2:8
act=0:5
act=0:1
goto=0:5
goto=
goto=
goto=
goto=
class=32,32,4
class=97,97,3
class=98,98,1
class=99,120,3
class=121,121,2
class=122,122,3
move=1:2,2:4,3:4,4:5
move=1:4,2:3,3:4
move=1:4,2:4,3:4
move=1:4,2:4,3:4
move=4:5
scan=0000000000000000,0000000000000000,000000000000000e
scan=0000000000000004,0000000000000000,0000000000000006
scan=0000000000000002,0000000000000004,0000000000000006
scan=0000000000000004,0000000000000000,0000000000000004
scan=0000000000000008,0000000000000000,0000000000000008
";

fn done(number: usize) -> Written {
    Written {
        code: 0,
        number: number as u32,
    }
}

/// Reads with ample room; a refusal leaves the room untouched.
fn reads(text: &[u8]) -> (u32, u32) {
    let mut room = word_pattern(20_700);
    let Written { code, number } = read(text, &mut room);
    if code != 0 {
        assert!(room == word_pattern(20_700), "a refusal leaves the room");
    }
    (code, number)
}

type Change = fn(&[u8], &mut [u8]) -> Written;

/// Moves with this room; only what is written differs from what was there.
fn moves(change: Change, text: &[u8], room: usize) -> Result<Vec<u8>, (u32, u32)> {
    let mut lent = byte_pattern(room as u32);
    let Written { code, number } = change(text, &mut lent);
    let written = if code == 0 { number as usize } else { 0 };
    assert!(lent[written..] == byte_pattern(room as u32)[written..]);
    match code {
        0 => Ok(lent[..written].to_vec()),
        _ => Err((code, number)),
    }
}

/// Line `number` (from 0) of a text replaced, and the start of that line.
fn with_line(text: &str, number: usize, line: &str) -> (String, u32) {
    let mut lines: Vec<String> = text.lines().map(|l| format!("{l}\n")).collect();
    let start: usize = lines[..number].iter().map(String::len).sum();
    lines[number] = line.to_string();
    (lines.concat(), start as u32)
}

#[test]
fn the_small_pack_in_form_2() {
    let (one, two) = (SMALL_PACK.as_bytes(), SMALL_PACK_2.as_bytes());
    let mut room = word_pattern(200);
    assert_eq!(read(two, &mut room), done(189));
    assert_eq!(room[..189], small_image());
    assert_eq!(room[189..], word_pattern(200)[189..]);
    let mut room = byte_pattern(900);
    assert_eq!(write2(&small_image(), &mut room), done(two.len()));
    assert_eq!(room[..two.len()], *two);
    assert_eq!(room[two.len()..], byte_pattern(900)[two.len()..]);
    assert_eq!(moves(form2, one, 900), Ok(two.to_vec()));
    assert_eq!(moves(form1, two, 900), Ok(one.to_vec()));
}

#[test]
fn rooms() {
    let (one, two) = (SMALL_PACK.as_bytes(), SMALL_PACK_2.as_bytes());
    for (change, source, target) in [(form2 as Change, one, two), (form1, two, one)] {
        let size = target.len();
        assert_eq!(moves(change, source, size), Ok(target.to_vec()));
        for room in [0, size / 2, size - 1] {
            assert_eq!(moves(change, source, room), Err((3, size as u32)));
        }
    }
    let mut room = byte_pattern(two.len() as u32 - 1);
    let short = Written {
        code: 3,
        number: two.len() as u32,
    };
    assert_eq!(write2(&small_image(), &mut room), short);
    assert_eq!(room, byte_pattern(two.len() as u32 - 1));
}

#[test]
fn the_wrong_first_line_for_a_move_is_code_1_at_0() {
    assert_eq!(moves(form2, SMALL_PACK_2.as_bytes(), 900), Err((1, 0)));
    assert_eq!(moves(form1, SMALL_PACK.as_bytes(), 900), Err((1, 0)));
    // Whatever stands behind it, and if it stands there alone.
    for first in ["pack=2\n", "pack=2\nsize=0\n", "pack=2"] {
        assert_eq!(moves(form2, first.as_bytes(), 900), Err((1, 0)));
    }
    // The right one, and then nothing: the next line is missing.
    assert_eq!(moves(form1, b"pack=2\n", 900), Err((1, 7)));
    assert_eq!(moves(form2, b"pack=1\n", 900), Err((1, 7)));
    // Another one, for the reader too.
    for first in [
        "pack=0", "pack=3", "pack=02", "pack=22", "pack=", "pack=2,", "pack=2 ",
    ] {
        let (text, _) = with_line(SMALL_PACK_2, 0, &format!("{first}\n"));
        for change in [form1 as Change, form2] {
            assert_eq!(moves(change, text.as_bytes(), 900), Err((1, 0)), "{first}");
        }
        assert_eq!(reads(text.as_bytes()), (1, 0), "{first}");
    }
}

#[test]
fn a_row_of_cells_not_of_the_form_is_refused_at_its_start() {
    // Row 9 is of act, with 4 columns; 14 of goto, with 1; 25 of move, with 5.
    let wrong = [
        (9, "act=2:4,1:3"),
        (9, "act=2:4,2:4"),
        (9, "act=2:4,2:6"),
        (9, "act=4:3"),
        (9, "act=2:4,4:3"),
        (9, "act=65535:3"),
        (9, "act=65536:3"),
        (9, "act=2:0"),
        (9, "act=2:4,3:0"),
        (9, "act=02:4"),
        (9, "act=00:3"),
        (9, "act=2:04"),
        (9, "act=2:65536"),
        (9, "act=2:"),
        (9, "act=:4"),
        (9, "act=:"),
        (9, "act=0:1:1"),
        (9, "act=2::4"),
        (9, "act=2:4,"),
        (9, "act=,2:4"),
        (9, "act=,"),
        (9, "act=0:3,,2:4"),
        (9, "act=0,0,4,0"),
        (9, "act=2"),
        (9, "act= "),
        (9, "act=2: 4"),
        (9, "act=2:4\r"),
        (9, "act=2:+4"),
        (9, "act"),
        (9, ""),
        (14, "goto=1:5"),
        (14, "goto=5"),
        (14, "goto=0:0"),
        (25, "move=5:1"),
        (25, "move=4:5,1:2"),
        (25, "move=0,2,4,4,5"),
        // Only rows of cells may be empty, and only they are sparse.
        (2, "layout="),
        (3, "dom="),
        (7, "prod="),
        (7, "prod=0:0,1:1,2:2"),
        (19, "class="),
        (19, "class=0:32,1:32,2:4"),
        (30, "scan="),
        (1, "size="),
    ];
    for (number, line) in wrong {
        let (text, start) = with_line(SMALL_PACK_2, number, &format!("{line}\n"));
        assert_eq!(reads(text.as_bytes()), (1, start), "{line:?}");
        let moved = moves(form1, text.as_bytes(), 900);
        assert_eq!(moved, Err((1, start)), "{line:?}");
    }
}

#[test]
fn good_rows_of_cells() {
    for (number, line) in [
        (9, "act="),
        (9, "act=0:3"),
        (9, "act=0:3,1:3,2:4"),
        (14, "goto="),
        (18, "goto=0:5"),
        (25, "move="),
        (25, "move=0:1,1:1,2:1,3:1,4:1"),
    ] {
        let (text, _) = with_line(SMALL_PACK_2, number, &format!("{line}\n"));
        assert_eq!(reads(text.as_bytes()), (0, 189), "{line:?}");
    }
    // What the shape says is code 4, with the word.
    for (number, line, word) in [
        (9, "act=2:65535\n", 63),
        (9, "act=3:3\n", 64),
        (14, "goto=0:6\n", 81),
        (25, "move=4:6\n", 108),
    ] {
        let (text, _) = with_line(SMALL_PACK_2, number, line);
        assert_eq!(reads(text.as_bytes()), (4, word), "{line:?}");
        assert_eq!(moves(form1, text.as_bytes(), 0), Err((4, word)));
    }
}

#[test]
fn a_text_cut_anywhere_is_wrong_at_the_start_of_its_last_line() {
    let text = SMALL_PACK_2.as_bytes();
    for cut in 0..text.len() {
        let lf = text[..cut].iter().rposition(|&b| b == b'\n');
        let start = lf.map_or(0, |lf| lf + 1) as u32;
        assert_eq!(reads(&text[..cut]), (1, start), "cut at {cut}");
        assert_eq!(moves(form1, &text[..cut], 900), Err((1, start)));
    }
    let text = format!("{SMALL_PACK_2}\n");
    assert_eq!(reads(text.as_bytes()), (1, SMALL_PACK_2.len() as u32));
}

#[test]
fn refusals_of_the_source_come_first_and_2_before_3_for_the_target() {
    // 2 for the source, whatever its first line and the room.
    for first in ["pack=1\n", "pack=2\n", "x"] {
        let mut text = first.as_bytes().to_vec();
        text.resize(65_536, b'\n');
        for change in [form1 as Change, form2] {
            assert_eq!(moves(change, &text, 0), Err((2, 0)));
        }
        assert_eq!(reads(&text), (2, 0));
    }
    // 4 comes before the limit of the target: its last word is wrong.
    for (form, digits) in [(Form::One, 3), (Form::Two, 1)] {
        let mut image = with_length(&mut Rng::new(1), form, 65_536, digits);
        let last = image.len() - 1;
        image[last] = 63;
        let source = text_in(form.other(), &Pack::new(&image));
        let change = |text: &[u8], room: &mut [u8]| move_to(form, text, room);
        let mut room = byte_pattern(0);
        let shape = Written {
            code: 4,
            number: last as u32,
        };
        assert_eq!(change(&source, &mut room), shape);
    }
}

/// The greatest sizes, and about 7,000 cells of 16,384 that are not 0: form 1 is over the limit and form 2 is not.
#[test]
fn a_pack_whose_form_1_is_over_the_limit_and_whose_form_2_is_not() {
    let mut rng = Rng::new(3);
    for length in [65_536, 65_600, 66_000] {
        let image = with_length(&mut rng, Form::One, length, 3);
        let cells = Pack::new(&image);
        let rows = (0..128).flat_map(|i| [cells.act_row(i), cells.goto_row(i), cells.move_row(i)]);
        let cells = rows.flatten().filter(|&&code| code != 0).count();
        assert!((6_800..7_200).contains(&cells), "{cells}");
        let text = text_in(Form::Two, &Pack::new(&image));
        assert!(text.len() <= 65_535, "{length}: {}", text.len());
        assert_eq!(reads(&text), (0, 20_589));
        for room in [0, 65_535, 70_000] {
            let mut lent = byte_pattern(room);
            let long = Written { code: 2, number: 0 };
            assert_eq!(form1(&text, &mut lent), long);
            assert_eq!(write_in(Form::One, &image, &mut lent), long);
            assert_eq!(lent, byte_pattern(room));
        }
        let mut lent = byte_pattern(65_535);
        assert_eq!(write2(&image, &mut lent), done(text.len()));
        assert!(lent[..text.len()] == text);
    }
}

#[test]
fn a_pack_whose_form_2_is_over_the_limit_and_whose_form_1_is_not() {
    let image = with_length(&mut Rng::new(4), Form::Two, 65_536, 1);
    let text = text_in(Form::One, &Pack::new(&image));
    assert!(text.len() <= 65_535, "{}", text.len());
    assert_eq!(reads(&text), (0, 20_589));
    for room in [0, 70_000] {
        assert_eq!(moves(form2, &text, room), Err((2, 0)));
        let mut lent = byte_pattern(room as u32);
        let long = Written { code: 2, number: 0 };
        assert_eq!(write2(&image, &mut lent), long);
        assert_eq!(lent, byte_pattern(room as u32));
    }
    // With 65,535 bytes it is moved, and comes back.
    let image = with_length(&mut Rng::new(4), Form::Two, 65_535, 1);
    let one = text_in(Form::One, &Pack::new(&image));
    let two = moves(form2, &one, 65_535).expect("it fits");
    assert_eq!(two.len(), 65_535);
    assert!(moves(form1, &two, one.len()) == Ok(one));
}

#[test]
fn a_pack_returns_to_its_own_bytes_and_both_forms_have_one_image() {
    let mut rng = Rng::new(5);
    let mut drops = Drops::default();
    for round in 0..400 {
        let image = match round % 4 {
            0 => passing(&mut rng, Scale::Small, &mut drops).tables.image(),
            1 => passing(&mut rng, Scale::Middle, &mut drops).tables.image(),
            _ => {
                let sizes = random::sizes(&mut rng, round % 40 == 2);
                random::tables(&mut rng, sizes).image()
            }
        };
        let texts = Form::ALL.map(|form| text_in(form, &Pack::new(&image)));
        if texts.iter().any(|text| text.len() > 65_535) {
            continue;
        }
        for text in &texts {
            let mut room = vec![0; image.len()];
            assert_eq!(read(text, &mut room), done(image.len()));
            assert_eq!(room, image);
        }
        let [one, two] = texts;
        assert!(moves(form2, &one, two.len()).as_ref() == Ok(&two));
        assert!(moves(form1, &two, one.len()).as_ref() == Ok(&one));
    }
}

#[test]
fn the_least_pack() {
    let two = moves(form2, LEAST_PACK.as_bytes(), 900).expect("it is moved");
    assert_eq!(moves(form1, &two, 900), Ok(LEAST_PACK.as_bytes().to_vec()));
}
