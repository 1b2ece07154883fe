//! The stored case files: the cases that are written down first, then those about the limits, then generated ones up
//! to the size of a file.

use std::rc::Rc;

use crate::cases::{answers, Case, CaseWriter, Image, Text};
use crate::engine::SECOND;
use crate::gen::mix::{Kinds, Mix};
use crate::gen::rng::Rng;
use crate::gen::wide::{with_length, with_text_length};
use crate::image::Pack;
use crate::marked::*;
use crate::numbers::TEXT_LIMIT;
use crate::sets::Set;
use crate::text::{text_in, text_of, Form};

/// The five files.
#[derive(Clone, Copy, Debug, PartialEq, Eq)]
pub enum File {
    /// Shape, and the scan called by itself.
    Scan,
    /// Reader and writer of form 1.
    Text,
    /// Check, parse and leaf.
    Parse,
    /// The printout.
    Print,
    /// Reader and writer of form 2, and the moves between the forms.
    Forms,
}

impl File {
    pub fn by_name(name: &str) -> Option<File> {
        match name {
            "scan" => Some(File::Scan),
            "text" => Some(File::Text),
            "parse" => Some(File::Parse),
            "print" => Some(File::Print),
            "forms" => Some(File::Forms),
            _ => None,
        }
    }

    /// About how large the case file becomes.
    fn bytes(self) -> usize {
        match self {
            File::Scan => 500_000,
            File::Print => 25_000,
            File::Forms => 640_000,
            _ => 445_000,
        }
    }
}

/// A case file and its answers.
pub fn store(file: File, seed: u64) -> Result<(Vec<u8>, String), String> {
    let kinds = match file {
        File::Scan => Kinds::SCAN,
        File::Text => Kinds::TEXT,
        File::Parse => Kinds {
            check: true,
            ..Kinds::PARSE
        },
        File::Print => Kinds::PRINT,
        File::Forms => Kinds::FORMS,
    };
    let mut mix = Mix::new(seed, kinds, true);
    let mut writer = CaseWriter::new();
    let first = match file {
        File::Scan => scan_cases(&mut mix),
        File::Text => text_cases(&mut mix),
        File::Parse => parse_cases(&mut mix),
        File::Print => print_cases(),
        File::Forms => form_cases(&mut mix),
    };
    first.iter().for_each(|case| writer.put(case));
    while writer.bytes.len() < file.bytes() {
        mix.bundle().iter().for_each(|case| writer.put(case));
    }
    let lines = answers(&SECOND, &writer.bytes)?;
    Ok((writer.bytes, lines))
}

fn text(bytes: &[u8]) -> Text {
    Rc::new(bytes.to_vec())
}

fn scans(image: &Image, texts: &[&[u8]], sets: &[Set], cases: &mut Vec<Case>) {
    for bytes in texts {
        let text = text(bytes);
        for &set in sets {
            for allowance in [u32::MAX, 3] {
                cases.push(Case::Scan {
                    image: image.clone(),
                    text: text.clone(),
                    start: 0,
                    set,
                    allowance,
                });
            }
        }
    }
}

fn scan_cases(mix: &mut Mix) -> Vec<Case> {
    let mut cases = Vec::new();
    // Source document 000, section 5.2.4: `form*` with the valid set {i, k2} is the very first scan.
    let form: Image = Rc::new(image_of(FORM_PACK));
    cases.push(Case::Shape {
        image: form.clone(),
    });
    scans(&form, &[b"form*"], &[0xa], &mut cases);
    scans(
        &form,
        &[
            b"form*", b"form", b"for*", b"for", b"fo*", b"fort", b"forms", b"*", b"",
        ],
        &[0x2, 0x4, 0x8, 0x6, 0xa, 0xc, 0xe],
        &mut cases,
    );
    // Source document 000, section 5.2.2: `keyword` with the valid set {i}.
    let keyword: Image = Rc::new(image_of(KEYWORD_PACK));
    cases.push(Case::Shape {
        image: keyword.clone(),
    });
    scans(
        &keyword,
        &[
            b"keyword",
            b"keyword ",
            b"keywords",
            b"keywor",
            b"Keyword",
            b"k",
        ],
        &[0x4, 0x2, 0x6],
        &mut cases,
    );
    // The scans that the marked cases are made of: each text at each place with the sets of the small pack's rows, with
    // and without layout, with layout, and with all but layout.
    let mut images: Vec<Image> = Vec::new();
    for marked in marked_parses() {
        let known = images.iter().find(|image| ***image == marked.image);
        let image = known.cloned().unwrap_or(Rc::new(marked.image));
        if !images.contains(&image) {
            images.push(image.clone());
            cases.push(Case::Shape {
                image: image.clone(),
            });
        }
        for start in 0..=marked.query.len() as u32 {
            for set in [0x4, 0x2, 0xc, 0xa, 0x8, 0x6, 0xf] {
                cases.push(Case::Scan {
                    image: image.clone(),
                    text: text(marked.query.as_bytes()),
                    start,
                    set,
                    allowance: marked.allowance,
                });
            }
        }
    }
    // Queries of 65,535 and 65,536 bytes.
    let small: Image = Rc::new(small_image());
    for length in [TEXT_LIMIT, TEXT_LIMIT + 1] {
        let text = Rc::new(vec![b'a'; length]);
        for (start, set, allowance) in [
            (0, 4, u32::MAX),
            (0, 4, 65_535),
            (0, 4, 65_534),
            (1, 4, 65_534),
            (65_534, 4, 1),
            (65_535, 4, 1),
            (65_536, Set::MAX, 0),
            (u32::MAX, Set::MAX, 0),
            (0, 8, 9),
        ] {
            cases.push(Case::Scan {
                image: small.clone(),
                text: text.clone(),
                start,
                set,
                allowance,
            });
        }
    }
    // Every byte with few ranges and with many.
    for ranges in [0, 1, 2, 63, 64] {
        cases.extend(mix.border_bundle(ranges));
    }
    // Short and long scans that hang on the class of every byte.
    for ranges in [2, 64] {
        cases.extend(mix.far_bundle(ranges));
    }
    // Each rule of the shape broken, with one scan that is refused by it.
    for image in mix.broken_rules() {
        cases.push(Case::Shape {
            image: image.clone(),
        });
        scans(&image, &[b"a"], &[Set::MAX], &mut cases);
    }
    // Many long productions, which a reader may count instead of walking.
    for layout in 0..3 {
        let images = mix.long_productions(layout, 12);
        cases.extend(images.into_iter().map(|image| Case::Shape { image }));
    }
    cases.extend(mix.greatest_bundle());
    cases
}

fn text_cases(mix: &mut Mix) -> Vec<Case> {
    let mut cases = Vec::new();
    for pack_text in [SMALL_PACK, FORM_PACK, KEYWORD_PACK, LEAST_PACK] {
        let image: Image = Rc::new(image_of(pack_text));
        let text = text(pack_text.as_bytes());
        let (words, bytes) = (image.len() as u32, text.len() as u32);
        for room in [words, words + 9, words - 1, 0] {
            cases.push(Case::Read {
                text: text.clone(),
                room,
            });
        }
        for room in [bytes, bytes + 9, bytes - 1, 0] {
            cases.push(Case::Write {
                form: Form::One,
                image: image.clone(),
                room,
            });
        }
    }
    // The small pack's text cut at each line's start and end.
    for (place, _) in SMALL_PACK.match_indices('\n') {
        for cut in [place, place + 1] {
            cases.push(Case::Read {
                text: text(&SMALL_PACK.as_bytes()[..cut]),
                room: 200,
            });
        }
    }
    // Pack texts of 65,535 and 65,536 bytes.
    for length in [TEXT_LIMIT, TEXT_LIMIT + 1] {
        let image: Image = Rc::new(with_text_length(length));
        for room in [65_600, 65_535, 65_534, 0] {
            cases.push(Case::Write {
                form: Form::One,
                image: image.clone(),
                room,
            });
        }
        let text: Text = Rc::new(text_of(&Pack::new(&image)));
        for room in [20_700, 20_589, 20_588, 0] {
            cases.push(Case::Read {
                text: text.clone(),
                room,
            });
        }
    }
    // The small pack's text broken in each of the ways.
    for text in mix.broken_texts(SMALL_PACK.as_bytes()) {
        cases.push(Case::Read { text, room: 200 });
    }
    cases
}

fn moves(to: Form, text: &Text, rooms: &[u32], cases: &mut Vec<Case>) {
    cases.extend(rooms.iter().map(|&room| Case::Move {
        to,
        text: text.clone(),
        room,
    }));
}

fn form_cases(mix: &mut Mix) -> Vec<Case> {
    let mut cases = Vec::new();
    for pack_text in [SMALL_PACK, FORM_PACK, KEYWORD_PACK, LEAST_PACK] {
        let image: Image = Rc::new(image_of(pack_text));
        let texts = Form::ALL.map(|form| text(&text_in(form, &Pack::new(&image))));
        let words = image.len() as u32;
        let [one, two] = texts.clone().map(|text| text.len() as u32);
        for room in [two, two + 9, two - 1, 0] {
            cases.push(Case::Write {
                form: Form::Two,
                image: image.clone(),
                room,
            });
        }
        for room in [words, words + 9, words - 1, 0] {
            cases.push(Case::Read {
                text: texts[1].clone(),
                room,
            });
        }
        moves(
            Form::Two,
            &texts[0],
            &[two, two + 9, two - 1, 0],
            &mut cases,
        );
        moves(
            Form::One,
            &texts[1],
            &[one, one + 9, one - 1, 0],
            &mut cases,
        );
        // The wrong first line for the move.
        moves(Form::One, &texts[0], &[one, 0], &mut cases);
        moves(Form::Two, &texts[1], &[two, 0], &mut cases);
    }
    // The first line alone, with its LF and without.
    for first in ["pack=1", "pack=2", "pack=3", "pack=02", "pack=22", "pack="] {
        for end in ["", "\n"] {
            let text = text(format!("{first}{end}").as_bytes());
            for to in Form::ALL {
                moves(to, &text, &[9], &mut cases);
            }
            cases.push(Case::Read { text, room: 9 });
        }
    }
    // A line of the small pack in form 2 as others would have it, of each of the three tables, and lines that may not be empty.
    let small =
        String::from_utf8_lossy(&text_in(Form::Two, &Pack::new(&small_image()))).into_owned();
    for (name, number, rest) in CELL_LINES {
        let text = text(with_line(&small, name, number, rest).as_bytes());
        moves(Form::One, &text, &[900], &mut cases);
        cases.push(Case::Read { text, room: 200 });
    }
    // A group's line, in a pack that has one.
    let grouped = text_in(Form::Two, &Pack::new(&image_of(GROUP_PACK)));
    let grouped = String::from_utf8_lossy(&grouped).into_owned();
    for (right, wrong) in [("group=", "group=,"), (",2\n", ",02\n"), (",2\n", ":2\n")] {
        let place = grouped.rfind(right).unwrap();
        let text = text(
            [&grouped[..place], wrong, &grouped[place + right.len()..]]
                .concat()
                .as_bytes(),
        );
        moves(Form::One, &text, &[900], &mut cases);
        cases.push(Case::Read { text, room: 300 });
    }
    // It is cut at each line's start and end.
    for (place, _) in small.match_indices('\n') {
        for cut in [place, place + 1] {
            let text = text(&small.as_bytes()[..cut]);
            moves(Form::One, &text, &[900], &mut cases);
            cases.push(Case::Read { text, room: 200 });
        }
    }
    for more in ["\n", "x", "group=\n", "pack=2\n", "move=\n"] {
        let text = text(format!("{small}{more}").as_bytes());
        moves(Form::One, &text, &[900], &mut cases);
        cases.push(Case::Read { text, room: 200 });
    }
    // Each rule of the shape broken, in an image.
    for image in mix.broken_rules() {
        cases.push(Case::Write {
            form: Form::Two,
            image,
            room: 900,
        });
    }
    // And broken in each of the ways.
    for text in mix.broken_cells(small.as_bytes()) {
        moves(Form::One, &text, &[900], &mut cases);
        cases.push(Case::Read { text, room: 200 });
    }
    // Packs of the greatest sizes whose text of one form has 65,536 bytes, and for form 2 also 65,535, and that of the other form
    // fewer.
    for (form, length, digits) in [
        (Form::One, TEXT_LIMIT + 1, 3),
        (Form::Two, TEXT_LIMIT + 1, 1),
        (Form::Two, TEXT_LIMIT, 1),
    ] {
        let image: Image = Rc::new(with_length(&mut Rng::new(1), form, length, digits));
        let [target, source] =
            [form, form.other()].map(|form| text(&text_in(form, &Pack::new(&image))));
        moves(form, &source, &[65_600, 65_535, 65_534, 0], &mut cases);
        if form == Form::One {
            cases.push(Case::Read {
                text: source,
                room: 20_700,
            });
        }
        if form == Form::Two {
            for room in [20_700, 20_588, 0] {
                let text = target.clone();
                cases.push(Case::Read { text, room });
            }
            moves(Form::One, &target, &[65_600, 0], &mut cases);
            moves(Form::Two, &target, &[65_600, 0], &mut cases);
        }
        for form in Form::ALL {
            for room in [65_600, 65_535, 65_534, 0] {
                let image = image.clone();
                cases.push(Case::Write { form, image, room });
            }
        }
    }
    cases
}

/// Lines of the small pack in form 2, each by its name and its number among those of that name, and what stands after the `=`.
/// The rows have 4, 1 and 5 columns.
const CELL_LINES: [(&str, usize, &str); 62] = [
    ("act", 0, "2:4"),
    ("act", 0, ""),
    ("act", 0, "0:3"),
    ("act", 0, "0:1"),
    ("act", 0, "1:3,2:4"),
    ("act", 0, "0:3,1:3,2:3"),
    ("act", 0, "3:3"),
    ("act", 0, "2:65535"),
    ("act", 0, "2:65536"),
    ("act", 0, "2:12"),
    ("act", 0, "4:3"),
    ("act", 0, "2:4,4:3"),
    ("act", 0, "65535:3"),
    ("act", 0, "65536:3"),
    ("act", 0, "65538:3"),
    ("act", 0, "4294967298:3"),
    ("act", 0, "2:4,1:3"),
    ("act", 0, "2:4,0:3"),
    ("act", 0, "2:4,2:4"),
    ("act", 0, "2:4,2:6"),
    ("act", 0, "0:3,2:4,1:3"),
    ("act", 0, "2:0"),
    ("act", 0, "0:0,2:4"),
    ("act", 0, "2:4,3:0"),
    ("act", 0, "02:4"),
    ("act", 0, "2:04"),
    ("act", 0, "00:3"),
    ("act", 0, "2:00"),
    ("act", 0, "2:"),
    ("act", 0, ":4"),
    ("act", 0, ":"),
    ("act", 0, "2"),
    ("act", 0, "0"),
    ("act", 0, "0,0,4,0"),
    ("act", 0, "2:4:4"),
    ("act", 0, "2::4"),
    ("act", 0, ":2:4"),
    ("act", 0, "2:4:"),
    ("act", 0, ","),
    ("act", 0, ",2:4"),
    ("act", 0, "2:4,"),
    ("act", 0, "1:3,,2:4"),
    ("act", 0, " 2:4"),
    ("act", 0, "2: 4"),
    ("act", 0, "2 :4"),
    ("act", 0, "2:4\r"),
    ("act", 0, "2;4"),
    ("act", 0, "+2:4"),
    ("act", 0, "2:-4"),
    ("act", 0, "2:4\n"),
    ("act", 4, ""),
    ("goto", 0, ""),
    ("goto", 0, "0:5"),
    ("goto", 0, "0:6"),
    ("goto", 0, "1:5"),
    ("goto", 4, "0:1"),
    ("move", 0, ""),
    ("move", 4, "4:5,5:1"),
    ("move", 4, "4:6"),
    ("class", 0, ""),
    ("layout", 0, ""),
    ("scan", 4, ""),
];

/// A text with one line's rest replaced.
fn with_line(text: &str, name: &str, number: usize, rest: &str) -> String {
    let start = format!("{name}=");
    let mut seen = 0;
    let mut lines = String::new();
    for line in text.split_inclusive('\n') {
        let named = line.starts_with(&start);
        if named && seen == number {
            lines.push_str(&format!("{start}{rest}\n"));
        } else {
            lines.push_str(line);
        }
        seen += usize::from(named);
    }
    lines
}

/// Lines that replace some of a pack's, each by its name and its number among those of that name.
type Replaced = &'static [(&'static str, usize, &'static str)];

/// The small pack with each condition failing at its first place, in the middle and at its last, and with two failing.
const FAILING: [Replaced; 23] = [
    // K1: rejected though nothing outranks it; outranked and not rejected.
    &[(
        "scan=",
        1,
        "scan=0000000000000000,0000000000000004,0000000000000006",
    )],
    &[(
        "scan=",
        2,
        "scan=0000000000000006,0000000000000000,0000000000000006",
    )],
    &[(
        "scan=",
        4,
        "scan=0000000000000000,0000000000000008,0000000000000008",
    )],
    // K2: the possible set lacks what is moved to, or what matches.
    &[(
        "scan=",
        0,
        "scan=0000000000000000,0000000000000000,0000000000000006",
    )],
    &[(
        "scan=",
        3,
        "scan=0000000000000004,0000000000000000,0000000000000000",
    )],
    &[(
        "scan=",
        4,
        "scan=0000000000000008,0000000000000000,0000000000000000",
    )],
    // K3: `by` is a name too, and a row sees both.
    &[BY_IS_A_NAME[0], BY_IS_A_NAME[1], ("act=", 0, "act=0,4,4,0")],
    &[BY_IS_A_NAME[0], BY_IS_A_NAME[1], ("act=", 2, "act=0,8,8,0")],
    &[BY_IS_A_NAME[0], BY_IS_A_NAME[1], ("act=", 4, "act=1,4,4,0")],
    // K4: an edge into state 0, by a shift and by a goto; two symbols into one state.
    &[("act=", 2, "act=0,0,2,0")],
    &[("goto=", 3, "goto=1")],
    &[("act=", 2, "act=0,4,8,0")],
    &[("act=", 2, "act=0,10,8,0")],
    // K5: a reduction in state 0, an end without goto, another symbol on the way.
    &[("act=", 0, "act=3,0,4,0")],
    &[("goto=", 0, "goto=0")],
    &[("act=", 4, "act=3,0,0,0")],
    // K6: an accept in state 0, in one behind a shift, and one with another edge in.
    &[("act=", 0, "act=1,0,4,0")],
    &[("act=", 1, "act=1,6,0,0")],
    &[("goto=", 1, "goto=5")],
    // Two at once: the lesser condition is given, and of one condition the lesser place.
    &[
        ("goto=", 0, "goto=0"),
        (
            "scan=",
            4,
            "scan=0000000000000008,0000000000000000,0000000000000000",
        ),
    ],
    &[("act=", 0, "act=1,0,4,0"), ("act=", 2, "act=0,0,2,0")],
    &[("act=", 0, "act=1,0,4,0"), ("act=", 4, "act=3,0,0,0")],
    &[("goto=", 0, "goto=0"), ("act=", 0, "act=3,0,4,0")],
];

/// Without outranking, scan state 2 accepts `by` and the name.
const BY_IS_A_NAME: [(&str, usize, &str); 2] = [
    ("dom=", 2, "dom=0000000000000000"),
    (
        "scan=",
        2,
        "scan=0000000000000006,0000000000000000,0000000000000006",
    ),
];

/// The nested pack with a goto missing on one of two ways back, on the other, and on both.
const WAYS_BACK: [Replaced; 3] = [
    &[("goto=", 0, "goto=0")],
    &[("goto=", 1, "goto=0")],
    &[("goto=", 0, "goto=0"), ("goto=", 1, "goto=0")],
];

fn parse_cases(mix: &mut Mix) -> Vec<Case> {
    let mut cases = Vec::new();
    for marked in marked_parses() {
        cases.push(Case::Parse {
            image: Rc::new(marked.image),
            text: text(marked.query.as_bytes()),
            tree: 4 * marked.room as u32,
            allowance: marked.allowance,
        });
    }
    for (_, image, _) in marked_checks() {
        cases.push(Case::Check {
            image: Rc::new(image),
        });
    }
    let failing = FAILING
        .iter()
        .map(|replaced| image_with(SMALL_PACK, replaced));
    let ways = WAYS_BACK
        .iter()
        .map(|replaced| image_with(NESTED_PACK, replaced));
    cases.extend(failing.chain(ways).map(|image| Case::Check {
        image: Rc::new(image),
    }));
    let small: Image = Rc::new(small_image());
    let (query, _, records) = TAX_BY_DAY;
    let day = text(query.as_bytes());
    for tree in [40_000, 16, 15, 12, 0] {
        cases.push(Case::Parse {
            image: small.clone(),
            text: day.clone(),
            tree,
            allowance: u32::MAX,
        });
    }
    for allowance in 0..11 {
        cases.push(Case::Parse {
            image: small.clone(),
            text: day.clone(),
            tree: 16,
            allowance,
        });
    }
    for words in records {
        cases.push(Case::Leaf {
            text: day.clone(),
            words,
        });
    }
    for words in [
        [1, 10, 0, 0],
        [63, 9, 1, 65_535],
        [1, 9, 2, 0],
        [1, 11, 0, 0],
        [0, 1, 1, 0],
        [64, 1, 1, 0],
        [1, 65_535, 65_535, 0],
    ] {
        cases.push(Case::Leaf {
            text: day.clone(),
            words,
        });
    }
    // The examples of source document 000: a keyword where a name is due is code 8, and not a shorter name. Then the
    // least pack, and one with a group.
    for (pack_text, queries) in [
        (FORM_PACK, &["form", "for", "fort", "forms", "fo"][..]),
        (KEYWORD_PACK, &["keyword", "keywords", "keywor"][..]),
        (LEAST_PACK, &["", "a"][..]),
        (GROUP_PACK, &["ab", "aa", "a", "b"][..]),
    ] {
        let image: Image = Rc::new(image_of(pack_text));
        cases.push(Case::Check {
            image: image.clone(),
        });
        for query in queries {
            cases.push(Case::Parse {
                image: image.clone(),
                text: text(query.as_bytes()),
                tree: 40,
                allowance: u32::MAX,
            });
        }
    }
    // Without an equal group, and with the other terminal chosen.
    for group in ["group=000000000000000e,2", "group=0000000000000006,1"] {
        let image: Image = Rc::new(image_with(GROUP_PACK, &[("group=", 0, group)]));
        cases.push(Case::Check {
            image: image.clone(),
        });
        for query in ["ab", "a"] {
            cases.push(Case::Parse {
                image: image.clone(),
                text: text(query.as_bytes()),
                tree: 40,
                allowance: u32::MAX,
            });
        }
    }
    // Request No. 2: layout and tokens that begin alike. Each pack, and what is made of it.
    let operators = [&[][..], COMMENT_TO_THE_END];
    let operators = operators.into_iter().chain(OPERATOR_OR_COMMENT);
    for replaced in operators.chain(BLANK_OR_COMMENT) {
        let image: Image = Rc::new(image_with(OPERATOR_PACK, replaced));
        let queries = [
            "a//=a",
            " a //= // a",
            "a//a",
            "//=a",
            "a//=a//=",
            "a/",
            "a//= a",
            "a// a",
            "a//",
            "// a// // a",
            "a //",
            " ",
            "  a  ",
        ];
        together(&image, &queries, &[], &mut cases);
    }
    let reduced: Image = Rc::new(image_of(REDUCED_PACK));
    together(
        &reduced,
        &["a//=", "a//a", "a//"],
        &[0, 1, 3, 4, 6, 7],
        &mut cases,
    );
    let circle: Image = Rc::new(image_of(CIRCLE_PACK));
    together(&circle, &["a", "ab", "aba"], &[0, 1, 2, 3], &mut cases);
    let queries = ["  tax", "tax ", "tax day", " tax  by day "];
    together(&small, &queries, &[0, 1, 2, 3, 4, 5, 6, 7], &mut cases);
    // The small pack with an accept in each row.
    for (row, accept) in [
        (0, "act=1,0,4,0"),
        (1, "act=1,6,0,0"),
        (2, "act=1,0,8,0"),
        (3, "act=1,0,0,0"),
    ] {
        let image: Image = Rc::new(image_with(SMALL_PACK, &[("act=", row, accept)]));
        cases.push(Case::Check {
            image: image.clone(),
        });
        for query in ["", "tax", "tax by ", "tax by day"] {
            cases.push(Case::Parse {
                image: image.clone(),
                text: text(query.as_bytes()),
                tree: 40,
                allowance: u32::MAX,
            });
        }
    }
    // The stack of 512 states about to be full: by a shift, by the empty production, with and without its goto, and by
    // a production of one symbol, which makes room for itself.
    for replaced in [
        &[][..],
        &[("goto=", 1, "goto=0")],
        &[("act=", 1, "act=5,4")],
    ] {
        let image: Image = Rc::new(image_with(DEEP_PACK, replaced));
        for length in [511, 512] {
            let text = Rc::new(vec![b'a'; length]);
            for records in [510, 511, 512, 600] {
                cases.push(Case::Parse {
                    image: image.clone(),
                    text: text.clone(),
                    tree: 4 * records,
                    allowance: u32::MAX,
                });
            }
        }
    }
    // The same by tables that accept, so that the stack falls again.
    for replaced in [&[][..], &NESTED_EMPTY] {
        let image: Image = Rc::new(image_with(NESTED_PACK, replaced));
        cases.push(Case::Check {
            image: image.clone(),
        });
        for length in 509..513 {
            cases.push(Case::Parse {
                image: image.clone(),
                text: Rc::new(vec![b'a'; length]),
                tree: 4_200,
                allowance: u32::MAX,
            });
        }
    }
    // Queries of 65,535 and 65,536 bytes.
    for length in [TEXT_LIMIT, TEXT_LIMIT + 1] {
        let text = Rc::new(vec![b'a'; length]);
        for (tree, allowance) in [(40, u32::MAX), (40, 65_535), (40, 65_534), (0, 65_535)] {
            cases.push(Case::Parse {
                image: small.clone(),
                text: text.clone(),
                tree,
                allowance,
            });
        }
        for words in [
            [2, 0, 65_535, 0],
            [2, 65_535, 0, 0],
            [2, 65_535, 1, 0],
            [2, 65_535, 2, 0],
        ] {
            cases.push(Case::Leaf {
                text: text.clone(),
                words,
            });
        }
    }
    cases.extend(mix.greatest_bundle());
    cases
}

/// The check of an image, and its parses of the queries with ample allowance and with each of these.
fn together(image: &Image, queries: &[&str], allowances: &[u32], cases: &mut Vec<Case>) {
    cases.push(Case::Check {
        image: image.clone(),
    });
    for query in queries {
        let text = text(query.as_bytes());
        for &allowance in [u32::MAX].iter().chain(allowances) {
            cases.push(Case::Parse {
                image: image.clone(),
                text: text.clone(),
                tree: 40,
                allowance,
            });
        }
    }
}

/// A chain of so many nodes of one child each, with a leaf at its end or without.
fn chain(nodes: usize, leaf: bool) -> Vec<u16> {
    let mut words = if leaf { vec![2, 0, 3, 0] } else { Vec::new() };
    for node in 0..nodes {
        let children = u16::from(leaf || node > 0);
        words.extend([64, node as u16, children, 0]);
    }
    words
}

fn print_cases() -> Vec<Case> {
    let (query, _, records) = TAX_BY_DAY;
    let day = text(query.as_bytes());
    let mut cases = Vec::new();
    let mut prints = |text: &Text, tree: Vec<u16>, rooms: &[u32]| {
        let tree: Image = Rc::new(tree);
        cases.extend(rooms.iter().map(|&room| Case::Print {
            text: text.clone(),
            tree: tree.clone(),
            room,
        }));
    };
    // `(1 2:[tax] 1:[by] 2:[day])` has 26 bytes.
    prints(&day, records.concat(), &[26, 27, 100, 25, 1, 0]);
    // Its words cut short everywhere, and more of them.
    for words in 0..16 {
        prints(&day, records.concat()[..words].to_vec(), &[40]);
    }
    for more in [&[0][..], &[0; 4], &[1, 0, 3, 0], &[64, 0, 0, 0]] {
        prints(&day, [&records.concat(), more].concat(), &[40, 0]);
    }
    prints(
        &day,
        [&records.concat()[..], &[64, 0, 1, 0]].concat(),
        &[40],
    );
    // Its count of children changed, and each first word.
    for count in [0, 2, 4, 65_535] {
        let mut tree = records.concat();
        tree[14] = count;
        prints(&day, tree, &[40]);
    }
    for record in 0..4 {
        for first in [0, 1, 63, 64, 65_535] {
            let mut tree = records.concat();
            tree[4 * record] = first;
            prints(&day, tree, &[40]);
        }
    }
    // Leaves and nodes by themselves, the bytes that are escaped, leaves that are not within the text.
    let escaped = text(b"[]\\a\\]");
    for leaf in [
        [1, 0, 6, 0],
        [63, 0, 1, 9],
        [9, 1, 1, 0],
        [10, 2, 1, 0],
        [10, 3, 1, 0],
        [1, 6, 0, 0],
        [1, 4, 2, 0],
        [1, 4, 3, 0],
        [1, 7, 0, 0],
        [1, 65_535, 65_535, 0],
        [0, 0, 1, 0],
    ] {
        prints(&escaped, leaf.to_vec(), &[20]);
    }
    for production in [0, 9, 10, 99, 100, 999, 1_000, 9_999, 10_000, 65_535] {
        prints(&escaped, vec![65_535, production, 0, 7], &[7]);
    }
    prints(&text(b""), vec![1, 0, 0, 0], &[4, 3]);
    // Chains about the limit, whole and with one leaf more behind, which comes before it.
    for nodes in [256, 257] {
        prints(&day, chain(nodes, false), &[2_000, 10]);
        prints(&day, chain(nodes, true), &[2_000, 10]);
    }
    prints(
        &day,
        [chain(257, true), vec![1, 0, 1, 0]].concat(),
        &[2_000],
    );
    // The deepest way is not the last one.
    let wide = [chain(255, true), vec![2, 7, 3, 0], vec![64, 1, 2, 0]].concat();
    prints(&day, wide.clone(), &[2_000]);
    prints(&day, [wide, vec![64, 2, 1, 0]].concat(), &[2_000]);
    cases
}
