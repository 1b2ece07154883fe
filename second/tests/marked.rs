//! The twelve marked cases, `tax by day`, the small image and its round trips, and the examples of reject sets.

use second::cases::{byte_pattern, word_pattern};
use second::check::check;
use second::leaf::{leaf, part};
use second::marked::*;
use second::parse::{parse, Parsed};
use second::readq::readq;
use second::scan::{scan, Scanned};
use second::shape::{shape, Shaped};
use second::text::{read, write, Written};

fn numbers(parsed: Parsed) -> [u32; 6] {
    [
        parsed.code,
        parsed.place,
        parsed.length,
        parsed.terminal,
        parsed.records,
        parsed.moves,
    ]
}

#[test]
fn the_twelve_marked_cases_give_their_numbers() {
    let mut seen = Vec::new();
    for marked in marked_parses() {
        let mut tree = word_pattern(4 * marked.room as u32);
        let before = tree.clone();
        let parsed = parse(
            &marked.image,
            marked.query.as_bytes(),
            &mut tree,
            marked.allowance,
        );
        assert_eq!(numbers(parsed), marked.answer, "case {}", marked.number);
        let written = 4 * parsed.records as usize;
        assert_eq!(tree[written..], before[written..], "rest of the tree");
        seen.push(marked.number);
    }
    seen.dedup();
    assert_eq!(seen, (1..=12).collect::<Vec<_>>());
}

#[test]
fn the_small_pack_passes_and_cases_11_and_12_fail_their_checks() {
    for (number, image, answer) in marked_checks() {
        let checked = check(&image);
        let [a, b, c] = checked.numbers;
        assert_eq!([checked.code, a, b, c], answer, "case {number}");
    }
}

#[test]
fn tax_by_day_has_its_four_records() {
    let (query, answer, records) = TAX_BY_DAY;
    let mut tree = word_pattern(100);
    let before = tree.clone();
    let parsed = parse(&small_image(), query.as_bytes(), &mut tree, u32::MAX);
    assert_eq!(numbers(parsed), answer);
    assert_eq!(tree[..16], records.concat());
    assert_eq!(tree[16..], before[16..]);
    let leaves: Vec<&[u8]> = records[..3]
        .iter()
        .map(|&record| leaf(query.as_bytes(), record))
        .collect();
    assert_eq!(leaves, [&b"tax"[..], b"by", b"day"]);
    assert_eq!(part(query.as_bytes(), records[3]), (0, 0));
}

#[test]
fn readq_prints_tax_by_day_and_refused_texts() {
    let printed = readq(SMALL_PACK.as_bytes(), b"tax by day");
    let expected = "code=0\nplace=10\nlength=0\nterminal=0\nrecords=4\nmoves=10\n\
        rec=2,0,3,0\nrec=1,4,2,1\nrec=2,7,3,2\nrec=64,1,3,0\n";
    assert_eq!(printed, expected);
    assert_eq!(readq(b"", b"tax"), "code=1\nplace=0\n");
    assert_eq!(
        readq(SMALL_PACK.as_bytes(), b"tax day"),
        "code=8\nplace=4\nlength=3\nterminal=2\nrecords=1\nmoves=8\nrec=2,0,3,0\n"
    );
    assert_eq!(
        readq(SMALL_PACK.as_bytes(), &vec![b'a'; 65_536]),
        "code=6\nplace=0\nlength=0\nterminal=0\nrecords=0\nmoves=0\n"
    );
    assert_eq!(readq(b"", &vec![b'a'; 65_536]), "code=1\nplace=0\n");
}

#[test]
fn the_small_image_has_189_words() {
    // Written out by hand from document 01, word by word.
    let set = |low: u16| [low, 0, 0, 0];
    let mut words = vec![1, 4, 1, 2, 5, 5, 5, 6, 0];
    words.extend(set(8));
    for dom in [0, 0, 2, 0] {
        words.extend(set(dom));
    }
    words.extend([0, 1, 2, 0, 0, 0, 0, 0, 0, 0, 0, 0, 0, 0, 0, 0]);
    words.extend([0, 3, 2, 1, 2, 0, 0, 0, 0, 0, 0, 0, 0, 0, 0, 0]);
    words.extend([0, 0, 4, 0, 3, 6, 0, 0, 0, 0, 8, 0, 5, 0, 0, 0, 1, 0, 0, 0]);
    words.extend([5, 0, 0, 0, 0]);
    words.extend([32, 32, 4, 97, 97, 3, 98, 98, 1]);
    words.extend([99, 120, 3, 121, 121, 2, 122, 122, 3]);
    words.extend([0, 2, 4, 4, 5, 0, 4, 3, 4, 0, 0, 4, 4, 4, 0]);
    words.extend([0, 4, 4, 4, 0, 0, 0, 0, 0, 5]);
    for scan in [[0, 0, 14], [4, 0, 6], [2, 4, 6], [4, 0, 4], [8, 0, 8]] {
        for low in scan {
            words.extend(set(low));
        }
    }
    assert_eq!(words.len(), 189);
    assert_eq!(small_image(), words);
    assert_eq!(shape(&words), Shaped { code: 0, place: 0 });
}

#[test]
fn the_small_packs_text_and_image_give_back_each_other() {
    let text = SMALL_PACK.as_bytes();
    let mut room = word_pattern(200);
    let before = room.clone();
    let done = Written {
        code: 0,
        number: 189,
    };
    assert_eq!(read(text, &mut room), done);
    assert_eq!(room[..189], small_image());
    assert_eq!(room[189..], before[189..]);
    let mut bytes = byte_pattern(text.len() as u32 + 9);
    let before = bytes.clone();
    let done = Written {
        code: 0,
        number: text.len() as u32,
    };
    assert_eq!(write(&room[..189], &mut bytes), done);
    assert_eq!(&bytes[..text.len()], text);
    assert_eq!(bytes[text.len()..], before[text.len()..]);
}

fn scanned(set: u64, length: u32, moves: u32) -> Scanned {
    Scanned {
        code: 0,
        place: 0,
        set,
        length,
        moves,
    }
}

/// Source document 000, section 5.2.4: `form*` with the valid set {i, k2}.
#[test]
fn the_example_of_operation_gives_form() {
    let image = image_of(FORM_PACK);
    assert_eq!(check(&image).code, 0);
    let scan = |text: &[u8], set| scan(&image, text, 0, set, u32::MAX);
    assert_eq!(scan(b"form*", 0xa), scanned(8, 4, 4));
    assert_eq!(scan(b"for*", 0xa), scanned(0, 0, 3));
    assert_eq!(scan(b"fo*", 0xa), scanned(2, 2, 2));
    assert_eq!(scan(b"fort", 0xa), scanned(2, 4, 4));
    assert_eq!(scan(b"form*", 0x4), scanned(4, 3, 4));
    assert_eq!(scan(b"form", 0x2), scanned(0, 0, 4));
}

/// Source document 000, section 5.2.2: `keyword` with the valid set {i}.
#[test]
fn the_keyword_is_rejected_and_not_cut_short() {
    let image = image_of(KEYWORD_PACK);
    assert_eq!(check(&image).code, 0);
    let scan = |text: &[u8], set| scan(&image, text, 0, set, u32::MAX);
    assert_eq!(scan(b"keyword", 0x4), scanned(0, 0, 7));
    assert_eq!(scan(b"keyword ", 0x4), scanned(0, 0, 7));
    assert_eq!(scan(b"keyword", 0x2), scanned(2, 7, 7));
    assert_eq!(scan(b"keyword", 0x6), scanned(2, 7, 7));
    assert_eq!(scan(b"keywor", 0x4), scanned(4, 6, 6));
    assert_eq!(scan(b"keywords", 0x4), scanned(4, 8, 8));
    let mut tree = [0; 8];
    let parsed = parse(&image, b"keyword", &mut tree, u32::MAX);
    assert_eq!(numbers(parsed), [8, 0, 7, 1, 0, 14]);
}
