//! The limits: texts of 65,535 and 65,536 bytes, tree rooms, allowances, and the stack of 512 states.

use second::cases::{byte_pattern, word_pattern};
use second::check::check;
use second::gen::tables::{nonterminal, Production, ScanSets, Tables};
use second::gen::wide::with_text_length;
use second::image::{Action, Pack, Range, Sizes};
use second::leaf::{leaf, part};
use second::marked::{image_of, small_image, LEAST_PACK};
use second::parse::{parse, Parsed};
use second::scan::{scan, Scanned};
use second::shape::shape;
use second::text::{read, text_of, write, Written};

const SHIFT_1: u16 = 4;
const REDUCE_0: u16 = 3;
const REDUCE_1: u16 = 5;

/// Terminal 1 is `a`; state 0 and state 1 shift it to state 1; nothing else.
fn letters(states: usize, productions: usize) -> Tables {
    let words = [2, 1, productions as u16, states as u16, 2, 2, 1, 0];
    let mut tables = Tables::blank(Sizes::from_words(&words));
    tables.ranges[0] = Range {
        lo: 97,
        hi: 97,
        class: 1,
    };
    tables.moves[0][1] = 2;
    tables.scan[0].poss = 2;
    tables.scan[1] = ScanSets {
        acc: 2,
        rej: 0,
        poss: 2,
    };
    tables.act[0][1] = SHIFT_1;
    tables.act[1][1] = SHIFT_1;
    tables
}

/// Parses with room for so many records; the rest of the tree stays untouched.
fn parsed(tables: &Tables, text: &[u8], room: usize) -> Parsed {
    let mut tree = word_pattern(4 * room as u32 + 3);
    let before = tree.clone();
    let parsed = parse(&tables.image(), text, &mut tree, u32::MAX);
    let written = 4 * parsed.records as usize;
    assert!(tree[written..] == before[written..], "rest of the tree");
    parsed
}

fn brief(parsed: Parsed) -> (u32, u32, u32) {
    assert_eq!((parsed.length, parsed.terminal), (0, 0));
    (parsed.code, parsed.place, parsed.records)
}

#[test]
fn the_stack_of_512_is_reached_by_shift() {
    let tables = letters(2, 1);
    let a = vec![b'a'; 600];
    // 511 shifts fit; then the end of the text is not valid: code 8.
    assert_eq!(brief(parsed(&tables, &a[..511], 600)), (8, 511, 511));
    assert_eq!(brief(parsed(&tables, &a[..512], 600)), (12, 511, 511));
    assert_eq!(brief(parsed(&tables, &a, 600)), (12, 511, 511));
    // Tree room and stack used up by one shift: 11 comes first.
    assert_eq!(brief(parsed(&tables, &a, 511)), (11, 511, 511));
    assert_eq!(brief(parsed(&tables, &a, 510)), (11, 510, 510));
}

#[test]
fn the_stack_of_512_is_reached_by_an_empty_production() {
    // State 0 reduces by the empty production and goes to state 1, which does so again.
    let mut tables = letters(2, 1);
    tables.act = vec![vec![REDUCE_0, 0]; 2];
    tables.goto = vec![vec![2], vec![2]];
    assert_eq!(brief(parsed(&tables, b"", 600)), (12, 0, 511));
    assert_eq!(brief(parsed(&tables, b"", 512)), (12, 0, 511));
    assert_eq!(brief(parsed(&tables, b"", 511)), (11, 0, 511));
    // Without a goto in state 1 the second reduction is stuck, whatever the room.
    tables.goto[1][0] = 0;
    assert_eq!(brief(parsed(&tables, b"", 600)), (10, 0, 1));
    assert_eq!(brief(parsed(&tables, b"", 1)), (10, 0, 1));
}

#[test]
fn at_a_full_stack_stuck_comes_first_then_room_then_stack() {
    let a = vec![b'a'; 511];
    // At the end of the text the stack is full and state 1 reduces by the empty production.
    let mut tables = letters(3, 1);
    tables.act[1][0] = REDUCE_0;
    assert_eq!(brief(parsed(&tables, &a, 511)), (10, 511, 511));
    assert_eq!(brief(parsed(&tables, &a, 600)), (10, 511, 511));
    tables.goto[1][0] = 3;
    assert_eq!(brief(parsed(&tables, &a, 511)), (11, 511, 511));
    assert_eq!(brief(parsed(&tables, &a, 512)), (12, 511, 511));
    // One symbol dropped makes room for the push: state 2 then refuses the end of the text.
    tables.productions[0].symbols = vec![1];
    assert_eq!(brief(parsed(&tables, &a, 511)), (11, 511, 511));
    assert_eq!(brief(parsed(&tables, &a, 512)), (8, 511, 512));
}

/// `a` becomes S by production 0, and S becomes S by production 1 for ever.
fn endless() -> Tables {
    let mut tables = letters(3, 2);
    tables.productions = vec![
        Production {
            lhs: 0,
            symbols: vec![1],
        },
        Production {
            lhs: 0,
            symbols: vec![nonterminal(0)],
        },
    ];
    tables.act = vec![vec![0, SHIFT_1], vec![REDUCE_0, 0], vec![REDUCE_1, 0]];
    tables.goto[0][0] = 3;
    tables
}

#[test]
fn tree_rooms_of_0_1_and_65_535_records() {
    let tables = endless();
    assert_eq!(check(&tables.image()).code, 0);
    assert_eq!(brief(parsed(&tables, b"a", 0)), (11, 0, 0));
    assert_eq!(brief(parsed(&tables, b"a", 1)), (11, 1, 1));
    assert_eq!(brief(parsed(&tables, b"a", 65_534)), (11, 1, 65_534));
    assert_eq!(brief(parsed(&tables, b"a", 65_535)), (11, 1, 65_535));
    // A larger tree counts as 65,535 records.
    assert_eq!(brief(parsed(&tables, b"a", 65_536)), (11, 1, 65_535));
    assert_eq!(brief(parsed(&tables, b"a", 70_000)), (11, 1, 65_535));
    // Less than a whole record is no room.
    for words in 0..4 {
        let mut tree = word_pattern(words);
        let parsed = parse(&tables.image(), b"a", &mut tree, u32::MAX);
        assert_eq!(brief(parsed), (11, 0, 0));
        assert_eq!(tree, word_pattern(words));
    }
}

#[test]
fn queries_of_65_535_and_65_536_bytes() {
    let image = small_image();
    let text = vec![b'a'; 65_536];
    let mut tree = word_pattern(40);
    let before = tree.clone();
    let refused = Parsed {
        code: 6,
        ..Parsed::default()
    };
    assert_eq!(parse(&image, &text, &mut tree, u32::MAX), refused);
    assert_eq!(tree, before);
    // A name of all the text.
    let done = Parsed {
        code: 0,
        place: 65_535,
        records: 2,
        moves: 65_535,
        ..Parsed::default()
    };
    assert_eq!(parse(&image, &text[1..], &mut tree, 65_535), done);
    assert_eq!(tree[..8], [2, 0, 65_535, 0, 64, 0, 1, 0]);
    assert_eq!(tree[8..], before[8..]);
    let short = Parsed {
        code: 13,
        moves: 65_534,
        ..Parsed::default()
    };
    assert_eq!(parse(&image, &text[1..], &mut tree, 65_534), short);

    let refused = Scanned {
        code: 6,
        ..Scanned::default()
    };
    assert_eq!(scan(&image, &text, 0, 4, u32::MAX), refused);
    let done = Scanned {
        code: 0,
        place: 0,
        set: 4,
        length: 65_535,
        moves: 65_535,
    };
    assert_eq!(scan(&image, &text[1..], 0, 4, 65_535), done);
}

#[test]
fn pack_texts_of_65_535_and_65_536_bytes() {
    for length in [65_534, 65_535] {
        let image = with_text_length(length);
        assert_eq!((shape(&image).code, image.len()), (0, 20_589));
        let mut bytes = byte_pattern(65_600);
        let done = Written {
            code: 0,
            number: length as u32,
        };
        assert_eq!(write(&image, &mut bytes), done);
        assert!(bytes[length..] == byte_pattern(65_600)[length..]);
        let mut room = word_pattern(20_700);
        let done = Written {
            code: 0,
            number: 20_589,
        };
        assert_eq!(read(&bytes[..length], &mut room), done);
        assert!(room[..20_589] == image);
        assert!(room[20_589..] == word_pattern(20_700)[20_589..]);
    }
    // One byte more: the writer and the reader both give 2, and touch nothing, whatever the room.
    let image = with_text_length(65_536);
    let text = text_of(&Pack::new(&image));
    assert_eq!((shape(&image).code, text.len()), (0, 65_536));
    let long = Written { code: 2, number: 0 };
    for room in [0, 100, 65_600] {
        let mut bytes = byte_pattern(room);
        assert_eq!(write(&image, &mut bytes), long);
        assert_eq!(bytes, byte_pattern(room));
    }
    for room in [0, 20_589, 20_700] {
        let mut words = word_pattern(room);
        assert_eq!(read(&text, &mut words), long);
        assert_eq!(words, word_pattern(room));
    }
}

#[test]
fn the_least_pack_accepts_the_empty_text() {
    let image = image_of(LEAST_PACK);
    assert_eq!((image.len(), check(&image).code), (50, 0));
    let mut tree = word_pattern(7);
    let done = Parsed {
        code: 0,
        records: 1,
        ..Parsed::default()
    };
    assert_eq!(parse(&image, b"", &mut tree, 0), done);
    assert_eq!(tree[..4], [64, 0, 0, 0]);
    assert_eq!(tree[4..], word_pattern(7)[4..]);
    let refused = Parsed {
        code: 7,
        ..Parsed::default()
    };
    assert_eq!(parse(&image, b"a", &mut tree, 0), refused);
}

#[test]
fn allowances_of_0_and_4_294_967_295() {
    let image = small_image();
    let parsed = |text: &[u8], allowance| {
        let mut tree = [0; 400];
        let p = parse(&image, text, &mut tree, allowance);
        (p.code, p.place, p.records, p.moves)
    };
    assert_eq!(parsed(b"tax", 0), (13, 0, 0, 0));
    assert_eq!(parsed(b"tax by day", u32::MAX), (0, 10, 4, 10));
    // No move would be taken: the empty text, and a byte without a move.
    assert_eq!(parsed(b"", 0), (8, 0, 0, 0));
    assert_eq!(parsed(b"7", 0), (7, 0, 0, 0));
    let scanned = |text: &[u8], set, allowance| {
        let s = scan(&image, text, 0, set, allowance);
        (s.code, s.set, s.length, s.moves)
    };
    assert_eq!(scanned(b"tax", 4, 0), (13, 0, 0, 0));
    assert_eq!(scanned(b"tax", 0, 0), (0, 0, 0, 0));
    assert_eq!(scanned(b"tax", 1, 0), (0, 0, 0, 0));
    assert_eq!(scanned(b"7", 4, 0), (0, 0, 0, 0));
    assert_eq!(scanned(b"tax", 4, u32::MAX), (0, 4, 3, 3));
    // Bits from T up and bit 0 are dropped.
    assert_eq!(scanned(b"tax", u64::MAX, 3), (0, 4, 3, 3));
    assert_eq!(scanned(b"tax", !0xf | 1, 0), (0, 0, 0, 0));
}

/// Tables that write 65,535 nodes before the first byte, and then are in a state that allows nothing. The stack counts:
/// a state of level k pushes one of level k - 1, which is replaced by a second one when it is done; when that is done too,
/// both are dropped. So level 0 writes 1 node, level k twice as many as k - 1 and 3 more, and level 14 writes 65,533.
fn counting() -> Tables {
    const TOP: usize = 14;
    let [push, first_done, next, second_done] = [0, 1, 2, 3].map(nonterminal);
    let mut tables = letters(36, 6);
    // Terminal 2 is layout, and may match for ever but never does.
    tables.dom.push(0);
    tables.layout = 4;
    tables.moves[1][1] = 2;
    tables.scan[0].poss = 6;
    tables.scan[1].poss = 6;
    tables.nonterminals = 4;
    for (p, (lhs, len)) in [
        (push, 0),
        (first_done, 1),
        (next, 1),
        (second_done, 1),
        (first_done, 2),
        (second_done, 2),
    ]
    .into_iter()
    .enumerate()
    {
        tables.productions[p].lhs = lhs - 64;
        tables.productions[p].symbols = vec![1; len];
    }
    let states = tables.act.len();
    tables.act = vec![vec![0; 3]; states];
    tables.goto = vec![vec![0; 4]; states];
    let first = |level: usize| 1 + level;
    let second = |level: usize| 1 + TOP + 1 + level;
    let [done, of_first, of_second, all_done, nothing] = [31, 32, 33, 34, 35];
    let mut reduce = |s: usize, p: u16| tables.act[s][1] = 3 + 2 * p;
    reduce(0, 0);
    for level in 1..=TOP {
        reduce(first(level), 0);
        reduce(second(level), 0);
    }
    reduce(first(0), 1);
    reduce(second(0), 3);
    reduce(done, 2);
    reduce(of_first, 4);
    reduce(of_second, 5);
    reduce(all_done, 2);
    let mut goto = |s: usize, symbol: u16, to: usize| {
        tables.goto[s][usize::from(symbol - 64)] = 1 + to as u16;
    };
    goto(0, push, first(TOP));
    goto(0, first_done, all_done);
    goto(0, next, nothing);
    for level in 1..=TOP {
        for (s, ends) in [(first(level), of_first), (second(level), of_second)] {
            goto(s, push, first(level - 1));
            goto(s, first_done, done);
            goto(s, next, second(level - 1));
            goto(s, second_done, ends);
        }
    }
    tables
}

/// 65,535 bytes read by 65,537 scans: one for each of 65,535 records, one in vain, and the second scan. That is the
/// greatest allowance to the move. (About four thousand million moves, so it is run by
/// `cargo test --release -- --ignored`.)
#[test]
#[ignore = "takes about 45 seconds"]
fn the_greatest_allowance_is_used_to_the_last_move() {
    let parsed = parsed(&counting(), &vec![b'a'; 65_535], 65_535);
    assert_eq!((parsed.code, parsed.records), (8, 65_535));
    assert_eq!((parsed.length, parsed.moves), (65_535, u32::MAX));
}

/// The same, but layout is the first byte of what is left, and a scan for it reads on to the end. The last state skips
/// it byte by byte: the greatest allowance is used up by the third of these scans.
#[test]
#[ignore = "takes about 45 seconds"]
fn the_greatest_allowance_is_used_up() {
    let parsed = parsed(&counting_then_layout(), &vec![b'a'; 65_535], 65_535);
    assert_eq!(brief(parsed), (13, 2, 65_535));
    assert_eq!(parsed.moves, u32::MAX);
}

fn counting_then_layout() -> Tables {
    let mut tables = counting();
    tables.moves.push(tables.moves[1].clone());
    tables.moves[1][1] = 3;
    tables.moves[2][1] = 3;
    tables.scan.push(tables.scan[1]);
    tables.scan[1].acc = 6;
    tables
}

#[test]
fn layout_is_skipped_behind_many_reductions() {
    let parsed = parsed(&counting_then_layout(), b"aaa", 65_535);
    // 3 moves for each record, then 3, 2 and 1; the last state does not allow the end.
    assert_eq!(brief(parsed), (8, 3, 65_535));
    assert_eq!(parsed.moves, 3 * 65_535 + 6);
}

#[test]
fn every_scan_of_every_record_is_counted() {
    let parsed = parsed(&counting(), b"aa", 65_535);
    assert_eq!((parsed.code, parsed.records), (8, 65_535));
    assert_eq!((parsed.length, parsed.moves), (2, 2 * 65_537));
}

#[test]
fn each_allowance_up_to_the_need_is_used_up_by_itself() {
    let image = small_image();
    // The scans of `tax by day`, with the move count before each: its place is given with 13.
    let scans = [(0, 0), (3, 3), (4, 4), (6, 6), (7, 7), (10, 10)];
    for allowance in 0..10 {
        let mut tree = [0; 16];
        let parsed = parse(&image, b"tax by day", &mut tree, allowance);
        assert_eq!((parsed.code, parsed.moves), (13, allowance));
        let began: Vec<u32> = scans
            .windows(2)
            .filter(|pair| pair[0].0 <= allowance && allowance < pair[1].0)
            .map(|pair| pair[0].1)
            .collect();
        assert_eq!(vec![parsed.place], began, "allowance {allowance}");
    }
}

#[test]
fn a_start_past_the_text_counts_as_its_end() {
    let image = small_image();
    for start in [3, 4, 65_535, 65_536, usize::MAX] {
        let done = Scanned {
            code: 0,
            place: 3,
            ..Scanned::default()
        };
        assert_eq!(scan(&image, b"tax", start, 4, 9), done);
    }
}

#[test]
fn a_leafs_bytes_for_any_words() {
    let text = vec![7; 70_000];
    assert_eq!(part(&text, [1, 65_535, 4_465, 0]), (65_535, 4_465));
    assert_eq!(part(&text, [1, 65_535, 4_466, 0]), (0, 0));
    assert_eq!(part(&text, [63, 65_535, 4_000, 9]), (65_535, 4_000));
    assert_eq!(part(&text, [64, 1, 1, 0]), (0, 0));
    assert_eq!(part(&text, [0, 1, 1, 0]), (0, 0));
    assert_eq!(part(&text, [65_535, 1, 1, 0]), (0, 0));
    assert_eq!(part(&text[..10], [1, 10, 0, 0]), (10, 0));
    assert_eq!(part(&text[..10], [1, 10, 1, 0]), (0, 0));
    assert_eq!(part(&text[..10], [1, 11, 0, 0]), (0, 0));
    assert_eq!(part(&text[..10], [1, 65_535, 65_535, 0]), (0, 0));
    assert_eq!(leaf(b"", [1, 0, 0, 0]), b"");
}

#[test]
fn action_codes_and_actions_give_back_each_other() {
    for code in 0..=u16::MAX {
        assert_eq!(Action::from_code(code).code(), code);
    }
}
