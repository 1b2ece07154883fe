//! The printout of a derivation: document 02, No. 1, by hand.

use std::collections::HashMap;

use second::gen::printing;
use second::gen::rng::Rng;
use second::leaf::leaf;
use second::marked::{small_image, TAX_BY_DAY};
use second::numbers::TEXT_LIMIT;
use second::parse::parse;
use second::print::{print, Printed};

const DAY: &[u8] = b"tax by day";

/// What is printed, with ample room.
fn shown(text: &[u8], tree: &[u16]) -> String {
    let mut room = vec![b'~'; 100_000];
    let Printed { code, number } = print(text, tree, &mut room);
    assert_eq!(code, 0);
    let (printed, rest) = room.split_at(number as usize);
    assert!(rest.iter().all(|&byte| byte == b'~'), "the rest is left");
    String::from_utf8(printed.to_vec()).unwrap()
}

/// A refusal, and that it leaves the room.
fn refused(text: &[u8], tree: &[u16], room: usize) -> (u32, u64) {
    let mut lent = vec![b'~'; room];
    let Printed { code, number } = print(text, tree, &mut lent);
    assert_ne!(code, 0);
    assert!(lent.iter().all(|&byte| byte == b'~'), "the room is left");
    (code, number)
}

/// Nodes of one child each, from the lowest up, above what the words are.
fn under(nodes: usize, words: &[u16]) -> Vec<u16> {
    let mut tree = words.to_vec();
    (0..nodes).for_each(|_| tree.extend([64, 7, 1, 0]));
    tree
}

const LEAF: [u16; 4] = [2, 0, 3, 0];

#[test]
fn an_accepted_query() {
    let (query, _, records) = TAX_BY_DAY;
    let mut tree = [0; 16];
    assert_eq!(
        parse(&small_image(), query.as_bytes(), &mut tree, u32::MAX).code,
        0
    );
    assert_eq!(tree[..], records.concat());
    assert_eq!(shown(query.as_bytes(), &tree), "(1 2:[tax] 1:[by] 2:[day])");
}

#[test]
fn one_leaf_and_one_node() {
    assert_eq!(shown(DAY, &LEAF), "2:[tax]");
    assert_eq!(shown(DAY, &[63, 4, 2, 65_535]), "63:[by]");
    assert_eq!(shown(DAY, &[64, 0, 0, 0]), "(0)");
    // The node's own first word is not printed, and no pack is asked.
    assert_eq!(shown(DAY, &[65_535, 65_535, 0, 0]), "(65535)");
    assert_eq!(shown(b"", &[1, 0, 0, 0]), "1:[]");
}

#[test]
fn children_stand_in_their_order() {
    let tree = [
        [1, 0, 1, 0],
        [2, 1, 1, 0],
        [64, 5, 0, 0],
        [65, 6, 2, 0],
        [3, 2, 1, 0],
        [66, 7, 3, 0],
    ];
    assert_eq!(
        shown(b"abc", &tree.concat()),
        "(7 1:[a] (6 2:[b] (5)) 3:[c])"
    );
}

#[test]
fn brackets_and_backslashes_are_escaped_and_nothing_else_is() {
    let text = b"a[b]c\\()\n";
    assert_eq!(shown(text, &[1, 0, 9, 0]), "1:[a\\[b\\]c\\\\()\n]");
    assert_eq!(shown(text, &[1, 1, 1, 0]), "1:[\\[]");
    assert_eq!(shown(text, &[1, 3, 1, 0]), "1:[\\]]");
    assert_eq!(shown(text, &[1, 5, 1, 0]), "1:[\\\\]");
}

#[test]
fn a_leaf_that_is_not_within_the_text_is_empty() {
    assert_eq!(shown(DAY, &[1, 9, 4, 0]), "1:[]");
    assert_eq!(shown(DAY, &[1, 9, 1, 0]), "1:[y]");
    assert_eq!(shown(DAY, &[1, 9, 2, 0]), "1:[]");
    assert_eq!(shown(DAY, &[1, 65_535, 65_535, 0]), "1:[]");
}

#[test]
fn what_is_not_one_whole_tree() {
    let two = [LEAF, LEAF].concat();
    let short = [LEAF, [64, 0, 2, 0]].concat();
    let over = [LEAF, LEAF, [64, 0, 1, 0]].concat();
    let inside = [[64, 0, 1, 0], [64, 0, 1, 0]].concat();
    let zero = [[0, 0, 3, 0], [64, 0, 1, 0]].concat();
    for tree in [
        &[][..],
        &LEAF[..1],
        &LEAF[..3],
        &[2, 0, 3, 0, 0],
        &[2, 0, 3, 0, 2, 0, 3],
        &two,
        &short,
        &over,
        &inside,
        &zero,
        &[0, 0, 0, 0],
        &[64, 0, 65_535, 0],
    ] {
        for room in [0, 1, 100] {
            assert_eq!(refused(DAY, tree, room), (14, 0), "{tree:?}");
        }
    }
}

#[test]
fn at_most_256_nodes_on_one_way_down() {
    let open = "(7 ".repeat(256);
    let close = ")".repeat(256);
    // The leaf under them is no node.
    assert_eq!(
        shown(DAY, &under(256, &LEAF)),
        format!("{open}2:[tax]{close}")
    );
    assert_eq!(refused(DAY, &under(257, &LEAF), 10_000), (15, 0));
    // A node without children is one.
    let (open, close) = ("(7 ".repeat(255), ")".repeat(255));
    assert_eq!(
        shown(DAY, &under(255, &[64, 0, 0, 0])),
        format!("{open}(0){close}")
    );
    assert_eq!(refused(DAY, &under(256, &[64, 0, 0, 0]), 10_000), (15, 0));
    assert_eq!(refused(DAY, &under(65_534, &LEAF), 10_000), (15, 0));
    // The deepest way is not the last one.
    let beside = [under(255, &LEAF), LEAF.to_vec(), vec![64, 1, 2, 0]].concat();
    assert!(shown(DAY, &beside).ends_with(") 2:[tax])"));
    let more = [under(256, &LEAF), LEAF.to_vec(), vec![64, 1, 2, 0]].concat();
    assert_eq!(refused(DAY, &more, 10_000), (15, 0));
    // Many nodes, none of them deep.
    let flat = [[64, 1, 0, 0].repeat(300), vec![64, 2, 300, 0]].concat();
    assert_eq!(shown(DAY, &flat), format!("(2{})", " (1)".repeat(300)));
}

#[test]
fn the_order_of_refusals() {
    let deep = under(257, &LEAF);
    let and_more = [&deep[..], &LEAF].concat();
    assert_eq!(refused(DAY, &and_more, 0), (14, 0));
    assert_eq!(refused(DAY, &[&deep[..], &[0]].concat(), 0), (14, 0));
    let mut zero = deep.clone();
    zero[0] = 0;
    assert_eq!(refused(DAY, &zero, 0), (14, 0));
    assert_eq!(refused(DAY, &deep, 0), (15, 0));
}

#[test]
fn the_room_and_the_size() {
    let tree = under(1, &LEAF);
    for room in 0..11 {
        assert_eq!(refused(DAY, &tree, room), (3, 11), "room {room}");
    }
    let mut room = *b"~~~~~~~~~~~~~";
    let done = Printed {
        code: 0,
        number: 11,
    };
    assert_eq!(print(DAY, &tree, &mut room[..11]), done);
    assert_eq!(&room, b"(7 2:[tax])~~");
    assert_eq!(print(DAY, &tree, &mut room), done);
    // Code 3 is for a tree that is one, whatever its first record is.
    assert_eq!(refused(DAY, &[64, 100, 0, 0], 4), (3, 5));
}

#[test]
fn a_size_over_32_bits_is_given_in_full() {
    let text = vec![b'['; TEXT_LIMIT];
    let mut tree = [1, 0, 65_535, 0].repeat(33_000);
    tree.extend([64, 7, 33_000, 0]);
    assert_eq!(refused(&text, &tree, 10), (3, 4_325_475_003));
}

#[test]
fn long_texts_and_many_records_are_printed() {
    let text = vec![b'a'; TEXT_LIMIT + 1];
    assert_eq!(shown(&text, &[1, 0, 1, 0]), "1:[a]");
    assert_eq!(shown(&text, &[1, 65_535, 1, 0]), "1:[a]");
    let mut room = vec![0; 6 * 65_535 + 3];
    let mut tree = [1, 0, 1, 0].repeat(65_535);
    tree.extend([64, 7, 65_535, 0]);
    let size = room.len() as u64;
    let done = Printed {
        code: 0,
        number: size,
    };
    assert_eq!(print(&text, &tree, &mut room), done);
    assert!(room.starts_with(b"(7 1:[a] 1:[a]") && room.ends_with(b" 1:[a])"));
}

/// What a printout tells apart, record by record: production and count of children, or terminal and bytes.
fn told_apart(text: &[u8], tree: &[u16]) -> Vec<(bool, u16, u16, Vec<u8>)> {
    tree.chunks_exact(4)
        .map(|record| match record[0] {
            1..=63 => {
                let bytes = leaf(text, [record[0], record[1], record[2], record[3]]);
                (true, record[0], 0, bytes.to_vec())
            }
            _ => (false, record[1], record[2], Vec::new()),
        })
        .collect()
}

#[test]
fn trees_that_differ_never_print_alike() {
    let mut rng = Rng::new(13);
    let mut seen: HashMap<Vec<u8>, Vec<(bool, u16, u16, Vec<u8>)>> = HashMap::new();
    let (mut trees, mut again) = (0, 0);
    for _ in 0..300_000 {
        // Few numbers and short texts of the bytes that a printout is made of, so that many are equal.
        let length = rng.below(4);
        let text: Vec<u8> = (0..length).map(|_| *rng.pick(b"[]\\ )(1:")).collect();
        let records = rng.from_to(1, 4);
        let mut tree = printing::tree(&mut rng, length, records);
        for record in tree.chunks_exact_mut(4) {
            match record[0] {
                1..=63 => record[0] = *rng.pick(&[1, 11]),
                _ => record[1] = *rng.pick(&[1, 11]),
            }
        }
        if rng.once_in(4) {
            tree = printing::damaged(&mut rng, &tree);
        }
        let mut room = [0; 300];
        let Printed { code, number } = print(&text, &tree, &mut room);
        if code != 0 {
            continue;
        }
        trees += 1;
        let apart = told_apart(&text, &tree);
        let before = seen.insert(room[..number as usize].to_vec(), apart.clone());
        if let Some(before) = before {
            again += 1;
            assert_eq!(
                before,
                apart,
                "\"{}\"",
                room[..number as usize].escape_ascii()
            );
        }
    }
    // As many different printouts as there are different trees.
    let different: std::collections::HashSet<_> = seen.values().collect();
    assert_eq!(different.len(), seen.len());
    assert!(trees > 200_000 && again > 50_000, "{trees}, {again}");
}
