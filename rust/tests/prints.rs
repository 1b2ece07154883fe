//! Printouts: each refusal to its code, values and words, what lent memory holds, and memory of any size.

use std::fs;

use second::gen::printing;
use second::gen::rng::Rng;
use zhgarelli::{lent, Pack, Refused, Tree};

const DAY: &[u8] = b"tax by day";
const LEAF: [u16; 4] = [2, 0, 3, 0];
const NODE: [u16; 4] = [64, 7, 1, 0];

/// A leaf, and so many nodes of one child each above it.
fn under(nodes: usize) -> Vec<u16> {
    [LEAF.to_vec(), NODE.repeat(nodes)].concat()
}

/// A tree is refused so, lent room and own memory alike, with these values and words; and lent room is left.
fn refused(tree: &[u16], room: usize, code: u32, values: [usize; 3], words: &str) {
    let mut lent = vec![b'~'; room];
    let refused = lent::print(DAY, tree, &mut lent).expect_err("refused");
    assert_eq!((refused.code(), refused.values()), (code, values));
    assert_eq!(refused.to_string(), words);
    assert_eq!((refused.place(), refused.work()), (None, None));
    assert!(lent.iter().all(|&byte| byte == b'~'), "the room is left");
    let whole = tree.chunks_exact(4).remainder().is_empty();
    if code != 3 && whole {
        let own = Tree::of_words(tree).records(DAY).print();
        assert_eq!(own, Err(refused));
    }
}

#[test]
fn what_is_not_one_whole_tree_is_refused_with_14() {
    let words = "the words to print are not one whole tree (code 14)";
    let two = [LEAF, LEAF].concat();
    let few = [LEAF, [64, 0, 2, 0]].concat();
    let many = [LEAF, LEAF, NODE].concat();
    let over = [&LEAF[..], &[0]].concat();
    let no_terminal = [[0, 0, 3, 0], NODE].concat();
    let deep = [under(257), LEAF.to_vec()].concat();
    for tree in [
        &[],
        &LEAF[..3],
        &two,
        &few,
        &many,
        &over,
        &no_terminal,
        &deep,
    ] {
        refused(tree, 9, 14, [0; 3], words);
    }
}

#[test]
fn more_than_256_nodes_on_one_way_down_are_refused_with_15() {
    let words = "the tree to print has more than 256 nodes on one way down (code 15)";
    refused(&under(257), 0, 15, [0; 3], words);
    refused(&under(65_534), 10_000, 15, [0; 3], words);
    let printed = Tree::of_words(under(256)).records(DAY).print();
    let parts = ["(7 ".repeat(256), "2:[tax]".into(), ")".repeat(256)];
    assert_eq!(printed, Ok(parts.concat().into_bytes()));
}

#[test]
fn too_little_room_is_refused_with_3_and_the_bytes_that_are_needed() {
    let words = "the room is too small: 11 words or bytes are needed (code 3)";
    for room in 0..11 {
        refused(&under(1), room, 3, [11, 0, 0], words);
    }
    let mut room = *b"~~~~~~~~~~~~~";
    assert_eq!(lent::print(DAY, &under(1), &mut room), Ok(11));
    assert_eq!(&room, b"(7 2:[tax])~~");
}

#[test]
fn records_of_a_parse() {
    let text = fs::read("../packs/json.pack").expect("the pack is there");
    let pack = Pack::read(text).expect("the pack is good");
    let mut tree = Tree::new();
    let parsed = pack.parse(r#"["[\\]", 1]"#, &mut tree, u32::MAX);
    let printed = parsed.expect("accepted").records().print();
    let shown = r#"(1 (13 3:[\[] (15 (14 (2 11:["\[\\\\\]"])) 5:[,] (3 10:[1])) 4:[\]]))"#;
    assert_eq!(printed.as_deref(), Ok(shown.as_bytes()));
    // Of a query that was refused there may be no tree, or several.
    for query in ["", "[1,"] {
        pack.parse(query, &mut tree, u32::MAX).expect_err("refused");
        assert_eq!(tree.records(query).print(), Err(Refused::NotOneTree));
    }
}

/// Most of these have leaves that share bytes, so that some need more memory than a parse's records do.
#[test]
fn records_from_elsewhere_print_as_by_the_second_program() {
    let mut rng = Rng::new(19);
    let (mut codes, mut large) = ([0; 16], 0);
    for _ in 0..5_000 {
        let length = rng.below(200);
        let text = printing::text(&mut rng, length);
        let records = rng.from_to(1, 60);
        let mut words = match rng.below(4) {
            0 => printing::deep(&mut rng, length),
            _ => printing::tree(&mut rng, length, records),
        };
        if rng.once_in(4) {
            words = printing::damaged(&mut rng, &words);
            words.truncate(words.len() / 4 * 4);
        }
        let mut room = [0; 100_000];
        let expected = second::print::print(&text, &words, &mut room);
        let printed = Tree::of_words(words.clone()).records(&text).print();
        let code = printed.as_ref().map_or_else(Refused::code, |_| 0);
        assert_eq!(code, expected.code, "{words:?}");
        codes[code as usize] += 1;
        if let Ok(printed) = printed {
            assert_eq!(printed, room[..expected.number as usize]);
            large += usize::from(printed.len() > 2 * text.len() + 6 * words.len() / 4);
        }
    }
    assert!(
        codes[0] > 1_000 && codes[14] > 100 && codes[15] > 100,
        "{codes:?}"
    );
    assert!(large > 100, "{large}");
}

/// A tree whose printout has over a GB: 8,200 times the same text, of which every byte is escaped.
fn endless() -> (Vec<u8>, Tree, usize) {
    let text = vec![b'['; 65_535];
    let mut words = [1, 0, 65_535, 0].repeat(8_200);
    words.extend([64, 7, 8_200, 0]);
    (text, Tree::of_words(words), 8_200 * (2 * 65_535 + 5) + 3)
}

#[test]
fn a_size_far_over_the_room_is_given_in_full() {
    let (text, tree, needed) = endless();
    let printed = lent::print(&text, tree.records(&text).words(), &mut [0; 9]);
    assert_eq!(printed, Err(Refused::Room { needed }));
}

/// The test runs itself again, in a process that may not have that much memory.
#[cfg(target_os = "linux")]
#[test]
fn a_printout_that_no_memory_is_there_for_is_refused_with_3() {
    const LIMITED: &str = "PRINTS_WITH_LITTLE_MEMORY";
    if std::env::var_os(LIMITED).is_some() {
        let (text, tree, needed) = endless();
        let printed = tree.records(&text).print();
        return assert_eq!(printed, Err(Refused::Room { needed }));
    }
    let name = "a_printout_that_no_memory_is_there_for_is_refused_with_3";
    let run = std::process::Command::new("sh")
        .args(["-c", "ulimit -v 800000 && exec \"$0\" --exact \"$1\""])
        .arg(std::env::current_exe().expect("the tests have a file"))
        .arg(name)
        .env(LIMITED, "yes")
        .output()
        .expect("the tests run");
    let said = String::from_utf8_lossy(&run.stdout);
    assert!(run.status.success() && said.contains("1 passed"), "{said}");
}
