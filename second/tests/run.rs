//! The run of a parse: the second scan, groups, layout that needs one, and tokens that change with the state.

use second::check::check;
use second::gen::tables::{nonterminal, Production, ScanSets, Tables};
use second::image::{Range, Sizes};
use second::marked::{image_of, image_with, GROUP_PACK};
use second::parse::{parse, Parsed};

fn shift(s: u16) -> u16 {
    2 + 2 * s
}

fn reduce(p: u16) -> u16 {
    3 + 2 * p
}

const ACCEPT: u16 = 1;

fn production(lhs: u16, symbols: &[u16]) -> Production {
    Production {
        lhs,
        symbols: symbols.to_vec(),
    }
}

fn sets(acc: u64, rej: u64, poss: u64) -> ScanSets {
    ScanSets { acc, rej, poss }
}

/// Tables of these sizes with the classes a: 1, b: 2, c: 3, blank: 4.
fn tables(sizes: [u16; 5]) -> Tables {
    let [terminals, nonterminals, productions, states, scan_states] = sizes;
    let words = [
        terminals,
        nonterminals,
        productions,
        states,
        scan_states,
        5,
        4,
        0,
    ];
    let mut tables = Tables::blank(Sizes::from_words(&words));
    let bytes = [(32, 4), (97, 1), (98, 2), (99, 3)];
    tables.ranges = bytes
        .map(|(byte, class)| Range {
            lo: byte,
            hi: byte,
            class,
        })
        .to_vec();
    tables
}

/// The six numbers and the records.
fn run(tables: &Tables, text: &[u8]) -> ([u32; 6], Vec<[u16; 4]>) {
    let mut tree = [0; 400];
    let Parsed {
        code,
        place,
        length,
        terminal,
        records,
        moves,
    } = parse(&tables.image(), text, &mut tree, u32::MAX);
    let records = tree.chunks_exact(4).take(records as usize);
    let records: Vec<[u16; 4]> = records.map(|r| [r[0], r[1], r[2], r[3]]).collect();
    let count = records.len() as u32;
    ([code, place, length, terminal, count, moves], records)
}

/// Terminal 1 is `c`, 2 is `a`, 3 is layout and rejected at `ab`. Only 1 is valid in state 0.
fn layout_rejected() -> Tables {
    let mut t = tables([4, 1, 1, 2, 4]);
    t.layout = 0b1000;
    t.act[0][1] = shift(1);
    t.moves[0] = vec![0, 2, 0, 4, 0];
    t.moves[1] = vec![0, 0, 3, 0, 0];
    t.scan[0].poss = 0b1110;
    t.scan[1] = sets(0b0100, 0, 0b1100);
    t.scan[2] = sets(0, 0b1000, 0b1000);
    t.scan[3] = sets(0b0010, 0, 0b0010);
    t
}

#[test]
fn the_second_scan_leaves_layout_out() {
    // The scan of `ab` for 1 and layout takes 2 moves, the second 2: `a` is remembered, and the reject of layout does not
    // count.
    let (numbers, _) = run(&layout_rejected(), b"ab");
    assert_eq!(numbers, [8, 0, 1, 2, 0, 4]);
    // Where `a` is valid it is forgotten all the same, and the second scan names it.
    let mut valid = layout_rejected();
    valid.act[0][2] = shift(1);
    assert_eq!(run(&valid, b"ab").0, [8, 0, 1, 2, 0, 4]);
    assert_eq!(run(&valid, b"a").0, [8, 1, 0, 0, 1, 1]);
    let (numbers, _) = run(&layout_rejected(), b"b");
    assert_eq!(numbers, [7, 0, 0, 0, 0, 0]);
}

/// Terminals 1 and 2 are both `a`, 3 is `b`; state 0 sees 1 and 2, state 1 sees 3 only.
fn two_at_once() -> Tables {
    let mut t = tables([4, 1, 1, 4, 3]);
    t.productions[0] = production(0, &[2, 3]);
    t.act[0] = vec![0, shift(2), shift(1), 0];
    t.act[1] = vec![0, 0, 0, shift(2)];
    t.act[2] = vec![reduce(0), 0, 0, 0];
    t.act[3] = vec![ACCEPT, 0, 0, 0];
    t.goto[0] = vec![4];
    t.moves[0] = vec![0, 2, 3, 0, 0];
    t.scan[0].poss = 0b1110;
    t.scan[1] = sets(0b0110, 0, 0b0110);
    t.scan[2] = sets(0b1000, 0, 0b1000);
    t
}

#[test]
fn a_group_chooses_and_only_an_equal_one() {
    let (numbers, _) = run(&two_at_once(), b"ab");
    assert_eq!(numbers, [9, 0, 1, 0, 0, 1]);
    let mut larger = two_at_once();
    larger.groups = vec![(0b1110, 2)];
    assert_eq!(run(&larger, b"ab").0, [9, 0, 1, 0, 0, 1]);
    let mut grouped = two_at_once();
    grouped.groups = vec![(0b1110, 3), (0b0110, 2)];
    let (numbers, records) = run(&grouped, b"ab");
    assert_eq!(numbers, [0, 2, 0, 0, 3, 2]);
    assert_eq!(records, [[2, 0, 1, 0], [3, 1, 1, 1], [64, 0, 2, 0]]);
    grouped.groups = vec![(0b0110, 1)];
    let (numbers, records) = run(&grouped, b"ab");
    // Terminal 1 leads to state 2, which wants the end of the text.
    assert_eq!(numbers, [8, 1, 1, 3, 1, 2]);
    assert_eq!(records, [[1, 0, 1, 0]]);
}

#[test]
fn the_second_scan_names_the_lowest_and_asks_for_no_group() {
    let mut t = two_at_once();
    t.groups = vec![(0b0110, 2)];
    // After `a` only `b` is valid; another `a` is 1 or 2.
    let (numbers, _) = run(&t, b"aa");
    assert_eq!(numbers, [8, 1, 1, 1, 1, 3]);
    t.groups.clear();
    t.act[0][1] = 0;
    let (numbers, _) = run(&t, b"aa");
    assert_eq!(numbers, [8, 1, 1, 1, 1, 3]);
}

#[test]
fn the_pack_with_a_group_passes_and_its_group_chooses() {
    let numbers = |image: &[u16], text: &[u8]| {
        let parsed = parse(image, text, &mut [0; 40], u32::MAX);
        [parsed.code, parsed.place, parsed.length, parsed.terminal]
    };
    let image = image_of(GROUP_PACK);
    assert_eq!(check(&image).code, 0);
    assert_eq!(numbers(&image, b"ab"), [0, 2, 0, 0]);
    assert_eq!(numbers(&image, b"aa"), [8, 1, 1, 1]);
    assert_eq!(numbers(&image, b"a"), [8, 1, 0, 0]);
    let other = image_with(GROUP_PACK, &[("group=", 0, "group=0000000000000006,1")]);
    assert_eq!(check(&other).code, 0);
    assert_eq!(numbers(&other, b"ab"), [8, 1, 1, 3]);
    assert_eq!(numbers(&other, b"a"), [0, 1, 0, 0]);
    let larger = image_with(GROUP_PACK, &[("group=", 0, "group=000000000000000e,2")]);
    assert_eq!(check(&larger).numbers, [3, 0, 1]);
    assert_eq!(numbers(&larger, b"ab"), [9, 0, 1, 0]);
}

#[test]
fn a_state_without_valid_terminals_scans_again_and_is_not_stuck() {
    let mut t = two_at_once();
    t.act[0] = vec![0; 4];
    assert_eq!(run(&t, b"a").0, [8, 0, 1, 1, 0, 1]);
    assert_eq!(run(&t, b"c").0, [7, 0, 0, 0, 0, 0]);
    assert_eq!(run(&t, b"").0, [8, 0, 0, 0, 0, 0]);
    // The end alone is valid: a token before it is unexpected.
    t.act[0][0] = ACCEPT;
    assert_eq!(run(&t, b"b").0, [8, 0, 1, 3, 0, 1]);
    assert_eq!(run(&t, b"").0, [10, 0, 0, 0, 0, 0]);
}

/// S: A `bc`; A: `a`. Terminal 1 is `a`, 2 is `b`, 3 is `bc`. After `a` the state sees `b` and reduces; the state
/// behind A sees `bc`.
fn longer_after_reduction() -> Tables {
    let mut t = tables([4, 2, 2, 5, 4]);
    let a = nonterminal(1);
    t.productions = vec![production(0, &[a, 3]), production(1, &[1])];
    t.act[0] = vec![0, shift(1), 0, 0];
    t.act[1] = vec![0, 0, reduce(1), 0];
    t.act[2] = vec![0, 0, 0, shift(3)];
    t.act[3] = vec![reduce(0), 0, 0, 0];
    t.act[4] = vec![ACCEPT, 0, 0, 0];
    t.goto[0] = vec![5, 3];
    t.moves[0] = vec![0, 2, 3, 0, 0];
    t.moves[2] = vec![0, 0, 0, 4, 0];
    t.scan[0].poss = 0b1110;
    t.scan[1] = sets(0b0010, 0, 0b0010);
    t.scan[2] = sets(0b0100, 0, 0b1100);
    t.scan[3] = sets(0b1000, 0, 0b1000);
    t
}

#[test]
fn a_token_is_not_kept_across_a_reduction() {
    let t = longer_after_reduction();
    assert_eq!(check(&t.image()).code, 0);
    let (numbers, records) = run(&t, b"abc");
    // 1 for `a`; 2 for state 1, which sees `b` and reads on; 2 for `bc` seen by state 2.
    assert_eq!(numbers, [0, 3, 0, 0, 4, 5]);
    assert_eq!(
        records,
        [[1, 0, 1, 0], [65, 1, 1, 0], [3, 1, 2, 2], [64, 0, 2, 0]]
    );
    // `b` alone is seen by state 1, and is unexpected in state 2.
    assert_eq!(run(&t, b"ab").0, [8, 1, 1, 2, 2, 4]);
}

#[test]
fn layout_costs_no_scan_of_its_own() {
    let mut t = longer_after_reduction();
    t.dom.push(0);
    t.act.iter_mut().for_each(|row| row.push(0));
    t.layout = 0b10000;
    t.scan[0].poss |= t.layout;
    assert_eq!(run(&t, b"abc").0, [0, 3, 0, 0, 4, 5]);
}

#[test]
fn several_layout_terminals_at_once_need_a_group() {
    let mut t = two_at_once();
    t.dom.extend([0, 0]);
    t.act.iter_mut().for_each(|row| row.extend([0, 0]));
    t.layout = 0b11_0000;
    t.moves.push(vec![0; 5]);
    t.moves[0][4] = 4;
    t.scan[0].poss |= t.layout;
    t.scan.push(sets(t.layout, 0, t.layout));
    t.groups = vec![(0b0110, 2)];
    assert_eq!(run(&t, b"  a b  ").0, [9, 0, 1, 0, 0, 1]);
    assert_eq!(run(&t, b"a b").0, [9, 1, 1, 0, 1, 2]);
    t.groups.push((0b11_0000, 5));
    let (numbers, records) = run(&t, b"  a b  ");
    assert_eq!(records, [[2, 2, 1, 0], [3, 4, 1, 1], [64, 0, 2, 0]]);
    // A move for each byte.
    assert_eq!(numbers, [0, 7, 0, 0, 3, 7]);
    // Layout alone, and layout before something that is nothing: the place is past it.
    assert_eq!(run(&t, b"   ").0, [8, 3, 0, 0, 0, 3]);
    assert_eq!(run(&t, b"  c").0, [7, 2, 0, 0, 0, 2]);
}
