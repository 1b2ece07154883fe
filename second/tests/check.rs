//! K1 to K6: each condition broken in several ways, with its least places.

use second::check::check;
use second::gen::tables::{nonterminal, Production, ScanSets, Tables};
use second::image::{Pack, Sizes};
use second::marked::{image_with, small_image, SMALL_PACK};

fn answer(image: &[u16]) -> [u32; 4] {
    let checked = check(image);
    let [a, b, c] = checked.numbers;
    [checked.code, a, b, c]
}

fn small() -> Tables {
    Tables::of(&Pack::new(&small_image()))
}

fn answer_with(change: impl FnOnce(&mut Tables)) -> [u32; 4] {
    let mut tables = small();
    change(&mut tables);
    answer(&tables.image())
}

fn production(lhs: u16, symbols: &[u16]) -> Production {
    Production {
        lhs,
        symbols: symbols.to_vec(),
    }
}

#[test]
fn tables_and_image_give_back_each_other() {
    assert_eq!(small().image(), small_image());
    assert_eq!(answer_with(|_| ()), [0, 0, 0, 0]);
}

#[test]
fn k1_rejects_exactly_the_outranked() {
    // Not rejected though outranked; rejected though not outranked; outranked by one that does not match there.
    assert_eq!(answer_with(|t| t.scan[2] = sets(6, 0, 6)), [5, 1, 2, 0]);
    assert_eq!(answer_with(|t| t.scan[3] = sets(0, 4, 4)), [5, 1, 3, 0]);
    assert_eq!(answer_with(|t| t.scan[1] = sets(0, 4, 6)), [5, 1, 1, 0]);
    // Rejected by one that is itself rejected: no transitivity, and it counts as matching.
    let circle = |t: &mut Tables| {
        t.dom[1] = 4;
        t.scan[2] = sets(0, 6, 6);
    };
    assert_eq!(answer_with(circle), [0, 0, 0, 0]);
}

fn sets(acc: u64, rej: u64, poss: u64) -> ScanSets {
    ScanSets { acc, rej, poss }
}

#[test]
fn k2_wants_possible_sets_that_do_not_grow() {
    assert_eq!(answer_with(|t| t.scan[3].poss = 0), [5, 2, 3, 0]);
    assert_eq!(answer_with(|t| t.scan[2].poss = 2), [5, 2, 2, 0]);
    // State 4 loops on itself and is moved to from 0 only: 0 has bit 1..3, so more in 4 fails at 0.
    assert_eq!(answer_with(|t| t.scan[0].poss = 6), [5, 2, 0, 0]);
    assert_eq!(answer_with(|t| t.scan[4].poss = 14), [0, 0, 0, 0]);
    // A move on a class that no byte has counts too.
    let unused = |t: &mut Tables| {
        t.classes = 6;
        t.moves.iter_mut().for_each(|row| row.push(0));
        t.moves[4][5] = 1;
    };
    assert_eq!(answer_with(unused), [5, 2, 4, 0]);
}

#[test]
fn k3_wants_a_group_for_two_terminals() {
    // Without outranking, state 2 takes both; row 1 sees `by` alone, row 2 sees both.
    let both = |t: &mut Tables| {
        t.dom[2] = 0;
        t.scan[2] = sets(6, 0, 6);
        t.act[2][1] = 8;
    };
    assert_eq!(answer_with(both), [5, 3, 2, 2]);
    let grouped = |t: &mut Tables| {
        both(t);
        t.groups.push((6, 2));
    };
    // Edges into state 3 now carry two symbols: K3 is content, K4 is not.
    assert_eq!(answer_with(grouped), [5, 4, 3, 0]);
    // A group that only holds the pair is not equal to it.
    let larger = |t: &mut Tables| {
        both(t);
        t.groups.push((14, 2));
    };
    assert_eq!(answer_with(larger), [5, 3, 2, 2]);
    // Without outranking and without the changed row, no row sees both.
    let apart = |t: &mut Tables| {
        t.dom[2] = 0;
        t.scan[2] = sets(6, 0, 6);
    };
    assert_eq!(answer_with(apart), [0, 0, 0, 0]);
}

#[test]
fn k4_wants_one_symbol_into_a_state_and_none_into_0() {
    assert_eq!(answer_with(|t| t.act[2][2] = 2), [5, 4, 0, 0]);
    assert_eq!(answer_with(|t| t.goto[3][0] = 1), [5, 4, 0, 0]);
    assert_eq!(answer_with(|t| t.act[2][1] = 4), [5, 4, 1, 0]);
    assert_eq!(answer_with(|t| t.goto[2][0] = 2), [5, 4, 1, 0]);
}

#[test]
fn k5_goes_back_in_every_way() {
    // Case 11, and a wrong symbol on the way, at each of the three steps.
    assert_eq!(answer_with(|t| t.goto[0][0] = 0), [5, 5, 1, 0]);
    let wrong = |i: usize| answer_with(move |t| t.productions[1].symbols[i] = 64);
    for i in 0..3 {
        assert_eq!(wrong(i), [5, 5, 3, 1]);
    }
    // Too long a way back passes state 0; state 0 with symbols to go back fails.
    let longer = |t: &mut Tables| t.productions[1].symbols.insert(0, 2);
    assert_eq!(answer_with(longer), [5, 5, 3, 1]);
    assert_eq!(answer_with(|t| t.act[0][0] = 3), [5, 5, 0, 0]);
    // An empty production needs the goto in the state itself: state 0 has one.
    let empty = |t: &mut Tables| t.productions.push(production(0, &[]));
    let in_0 = |t: &mut Tables| {
        empty(t);
        t.act[0][0] = 7;
    };
    assert_eq!(answer_with(in_0), [0, 0, 0, 0]);
    let in_2 = |t: &mut Tables| {
        empty(t);
        t.act[2][0] = 7;
    };
    assert_eq!(answer_with(in_2), [5, 5, 2, 2]);
    // The least production first, not the first column.
    let two = |t: &mut Tables| {
        t.productions.push(production(0, &[1]));
        t.act[1] = vec![7, 5, 0, 0];
    };
    assert_eq!(answer_with(two), [5, 5, 1, 1]);
}

#[test]
fn k5_fails_if_only_one_of_two_paths_fails() {
    // `c`: 0 and 1 both shift it to 2; only 0 has a goto on nonterminal 1.
    let words = [4, 2, 2, 5, 1, 1, 0, 0];
    let mut tables = Tables::blank(Sizes::from_words(&words));
    tables.productions = vec![production(1, &[3]), production(0, &[nonterminal(1)])];
    let shift = |s: u16| 2 + 2 * s;
    tables.act[0] = vec![0, 0, shift(1), shift(2)];
    tables.act[1] = vec![0, 0, 0, shift(2)];
    tables.act[2] = vec![3, 0, 0, 0];
    tables.act[3] = vec![5, 0, 0, 0];
    tables.act[4] = vec![1, 0, 0, 0];
    tables.goto[0] = vec![5, 4];
    assert_eq!(answer(&tables.image()), [5, 5, 2, 0]);
    // With a goto in both the way back from 3 by production 1 ends in 0 and 1.
    tables.goto[1] = vec![0, 4];
    assert_eq!(answer(&tables.image()), [5, 5, 3, 1]);
    // A state that nothing leads to may reduce by any production with symbols.
    tables.goto[1] = vec![0, 0];
    tables.act[1] = vec![0; 4];
    tables.act[0][2] = 0;
    tables.act[1][0] = 5;
    assert_eq!(answer(&tables.image()), [0, 0, 0, 0]);
}

#[test]
fn k6_wants_the_accept_one_goto_after_state_0() {
    assert_eq!(answer_with(|t| t.act[0][0] = 1), [5, 6, 0, 0]);
    assert_eq!(answer_with(|t| t.act[1][0] = 1), [5, 6, 1, 0]);
    assert_eq!(answer_with(|t| t.act[3][0] = 1), [5, 6, 3, 0]);
    // A second edge into the accepting state, from state 1.
    assert_eq!(answer_with(|t| t.goto[1][0] = 5), [5, 6, 4, 0]);
    // An accept in a state without edges in is good.
    let apart = |t: &mut Tables| {
        t.act.push(vec![1, 0, 0, 0]);
        t.goto.push(vec![0]);
    };
    assert_eq!(answer_with(apart), [0, 0, 0, 0]);
    // Symbol 64 and no other nonterminal.
    let other = |t: &mut Tables| {
        t.nonterminals = 2;
        t.goto.iter_mut().for_each(|row| row.push(0));
        t.goto[0] = vec![5, 5];
    };
    assert_eq!(answer_with(other), [5, 4, 4, 0]);
}

#[test]
fn the_first_condition_in_order_is_given() {
    let image = image_with(
        SMALL_PACK,
        &[
            ("goto=", 0, "goto=0"),
            ("act=", 4, "act=1,2,0,0"),
            (
                "scan=",
                4,
                "scan=0000000000000008,0000000000000000,0000000000000000",
            ),
        ],
    );
    assert_eq!(answer(&image), [5, 2, 4, 0]);
}
