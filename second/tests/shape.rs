//! Every rule of the shape, broken alone, with its place counted by hand; the order of the tests; the size limits.

use second::gen::tables::Tables;
use second::image::{Sizes, SIZE_LIMITS};
use second::marked::small_image;
use second::shape::{pack, shape, Rule, Shaped};

const OKAY: Shaped = Shaped { code: 0, place: 0 };

fn wrong_at(place: u32) -> Shaped {
    Shaped { code: 4, place }
}

/// T=5, N=2, P=2, S=3, Q=3, C=2, R=2, G=2; terminal 4 is layout. Layout stands at 9, dom at 13, the productions at 33,
/// act at 65, goto at 80, the ranges at 86, move at 92, the scan sets at 98 and the groups at 134; 144 words.
fn image() -> Vec<u16> {
    let mut tables = Tables::blank(Sizes::from_words(&[5, 2, 2, 3, 3, 2, 2, 2]));
    tables.layout = 0b10000;
    tables.dom[1] = 0b10100;
    tables.productions[1].symbols = vec![1, 65, 3];
    tables.scan[1].acc = 0b00010;
    tables.scan[1].rej = 0b00100;
    let image = tables.image();
    assert_eq!(image.len(), 144);
    assert_eq!(shape(&image), OKAY);
    image
}

/// The words changed and their new values, the place, the rule.
type Broken = (&'static [(usize, u16)], u32, Rule);

#[test]
fn every_rule_is_charged_to_its_word() {
    use Rule::*;
    let broken: &[Broken] = &[
        (&[(0, 0)], 0, WordZeroIsOne),
        (&[(0, 2)], 0, WordZeroIsOne),
        (&[(9, 0b110000)], 9, LayoutBelowT),
        (&[(12, 1)], 9, LayoutBelowT),
        (&[(9, 0b10001)], 9, LayoutLacksZero),
        (&[(14, 1)], 13, DomBelowT),
        (&[(13, 2)], 13, DomOfZeroEmpty),
        (&[(20, 0x8000)], 17, DomBelowT),
        (&[(17, 0b00001)], 17, DomLacksZero),
        (&[(17, 0b00010)], 17, DomLacksItself),
        (&[(29, 0b10000)], 29, DomLacksItself),
        (&[(33, 2)], 33, LhsBelowN),
        (&[(34, 15)], 34, LenAtMost14),
        (&[(34, 65_535)], 34, LenAtMost14),
        (&[(34, 1)], 35, SymbolNotZero),
        (&[(34, 1), (35, 5)], 35, SymbolBelowT),
        (&[(34, 1), (35, 63)], 35, SymbolBelowT),
        (&[(34, 1), (35, 4)], 35, SymbolOutsideLayout),
        (&[(34, 1), (35, 66)], 35, SymbolBelowN),
        (&[(34, 2), (35, 64)], 36, SymbolNotZero),
        (&[(50, 2)], 53, UnusedSymbolZero),
        (&[(64, 1)], 64, UnusedSymbolZero),
        (&[(69, 2)], 69, ActionLayoutColumn),
        (&[(74, 3)], 74, ActionLayoutColumn),
        (&[(66, 1)], 66, ActionAcceptColumn),
        (&[(65, 2)], 65, ActionShiftColumn),
        (&[(66, 8)], 66, ActionState),
        (&[(66, 7)], 66, ActionProduction),
        (&[(79, 65_535)], 79, ActionLayoutColumn),
        (&[(78, 65_535)], 78, ActionProduction),
        (&[(78, 65_534)], 78, ActionState),
        (&[(80, 4)], 80, GotoAtMostS),
        (&[(85, 65_535)], 85, GotoAtMostS),
        (&[(89, 0)], 89, RangeLoAbovePrevious),
        (&[(86, 1)], 87, RangeLoAtMostHi),
        (&[(86, 300)], 87, RangeLoAtMostHi),
        (&[(86, 300), (87, 300)], 87, RangeHiAtMost255),
        (&[(90, 256)], 90, RangeHiAtMost255),
        (&[(87, 1)], 89, RangeLoAbovePrevious),
        (&[(88, 2)], 88, RangeClassBelowC),
        (&[(92, 4)], 92, MoveAtMostQ),
        (&[(97, 65_535)], 97, MoveAtMostQ),
        (&[(110, 0b100010)], 110, AccBelowT),
        (&[(112, 1)], 110, AccBelowT),
        (&[(110, 0b00011)], 110, AccLacksZero),
        (&[(98, 2)], 98, AccEmptyInStateZero),
        (&[(114, 0b100000)], 114, RejBelowT),
        (&[(114, 0b00101)], 114, RejLacksZero),
        (&[(114, 0b00110)], 114, RejSharesNothing),
        (&[(102, 2)], 102, RejEmptyInStateZero),
        (&[(121, 1)], 118, PossBelowT),
        (&[(130, 1)], 130, PossLacksZero),
        (&[(134, 0b100110)], 134, GroupBelowT),
        (&[(134, 0b00111)], 134, GroupLacksZero),
        (&[(134, 0b00010)], 134, GroupAtLeastTwo),
        (&[(134, 0)], 134, GroupAtLeastTwo),
        (&[(139, 0b00110), (143, 2)], 139, GroupNotEarlier),
        (&[(138, 3)], 138, ChosenInGroup),
        (&[(138, 64)], 138, ChosenInGroup),
        (&[(143, 65_535)], 143, ChosenInGroup),
    ];
    for &(changes, place, rule) in broken {
        let mut image = image();
        for &(word, value) in changes {
            image[word] = value;
        }
        assert_eq!(shape(&image), wrong_at(place), "{rule:?}");
        assert_eq!(pack(&image).unwrap_err().rule, rule);
    }
    let others = |rule: &Rule| {
        !matches!(
            rule,
            SizeIsThere | SizeInRange(_) | LengthNotShort | LengthNotLong
        )
    };
    for rule in Rule::all().into_iter().filter(others) {
        assert!(broken.iter().any(|row| row.2 == rule), "{rule:?}");
    }
}

#[test]
fn what_the_page_does_not_forbid_is_of_good_shape() {
    let good: &[&[(usize, u16)]] = &[
        // A shift to state 0, a goto to state 0, an accept in state 0.
        &[(66, 2)],
        &[(80, 1)],
        &[(65, 1)],
        // A group and an outranking that name layout; poss not empty in state 0.
        &[(134, 0b10010)],
        &[(17, 0b10000)],
        &[(106, 0b11110)],
        // The greatest codes.
        &[(66, 6), (67, 5), (85, 3), (97, 3), (90, 255), (91, 1)],
    ];
    for changes in good {
        let mut image = image();
        for &(word, value) in *changes {
            image[word] = value;
        }
        assert_eq!(shape(&image), OKAY, "{changes:?}");
    }
}

#[test]
fn the_first_wrong_word_counts_and_length_comes_before_content() {
    let good = image();
    let mut both = good.clone();
    both[33] = 2;
    both[97] = 9;
    assert_eq!(shape(&both), wrong_at(33));
    both.truncate(143);
    assert_eq!(shape(&both), wrong_at(143));
    both.extend([0, 0, 0]);
    assert_eq!(shape(&both), wrong_at(144));
    both[3] = 0;
    assert_eq!(shape(&both), wrong_at(3));
    both[0] = 0;
    assert_eq!(shape(&both), wrong_at(0));
}

#[test]
fn an_image_cut_anywhere_is_wrong_where_it_ends() {
    let good = small_image();
    for length in 0..good.len() {
        assert_eq!(shape(&good[..length]), wrong_at(length as u32));
    }
    let mut long = good.clone();
    long.push(0);
    assert_eq!(shape(&long), wrong_at(189));
    long.resize(70_000, 0);
    assert_eq!(shape(&long), wrong_at(189));
    assert_eq!(shape(&[1, 4, 33]), wrong_at(2));
    assert_eq!(shape(&[1, 0]), wrong_at(1));
}

/// Sizes for which groups are possible, one of them replaced.
fn sizes_with(i: usize, size: u16) -> Vec<u16> {
    let mut words = vec![4, 2, 2, 2, 2, 2, 2, 1];
    words[i] = size;
    if i == 0 && size < 3 {
        words[7] = 0;
    }
    if i == 7 {
        words[0] = 64;
    }
    words
}

#[test]
fn each_size_has_its_least_and_greatest() {
    for (i, (least, greatest)) in SIZE_LIMITS.into_iter().enumerate() {
        for size in [least, greatest] {
            let sizes = Sizes::from_words(&sizes_with(i, size));
            let mut image = Tables::blank(sizes).image();
            assert_eq!(shape(&image), OKAY, "size {i} is {size}");
            let beyond = if size == least {
                size.checked_sub(1)
            } else {
                size.checked_add(1)
            };
            if let Some(beyond) = beyond {
                image[1 + i] = beyond;
                assert_eq!(shape(&image), wrong_at(1 + i as u32));
            }
            image[1 + i] = 65_535;
            assert_eq!(shape(&image), wrong_at(1 + i as u32));
        }
    }
}

#[test]
fn the_least_and_the_largest_image() {
    let least = Tables::blank(Sizes::from_words(&SIZE_LIMITS.map(|(least, _)| least))).image();
    assert_eq!((least.len(), shape(&least)), (48, OKAY));
    let greatest = SIZE_LIMITS.map(|(_, greatest)| greatest);
    let mut image = Tables::blank(Sizes::from_words(&greatest)).image();
    assert_eq!((image.len(), shape(&image)), (20_589, OKAY));
    // T = 64: bit 63 is good, and symbol 63 is a terminal.
    image[12] = 0x8000;
    assert_eq!(shape(&image), OKAY);
    let production = 13 + 4 * 64;
    image[production + 1] = 2;
    image[production + 2] = 62;
    image[production + 3] = 64 + 31;
    assert_eq!(shape(&image), OKAY);
    image[production + 2] = 63;
    assert_eq!(shape(&image), wrong_at(production as u32 + 2));
    image[12] = 0;
    assert_eq!(shape(&image), OKAY);
    image[production + 3] = 64 + 32;
    assert_eq!(shape(&image), wrong_at(production as u32 + 3));
}
