//! Shape (code 4): the rules of the paragraph "Shape, tested in this order", each by name. A rule over several words
//! or sets is charged to the last of them, and a set's place is its first word.

use crate::image::{
    Pack, Sizes, FIRST_NONTERMINAL, LAYOUT_PLACE, PROD_SYMBOLS, SIZE_COUNT, SIZE_LIMITS, SIZE_PLACE,
};
use crate::numbers::{DONE, SHAPE};
use crate::sets::{self, Set};

/// Code 0 or 4, and the place.
#[derive(Clone, Copy, Debug, PartialEq, Eq)]
pub struct Shaped {
    pub code: u32,
    pub place: u32,
}

/// The rules of the paragraph, in its order.
#[derive(Clone, Copy, Debug, PartialEq, Eq, PartialOrd, Ord)]
pub enum Rule {
    WordZeroIsOne,
    SizeIsThere,
    SizeInRange(usize),
    LengthNotShort,
    LengthNotLong,
    LayoutBelowT,
    LayoutLacksZero,
    DomBelowT,
    DomOfZeroEmpty,
    DomLacksZero,
    DomLacksItself,
    LhsBelowN,
    LenAtMost14,
    SymbolNotZero,
    SymbolBelowT,
    SymbolOutsideLayout,
    SymbolBelowN,
    UnusedSymbolZero,
    ActionLayoutColumn,
    ActionAcceptColumn,
    ActionShiftColumn,
    ActionState,
    ActionProduction,
    GotoAtMostS,
    RangeLoAbovePrevious,
    RangeLoAtMostHi,
    RangeHiAtMost255,
    RangeClassBelowC,
    MoveAtMostQ,
    AccBelowT,
    AccLacksZero,
    AccEmptyInStateZero,
    RejBelowT,
    RejLacksZero,
    RejSharesNothing,
    RejEmptyInStateZero,
    PossBelowT,
    PossLacksZero,
    GroupBelowT,
    GroupLacksZero,
    GroupAtLeastTwo,
    GroupNotEarlier,
    ChosenInGroup,
}

impl Rule {
    pub fn all() -> Vec<Rule> {
        use Rule::*;
        let mut rules = vec![WordZeroIsOne, SizeIsThere];
        rules.extend((0..SIZE_COUNT).map(SizeInRange));
        rules.extend([
            LengthNotShort,
            LengthNotLong,
            LayoutBelowT,
            LayoutLacksZero,
            DomBelowT,
            DomOfZeroEmpty,
            DomLacksZero,
            DomLacksItself,
            LhsBelowN,
            LenAtMost14,
            SymbolNotZero,
            SymbolBelowT,
            SymbolOutsideLayout,
            SymbolBelowN,
            UnusedSymbolZero,
            ActionLayoutColumn,
            ActionAcceptColumn,
            ActionShiftColumn,
            ActionState,
            ActionProduction,
            GotoAtMostS,
            RangeLoAbovePrevious,
            RangeLoAtMostHi,
            RangeHiAtMost255,
            RangeClassBelowC,
            MoveAtMostQ,
            AccBelowT,
            AccLacksZero,
            AccEmptyInStateZero,
            RejBelowT,
            RejLacksZero,
            RejSharesNothing,
            RejEmptyInStateZero,
            PossBelowT,
            PossLacksZero,
            GroupBelowT,
            GroupLacksZero,
            GroupAtLeastTwo,
            GroupNotEarlier,
            ChosenInGroup,
        ]);
        rules
    }
}

/// The first wrong word and a rule that it breaks.
#[derive(Clone, Copy, Debug, PartialEq, Eq)]
pub struct Fault {
    pub rule: Rule,
    pub place: usize,
}

pub fn shape(image: &[u16]) -> Shaped {
    match pack(image) {
        Ok(_) => Shaped {
            code: DONE,
            place: 0,
        },
        Err(fault) => Shaped {
            code: SHAPE,
            place: fault.place as u32,
        },
    }
}

/// The pack of an image of good shape.
pub fn pack(image: &[u16]) -> Result<Pack<'_>, Fault> {
    front(image)?;
    let pack = Pack::new(image);
    tables(&pack)?;
    Ok(pack)
}

fn test(good: bool, rule: Rule, place: usize) -> Result<(), Fault> {
    if good {
        Ok(())
    } else {
        Err(Fault { rule, place })
    }
}

/// Word 0, the sizes and the total length.
pub fn front(image: &[u16]) -> Result<Sizes, Fault> {
    test(image.first() == Some(&1), Rule::WordZeroIsOne, 0)?;
    for (i, (least, greatest)) in SIZE_LIMITS.into_iter().enumerate() {
        let place = SIZE_PLACE + i;
        match image.get(place) {
            None => test(false, Rule::SizeIsThere, place)?,
            Some(&size) => test(
                (least..=greatest).contains(&size),
                Rule::SizeInRange(i),
                place,
            )?,
        }
    }
    let sizes = Sizes::from_words(&image[SIZE_PLACE..LAYOUT_PLACE]);
    let needed = sizes.places().end;
    test(image.len() >= needed, Rule::LengthNotShort, image.len())?;
    test(image.len() <= needed, Rule::LengthNotLong, needed)?;
    Ok(sizes)
}

/// The tables, word by word.
fn tables(pack: &Pack) -> Result<(), Fault> {
    let sizes = pack.sizes;
    layout(pack)?;
    (0..sizes.terminals).try_for_each(|t| dom(pack, t))?;
    (0..sizes.productions).try_for_each(|p| production(pack, p))?;
    for s in 0..sizes.states {
        (0..sizes.terminals).try_for_each(|t| action(pack, s, t))?;
    }
    for s in 0..sizes.states {
        for n in 0..sizes.nonterminals {
            let place = pack.goto_place(s, n);
            test(at_most(pack, place, sizes.states), Rule::GotoAtMostS, place)?;
        }
    }
    (0..sizes.ranges).try_for_each(|r| range(pack, r))?;
    for q in 0..sizes.scan_states {
        for c in 0..sizes.classes {
            let place = pack.move_place(q, c);
            test(
                at_most(pack, place, sizes.scan_states),
                Rule::MoveAtMostQ,
                place,
            )?;
        }
    }
    (0..sizes.scan_states).try_for_each(|q| scan_sets(pack, q))?;
    (0..sizes.groups).try_for_each(|g| group(pack, g))
}

fn at_most(pack: &Pack, place: usize, greatest: usize) -> bool {
    usize::from(pack.word(place)) <= greatest
}

fn below_t(pack: &Pack, set: Set) -> bool {
    sets::subset(set, sets::below(pack.sizes.terminals))
}

fn layout(pack: &Pack) -> Result<(), Fault> {
    let set = pack.layout();
    test(below_t(pack, set), Rule::LayoutBelowT, LAYOUT_PLACE)?;
    test(!sets::has(set, 0), Rule::LayoutLacksZero, LAYOUT_PLACE)
}

fn dom(pack: &Pack, t: usize) -> Result<(), Fault> {
    let (set, place) = (pack.dom(t), pack.dom_place(t));
    test(below_t(pack, set), Rule::DomBelowT, place)?;
    test(t != 0 || set == sets::EMPTY, Rule::DomOfZeroEmpty, place)?;
    test(!sets::has(set, 0), Rule::DomLacksZero, place)?;
    test(!sets::has(set, t), Rule::DomLacksItself, place)
}

fn production(pack: &Pack, p: usize) -> Result<(), Fault> {
    let place = pack.prod_place(p);
    test(
        pack.lhs(p) < pack.sizes.nonterminals,
        Rule::LhsBelowN,
        place,
    )?;
    let len = pack.len(p);
    test(len <= PROD_SYMBOLS, Rule::LenAtMost14, place + 1)?;
    for i in 0..PROD_SYMBOLS {
        let place = place + 2 + i;
        let symbol = usize::from(pack.word(place));
        if i < len {
            used_symbol(pack, symbol, place)?;
        } else {
            test(symbol == 0, Rule::UnusedSymbolZero, place)?;
        }
    }
    Ok(())
}

fn used_symbol(pack: &Pack, symbol: usize, place: usize) -> Result<(), Fault> {
    if symbol < FIRST_NONTERMINAL {
        test(symbol != 0, Rule::SymbolNotZero, place)?;
        test(symbol < pack.sizes.terminals, Rule::SymbolBelowT, place)?;
        test(
            !sets::has(pack.layout(), symbol),
            Rule::SymbolOutsideLayout,
            place,
        )
    } else {
        test(
            symbol - FIRST_NONTERMINAL < pack.sizes.nonterminals,
            Rule::SymbolBelowN,
            place,
        )
    }
}

fn action(pack: &Pack, s: usize, t: usize) -> Result<(), Fault> {
    use crate::image::Action::*;
    let (place, action) = (pack.act_place(s, t), pack.action(s, t));
    test(
        action == Error || !sets::has(pack.layout(), t),
        Rule::ActionLayoutColumn,
        place,
    )?;
    match action {
        Error => Ok(()),
        Accept => test(t == 0, Rule::ActionAcceptColumn, place),
        Shift(to) => {
            test(t != 0, Rule::ActionShiftColumn, place)?;
            test(to < pack.sizes.states, Rule::ActionState, place)
        }
        Reduce(p) => test(p < pack.sizes.productions, Rule::ActionProduction, place),
    }
}

fn range(pack: &Pack, r: usize) -> Result<(), Fault> {
    let (place, range) = (pack.range_place(r), pack.range(r));
    test(
        r == 0 || range.lo > pack.range(r - 1).hi,
        Rule::RangeLoAbovePrevious,
        place,
    )?;
    test(range.lo <= range.hi, Rule::RangeLoAtMostHi, place + 1)?;
    test(range.hi <= 255, Rule::RangeHiAtMost255, place + 1)?;
    test(
        usize::from(range.class) < pack.sizes.classes,
        Rule::RangeClassBelowC,
        place + 2,
    )
}

fn scan_sets(pack: &Pack, q: usize) -> Result<(), Fault> {
    let (acc, place) = (pack.acc(q), pack.acc_place(q));
    test(below_t(pack, acc), Rule::AccBelowT, place)?;
    test(!sets::has(acc, 0), Rule::AccLacksZero, place)?;
    test(
        q != 0 || acc == sets::EMPTY,
        Rule::AccEmptyInStateZero,
        place,
    )?;
    let (rej, place) = (pack.rej(q), pack.rej_place(q));
    test(below_t(pack, rej), Rule::RejBelowT, place)?;
    test(!sets::has(rej, 0), Rule::RejLacksZero, place)?;
    test(acc & rej == sets::EMPTY, Rule::RejSharesNothing, place)?;
    test(
        q != 0 || rej == sets::EMPTY,
        Rule::RejEmptyInStateZero,
        place,
    )?;
    let (poss, place) = (pack.poss(q), pack.poss_place(q));
    test(below_t(pack, poss), Rule::PossBelowT, place)?;
    test(!sets::has(poss, 0), Rule::PossLacksZero, place)
}

fn group(pack: &Pack, g: usize) -> Result<(), Fault> {
    let (set, place) = (pack.group(g), pack.group_place(g));
    test(below_t(pack, set), Rule::GroupBelowT, place)?;
    test(!sets::has(set, 0), Rule::GroupLacksZero, place)?;
    test(sets::count(set) >= 2, Rule::GroupAtLeastTwo, place)?;
    test(
        (0..g).all(|earlier| pack.group(earlier) != set),
        Rule::GroupNotEarlier,
        place,
    )?;
    test(
        sets::has(set, pack.chosen(g)),
        Rule::ChosenInGroup,
        pack.chosen_place(g),
    )
}
