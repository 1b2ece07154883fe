//! The generator: what each source promises, and that a run of 30,000 cases hits everything.

use second::check::check;
use second::gen::borders;
use second::gen::conditions;
use second::gen::damage::{self, CellBreak, TextBreak};
use second::gen::grammar::Grammar;
use second::gen::lr::{self, Method};
use second::gen::passing::{passing, Drops, Scale};
use second::gen::pattern::{Alphabet, Pattern};
use second::gen::random;
use second::gen::rng::Rng;
use second::gen::scanner;
use second::gen::wide::greatest_sizes;
use second::hits;
use second::image::{Action, Pack};
use second::marked::SMALL_PACK;
use second::scan::scan;
use second::sets;
use second::shape::{pack, shape};
use second::text::{text_in, words_of, Form};

#[test]
fn packs_of_the_first_source_pass_at_every_scale() {
    let mut rng = Rng::new(1);
    let mut drops = Drops::default();
    for (scale, count) in [
        (Scale::Tiny, 300),
        (Scale::Small, 300),
        (Scale::Middle, 60),
        (Scale::Large, 15),
        (Scale::Greatest, 15),
    ] {
        let mut largest = 0;
        for _ in 0..count {
            let made = passing(&mut rng, scale, &mut drops);
            let image = made.tables.image();
            assert_eq!(check(&image).code, 0, "{scale:?}");
            if scale == Scale::Greatest {
                assert_eq!(made.tables.sizes(), greatest_sizes());
            }
            largest = largest.max(made.tables.act.len());
        }
        if scale == Scale::Large {
            assert!(largest > 80, "large packs have many states: {largest}");
        }
    }
    assert!(drops.reasons["a conflict in the parse tables"] > 0);
}

#[test]
fn random_tables_and_changes_keep_the_shape() {
    let mut rng = Rng::new(2);
    for round in 0..400 {
        let sizes = random::sizes(&mut rng, round % 40 == 0);
        let mut tables = random::tables(&mut rng, sizes);
        assert_eq!(tables.sizes(), sizes);
        for _ in 0..10 {
            assert!(tables.sizes_fit());
            assert_eq!(shape(&tables.image()).code, 0);
            random::change(&mut rng, &mut tables);
        }
        let looping = random::looping(&mut rng);
        assert_eq!(shape(&looping.image()).code, 0);
    }
}

#[test]
fn each_condition_is_made_to_fail_and_the_shape_stays_good() {
    let mut rng = Rng::new(8);
    let mut drops = Drops::default();
    for condition in 1..=6 {
        let mut failing = 0;
        for _ in 0..200 {
            let mut tables = passing(&mut rng, Scale::Small, &mut drops).tables;
            let changed = conditions::fail(&mut rng, &mut tables, condition);
            let checked = check(&tables.image());
            assert_ne!(checked.code, 4);
            if changed.is_some() && checked.code == 5 {
                failing += usize::from(checked.numbers[0] == condition as u32);
            }
        }
        assert!(failing > 40, "K{condition}: {failing}");
    }
}

#[test]
fn a_state_that_nothing_leads_to_mostly_passes() {
    let mut rng = Rng::new(9);
    let mut drops = Drops::default();
    let mut passed = 0;
    for _ in 0..200 {
        let mut tables = passing(&mut rng, Scale::Small, &mut drops).tables;
        let states = tables.act.len();
        conditions::unreached_state(&mut rng, &mut tables);
        assert_eq!(tables.act.len(), states + 1);
        let checked = check(&tables.image());
        assert_ne!(checked.code, 4);
        passed += usize::from(checked.code == 0);
    }
    assert!(passed > 50, "{passed}");
}

#[test]
fn damage_by_a_rule_breaks_the_shape() {
    let mut rng = Rng::new(3);
    for rule in second::shape::Rule::all() {
        let mut broken = 0;
        for _ in 0..40 {
            let sizes = random::sizes(&mut rng, false);
            let good = random::tables(&mut rng, sizes).image();
            if let Some(image) = damage::image_by_rule(&mut rng, &good, rule) {
                broken += usize::from(pack(&image).is_err_and(|fault| fault.rule == rule));
            }
        }
        assert!(broken > 0, "{rule:?}");
    }
}

#[test]
fn every_way_to_break_a_text_breaks_it() {
    let mut rng = Rng::new(4);
    let good = SMALL_PACK.as_bytes();
    assert!(words_of(good).is_ok());
    for how in TextBreak::ALL {
        let broken = (0..50)
            .map(|_| damage::text(&mut rng, good, how))
            .filter(|text| words_of(text).is_err())
            .count();
        // Lines swapped may be equal, another len, name or byte may be the one that was there, and a production
        // without its lhs may be of the form all the same.
        let least = match how {
            TextBreak::LinesSwapped
            | TextBreak::FieldMissing
            | TextBreak::LineName
            | TextBreak::LenOther
            | TextBreak::AnyByte => 20,
            _ => 50,
        };
        assert!(broken >= least, "{how:?}: {broken}");
    }
}

#[test]
fn every_way_to_break_cells_breaks_them() {
    let mut rng = Rng::new(10);
    let mut drops = Drops::default();
    let mut broken = std::collections::BTreeMap::new();
    for _ in 0..60 {
        let image = passing(&mut rng, Scale::Small, &mut drops).tables.image();
        let good = text_in(Form::Two, &pack(&image).unwrap());
        assert_eq!(words_of(&good), Ok(image));
        for how in CellBreak::ALL {
            let text = damage::cells(&mut rng, &good, how);
            *broken.entry(how).or_insert(0) += usize::from(words_of(&text).is_err());
        }
    }
    for (how, count) in broken {
        assert_eq!(count, 60, "{how:?}");
    }
}

#[test]
fn a_run_of_60_000_cases_hits_everything() {
    for seed in [1, 2] {
        let hits = hits::run(60_000, seed);
        assert_eq!(hits.cases, 60_000);
        assert_eq!(hits.missed(), Vec::<String>::new(), "seed {seed}");
        let wanted = hits::wanted();
        let others: Vec<&String> = hits.counts.keys().filter(|n| !wanted.contains(n)).collect();
        assert!(others.is_empty(), "answers not expected: {others:?}");
    }
}

#[test]
fn a_run_too_short_misses_something() {
    assert!(!hits::run(50, 1).missed().is_empty());
}

/// Does the pattern match exactly these bytes? Written as plainly as can be.
fn matches(pattern: &Pattern, bytes: &[u8]) -> bool {
    ends(pattern, bytes, 0).contains(&bytes.len())
}

/// Where a match that begins at `from` can end.
fn ends(pattern: &Pattern, bytes: &[u8], from: usize) -> Vec<usize> {
    let mut found = match pattern {
        Pattern::One(set) => match bytes.get(from) {
            Some(&byte) if set.has(byte) => vec![from + 1],
            _ => vec![],
        },
        Pattern::Seq(parts) => parts.iter().fold(vec![from], |froms, part| {
            let ends = froms.iter().flat_map(|&from| ends(part, bytes, from));
            let mut ends: Vec<usize> = ends.collect();
            ends.sort_unstable();
            ends.dedup();
            ends
        }),
        Pattern::Either(parts) => parts
            .iter()
            .flat_map(|part| ends(part, bytes, from))
            .collect(),
        Pattern::Opt(part) => [vec![from], ends(part, bytes, from)].concat(),
        Pattern::Plus(part) => {
            let mut all: Vec<usize> = Vec::new();
            let mut fresh = ends(part, bytes, from);
            while let Some(end) = fresh.pop() {
                if !all.contains(&end) {
                    all.push(end);
                    fresh.extend(ends(part, bytes, end));
                }
            }
            all
        }
    };
    found.sort_unstable();
    found.dedup();
    found
}

#[test]
fn scan_states_match_what_the_patterns_match() {
    let mut rng = Rng::new(5);
    let mut matched = 0;
    let mut built = 0;
    while built < 60 {
        let alphabet = Alphabet::random(&mut rng, 3);
        let mut patterns: Vec<(usize, Pattern)> = (1..6)
            .map(|t| (t, alphabet.random_pattern(&mut rng, 4)))
            .collect();
        patterns.push((6, alphabet.random_layout(&mut rng)));
        let Ok(tables) = scanner::build(&mut rng, &patterns) else {
            continue;
        };
        built += 1;
        let class = |byte: u8| {
            let byte = u16::from(byte);
            let inside = |range: &&second::image::Range| (range.lo..=range.hi).contains(&byte);
            tables
                .ranges
                .iter()
                .find(inside)
                .map_or(0, |range| usize::from(range.class))
        };
        for _ in 0..60 {
            // A sample of a pattern, sometimes with more bytes.
            let mut text = Vec::new();
            rng.pick(&patterns).1.sample(&mut rng, &mut text);
            if rng.percent(40) {
                text.push(*rng.pick(&alphabet.letters));
            }
            if rng.percent(20) {
                text.remove(0);
            }
            let mut state = Some(0);
            for length in 0..=text.len() {
                let expected = patterns
                    .iter()
                    .filter(|(_, pattern)| matches(pattern, &text[..length]))
                    .fold(0, |set, (t, _)| set | sets::single(*t));
                let found = state.map_or(0, |q: usize| tables.matching[q]);
                assert_eq!(found, expected, "{text:?} {length}");
                matched += usize::from(expected != 0);
                if let Some(&byte) = text.get(length) {
                    state = state
                        .and_then(|q| usize::from(tables.moves[q][class(byte)]).checked_sub(1));
                }
            }
        }
    }
    assert!(matched > 2_000, "{matched}");
}

/// Runs the parse tables over terminals alone.
fn accepts(grammar: &Grammar, tables: &lr::ParseTables, terminals: &[u16]) -> bool {
    let mut stack = vec![0];
    let mut rest = terminals.iter().map(|&t| usize::from(t)).peekable();
    loop {
        let top = stack[stack.len() - 1];
        let terminal = rest.peek().copied().unwrap_or(0);
        match Action::from_code(tables.act[top][terminal]) {
            Action::Error => return false,
            Action::Accept => return stack.len() == 2,
            Action::Shift(to) => {
                rest.next();
                stack.push(to);
            }
            Action::Reduce(p) => {
                let production = &grammar.productions[p];
                stack.truncate(stack.len() - production.symbols.len());
                let goto = tables.goto[stack[stack.len() - 1]][usize::from(production.lhs)];
                stack.push(usize::from(goto) - 1);
            }
        }
    }
}

#[test]
fn parse_tables_accept_derivations_of_their_grammar() {
    let mut rng = Rng::new(6);
    let pool = [1, 2, 3, 4, 5];
    for method in [Method::Lr1, Method::Lalr1, Method::Slr1] {
        let mut built = 0;
        while built < 80 {
            let grammar = match rng.percent(50) {
                true => Grammar::plain(&mut rng, &pool, 3),
                false => Grammar::structured(&mut rng, &pool, 5),
            };
            let Some(heights) = grammar.heights() else {
                continue;
            };
            let Ok(tables) = lr::build(&mut rng, &grammar, 6, method, false) else {
                continue;
            };
            built += 1;
            for _ in 0..20 {
                let terminals = grammar.derive(&mut rng, &heights, 8);
                assert!(
                    accepts(&grammar, &tables, &terminals),
                    "{method:?} {grammar:?} {terminals:?}"
                );
            }
        }
    }
}

#[test]
fn the_three_methods_tell_grammars_apart() {
    use second::gen::tables::{nonterminal, Production};
    let grammar = |rows: &[(u16, &[u16])]| Grammar {
        nonterminals: 3,
        productions: rows
            .iter()
            .map(|&(lhs, symbols)| Production {
                lhs,
                symbols: symbols.to_vec(),
            })
            .collect(),
    };
    let (a, b) = (nonterminal(1), nonterminal(2));
    // S: A 1 | 2 A 3 | B 3 | 2 B 1; A: 4; B: 4 is LR(1) and not LALR(1).
    let lr1: &[(u16, &[u16])] = &[
        (0, &[a, 1]),
        (0, &[2, a, 3]),
        (0, &[b, 3]),
        (0, &[2, b, 1]),
        (1, &[4]),
        (2, &[4]),
    ];
    // S: A 1 | 2 A 3 | 4 3 | 2 4 1; A: 4 is LALR(1) and not SLR(1).
    let lalr1: &[(u16, &[u16])] = &[
        (0, &[a, 1]),
        (0, &[2, a, 3]),
        (0, &[4, 3]),
        (0, &[2, 4, 1]),
        (1, &[4]),
        (2, &[4]),
    ];
    let mut rng = Rng::new(7);
    let mut good = |rows, method| lr::build(&mut rng, &grammar(rows), 5, method, false).is_ok();
    assert!(good(lr1, Method::Lr1));
    assert!(!good(lr1, Method::Lalr1));
    assert!(!good(lr1, Method::Slr1));
    assert!(good(lalr1, Method::Lr1));
    assert!(good(lalr1, Method::Lalr1));
    assert!(!good(lalr1, Method::Slr1));
}

#[test]
fn a_pack_that_tells_classes_tells_that_of_every_byte() {
    let mut rng = Rng::new(3);
    let text: Vec<u8> = (0..=255).collect();
    for count in 0..=64 {
        let ranges = borders::ranges(&mut rng, count);
        assert_eq!(ranges.len(), count);
        let image = borders::telling(&ranges).image();
        for byte in 0..=255 {
            let held = ranges.iter().find(|r| (r.lo..=r.hi).contains(&byte));
            let class = held.map_or(0, |r| usize::from(r.class));
            let scanned = scan(&image, &text, usize::from(byte), u64::MAX, u32::MAX);
            assert_eq!(
                (scanned.set, scanned.moves),
                (sets::single(class + 1), 1),
                "byte {byte} of {count} ranges"
            );
        }
    }
}

#[test]
fn a_long_scan_hangs_on_the_class_of_every_byte() {
    let mut rng = Rng::new(4);
    for count in [1, 2, 63, 64] {
        let ranges = borders::ranges(&mut rng, count);
        let image = borders::remembering(&ranges).image();
        assert!(pack(&image).is_ok(), "{count} ranges");
        let text: Vec<u8> = (0..1_000).map(|_| rng.number() as u8).collect();
        let whole = scan(&image, &text, 0, u64::MAX, u32::MAX);
        assert_eq!(whole.moves, 1_000);
        let last = |text: &[u8]| {
            (0..8)
                .map(|n| scan(&image, &text[..1_000 - n], 0, u64::MAX, u32::MAX))
                .collect::<Vec<_>>()
        };
        let classes = Pack::new(&image).classes();
        for place in [0, 1, 500, 900] {
            let other =
                (0..=255).find(|&b| classes[usize::from(b)] != classes[usize::from(text[place])]);
            let mut changed = text.clone();
            changed[place] = other.unwrap();
            assert!(
                last(&text) != last(&changed),
                "{count} ranges, byte {place}"
            );
        }
    }
}
