//! The manual's marked runs, by the types of the crate, and every query that stands beside a pack.

use std::fs;

use second::marked::{marked_checks, marked_parses, without_goto, TAX_BY_DAY};
use zhgarelli::{Failure, Pack, Part, Record, Refused, Sizes, Tree, Work};

fn pack(name: &str) -> Pack {
    let text = fs::read(format!("../packs/{name}.pack")).expect("the pack is there");
    Pack::read(text).expect("the pack is good")
}

/// Code, place, length, terminal, records and moves of a parse.
fn numbers(pack: &Pack, query: &[u8], tree: &mut Tree, allowance: u32) -> [u32; 6] {
    let (code, values, work) = match pack.parse(query, tree, allowance) {
        Ok(parsed) => {
            let work = Work {
                records: parsed.records().len(),
                moves: parsed.moves(),
            };
            (0, [query.len(), 0, 0], work)
        }
        Err(refused) => (
            refused.code(),
            refused.values(),
            refused.work().unwrap_or_default(),
        ),
    };
    let [place, length, terminal] = values.map(|value| value as u32);
    [
        code,
        place,
        length,
        terminal,
        work.records as u32,
        work.moves,
    ]
}

#[test]
fn the_marked_parses() {
    for marked in marked_parses() {
        let pack = Pack::of_image(marked.image).expect("of good shape");
        let mut tree = Tree::with_room(marked.room);
        let query = marked.query.as_bytes();
        let answer = numbers(&pack, query, &mut tree, marked.allowance);
        assert_eq!(answer, marked.answer, "case {}", marked.number);
        assert_eq!(tree.records(query).len(), marked.answer[4] as usize);
    }
}

#[test]
fn the_marked_checks() {
    for (number, image, [code, values @ ..]) in marked_checks() {
        let pack = Pack::of_image(image).expect("of good shape");
        let answer = match pack.check() {
            Ok(()) => (0, [0; 3]),
            Err(refused) => (refused.code(), refused.values()),
        };
        let values = values.map(|value| value as usize);
        assert_eq!(answer, (code, values), "case {number}");
    }
    let failure = Failure::K5 {
        state: 1,
        production: 0,
    };
    let pack = Pack::of_image(without_goto()).expect("of good shape");
    assert_eq!(pack.check(), Err(Refused::Check(failure)));
}

#[test]
fn the_records_of_tax_by_day() {
    let (query, answer, records) = TAX_BY_DAY;
    let pack = pack("small");
    let mut tree = Tree::new();
    assert_eq!(
        numbers(&pack, query.as_bytes(), &mut tree, u32::MAX),
        answer
    );
    assert_eq!(tree.records(query).words(), records.concat());
    let forest = tree.records(query).forest();
    let walked: Vec<(usize, bool, usize)> = forest
        .walk()
        .map(|step| (step.depth, step.last, step.subtree.index()))
        .collect();
    assert_eq!(
        walked,
        [(0, true, 3), (1, false, 0), (1, false, 1), (1, true, 2)]
    );
}

#[test]
fn a_tree_that_is_used_again_holds_the_last_parse_alone() {
    let pack = pack("small");
    let mut tree = Tree::with_room(10);
    pack.parse("tax by day", &mut tree, u32::MAX)
        .expect("accepted");
    pack.parse("tax day", &mut tree, u32::MAX)
        .expect_err("refused");
    assert_eq!(tree.records("tax day").len(), 1);
    let long = vec![b'a'; 65_536];
    let refused = pack.parse(&long, &mut tree, u32::MAX).unwrap_err();
    assert_eq!(refused, Refused::QueryTooLong);
    assert!(tree.records(&long).is_empty());
}

/// The state on top by the whole stack: every record replayed on the pack's tables.
fn replayed(pack: &Pack, tree: &Tree, query: &str) -> Option<usize> {
    let mut stack = vec![0];
    for record in tree.records(query) {
        match record {
            Record::Leaf(leaf) => {
                assert_eq!(stack.last(), Some(&leaf.state));
                match pack.action(leaf.state, leaf.terminal) {
                    zhgarelli::Action::Shift(state) => stack.push(state),
                    other => panic!("a leaf by {other:?}"),
                }
            }
            Record::Node(node) => {
                stack.truncate(stack.len() - node.children);
                assert_eq!(stack.last(), Some(&node.state));
                stack.push(
                    pack.goto(node.state, node.nonterminal)
                        .expect("there is a goto"),
                );
            }
        }
    }
    stack.last().copied()
}

/// The lines `CODE PLACE QUERY` of a pack's file of queries.
fn queries(name: &str) -> Vec<(u32, usize, String)> {
    let text = fs::read_to_string(format!("../packs/{name}.queries")).expect("the file is there");
    let lines = text.lines().filter(|line| !line.starts_with('#'));
    lines
        .map(|line| {
            let mut words = line.splitn(3, ' ');
            let mut next = || words.next().expect("three words");
            let code = next().parse().expect("a code");
            (code, next().parse().expect("a place"), next().to_string())
        })
        .collect()
}

#[test]
fn the_queries_beside_each_pack() {
    for name in ["small", "json", "profile"] {
        let pack = pack(name);
        assert_eq!(pack.check(), Ok(()));
        let queries = queries(name);
        assert!(queries.iter().any(|(code, ..)| *code == 0));
        assert!(queries.iter().any(|(code, ..)| *code != 0));
        for (code, place, query) in queries {
            let mut tree = Tree::new();
            let answer = numbers(&pack, query.as_bytes(), &mut tree, u32::MAX);
            assert_eq!(
                (answer[0], answer[1] as usize),
                (code, place),
                "{name}: {query}"
            );
            let state = pack.state_on_top(tree.records(&query));
            assert_eq!(state, replayed(&pack, &tree, &query), "{name}: {query}");
            if code == 8 {
                let valid = pack.valid(state.expect("a state is on top"));
                assert!(!valid.contains(answer[3] as usize), "{name}: {query}");
            }
        }
    }
}

#[test]
fn a_word_of_an_image_has_its_part() {
    let pack = pack("small");
    let sizes = pack.sizes();
    assert_eq!(sizes, Sizes::of([4, 1, 2, 5, 5, 5, 6, 0]));
    assert_eq!(sizes.words(), pack.image().len());
    // The places are those of the manual's section 6.1.
    for (word, part) in [
        (0, Part::Form),
        (8, Part::Size(7)),
        (9, Part::Layout),
        (13, Part::Outranks(0)),
        (28, Part::Outranks(3)),
        (29, Part::Left(0)),
        (46, Part::Length(1)),
        (47, Part::Symbol(1, 0)),
        (61, Part::Action(0, 0)),
        (80, Part::Action(4, 3)),
        (81, Part::Goto(0, 0)),
        (86, Part::Range(0, 0)),
        (104, Part::Move(0, 0)),
        (128, Part::Move(4, 4)),
        (129, Part::Scan(0, 0)),
        (188, Part::Scan(4, 2)),
        (189, Part::End),
    ] {
        assert_eq!(sizes.part(word), part, "word {word}");
    }
}

#[test]
fn the_tables_are_those_of_the_second_program() {
    for name in ["small", "json", "profile"] {
        let ours = pack(name);
        let theirs = second::image::Pack::new(ours.image());
        let sizes = ours.sizes();
        assert_eq!(sizes.numbers(), theirs.sizes.to_words().map(usize::from));
        assert_eq!(ours.layout().bits(), theirs.layout());
        let classes = theirs.classes();
        for byte in 0..=255u8 {
            assert_eq!(
                ours.class(byte),
                usize::from(classes[usize::from(byte)]),
                "{name} {byte}"
            );
        }
        for state in 0..sizes.states {
            assert_eq!(ours.valid(state).bits(), theirs.valid_set(state));
            for nonterminal in 0..sizes.nonterminals {
                assert_eq!(
                    ours.goto(state, nonterminal),
                    theirs.goto(state, nonterminal)
                );
            }
        }
        for q in 0..sizes.scan_states {
            let sets = ours.scan_sets(q).expect("a scan state");
            let bits = [sets.accepted, sets.rejected, sets.possible].map(|set| set.bits());
            assert_eq!(bits, [theirs.acc(q), theirs.rej(q), theirs.poss(q)]);
            for class in 0..sizes.classes {
                assert_eq!(ours.moved(q, class), theirs.moved(q, class));
            }
        }
        for p in 0..sizes.productions {
            let production = ours.production(p).expect("a production");
            assert_eq!(production.left, theirs.lhs(p));
            let symbols: Vec<u16> = production
                .symbols
                .iter()
                .map(|symbol| symbol.number() as u16)
                .collect();
            assert_eq!(symbols, theirs.symbols(p));
        }
        for g in 0..sizes.groups {
            let group = ours.group(g).expect("a group");
            assert_eq!(
                (group.terminals.bits(), group.chosen),
                (theirs.group(g), theirs.chosen(g))
            );
        }
    }
}

#[test]
fn every_refusal_says_its_code_in_words() {
    let work = Work {
        records: 3,
        moves: 7,
    };
    let failures = [
        Failure::K1 { scan_state: 2 },
        Failure::K2 { scan_state: 2 },
        Failure::K3 {
            state: 4,
            scan_state: 2,
        },
        Failure::K4 { state: 4 },
        Failure::K5 {
            state: 4,
            production: 1,
        },
        Failure::K6 { state: 4 },
    ];
    for (number, failure) in failures.iter().enumerate() {
        assert_eq!(failure.condition() as usize, number + 1);
        assert!(failure
            .to_string()
            .starts_with(&format!("K{} fails for ", number + 1)));
    }
    let place = 9;
    let refusals = [
        Refused::Form { place },
        Refused::PackTooLong,
        Refused::Room { needed: 12 },
        Refused::Shape { word: 61 },
        Refused::Check(failures[4]),
        Refused::QueryTooLong,
        Refused::NoTerminal { place, work },
        Refused::Unexpected {
            place,
            length: 5,
            terminal: 6,
            work,
        },
        Refused::Several {
            place,
            length: 5,
            work,
        },
        Refused::Stuck { place, work },
        Refused::TreeFull { place, work },
        Refused::StackFull { place, work },
        Refused::Allowance { place, work },
        Refused::NotOneTree,
        Refused::TooDeep,
    ];
    for (number, refused) in refusals.iter().enumerate() {
        let code = number + 1;
        assert_eq!(refused.code() as usize, code);
        let words = refused.to_string();
        assert!(words.ends_with(&format!(" (code {code})")), "{words}");
        let first = refused.values()[0];
        let named = first == 0 || code == 5 || words.contains(&first.to_string());
        assert!(named, "{words} does not say {first}");
        let of_a_run = (7..=13).contains(&code);
        assert_eq!(refused.work().is_some(), of_a_run);
        assert_eq!(refused.place(), of_a_run.then_some(place));
        let _: &dyn std::error::Error = refused;
    }
    let end = Refused::Unexpected {
        place,
        length: 0,
        terminal: 0,
        work,
    };
    assert_eq!(
        end.to_string(),
        "the query ends too early, at byte 9 (code 8)"
    );
}
