//! How often each code of each entry point, each rule of the shape, each line of the form and each condition is hit.

use std::collections::BTreeMap;

use crate::cases::{Case, CaseReader, MOST_WORDS};
use crate::check::{self, check, Edges, Failing};
use crate::gen::damage::{CellBreak, TextBreak};
use crate::gen::mix::{Kinds, Mix};
use crate::image::{Action, Pack, Sizes, FIRST_NONTERMINAL, LAYOUT_PLACE, SIZE_NAMES, SIZE_PLACE};
use crate::leaf;
use crate::looks::{Look, Looks};
use crate::numbers::*;
use crate::parse::{parse, Parsed};
use crate::print::{print, Printed};
use crate::scan::{scan, Meter, Scanner};
use crate::sets::{self, Set};
use crate::shape::{self, Rule};
use crate::text::{move_to, read, text_in, words_of, write_in, Form, Line};

/// Counts by name, with a name for everything that has to be hit.
pub struct Hits {
    pub counts: BTreeMap<String, usize>,
    pub cases: usize,
    pub drops: BTreeMap<&'static str, usize>,
}

fn rule_name(rule: Rule) -> String {
    match rule {
        Rule::SizeInRange(i) => format!("shape rule SizeInRange {}", SIZE_NAMES[i]),
        rule => format!("shape rule {rule:?}"),
    }
}

/// The ways in which an action of a parse is refused.
const REFUSED_ACTIONS: [&str; 7] = [
    "parse code 10: too few states",
    "parse code 10: no goto",
    "parse code 10: accept, not two states",
    "parse code 11: shift",
    "parse code 11: reduce",
    "parse code 12: shift",
    "parse code 12: reduce",
];

/// The ways in which a terminal is unexpected.
const UNEXPECTED_WAYS: [&str; 3] = [
    "parse code 8: at the end",
    "parse code 8: at a token",
    "parse code 8: at a token, several without a group",
];

/// What becomes of layout where a state looks for its terminals and layout together.
const LOOKED: [&str; 15] = [
    "parse: layout skipped",
    "parse: layout skipped up to the end of the text",
    "parse: layout skipped after a reduction",
    "parse: layout skipped, longer than a token that begins alike",
    "parse: layout skipped, shorter than a token that another state allows",
    "parse: layout skipped, chosen from a group with a token",
    "parse: layout skipped, chosen from a group of layout alone",
    "parse: a token, longer than layout that begins alike",
    "parse: a token, chosen from a group with layout",
    "parse: no match, a token forgotten where layout is rejected",
    "parse code 8: of a terminal that is valid",
    "parse code 9: tokens alone",
    "parse code 9: a token and layout",
    "parse code 9: layout alone",
    "parse code 13: past skipped layout",
];

/// Where among its places a condition fails: a state is the first, neither, or the last.
const SPOTS: [&str; 3] = ["at the first place", "in the middle", "at the last place"];

/// What packs have to be checked beside the conditions that fail.
const CHECKED: [&str; 8] = [
    "check code 0: a state that nothing leads to",
    "check code 5: two conditions fail",
    "check code 5: K5 fails on one way back and holds on another",
    "check code 0: a token and layout, by a group",
    "check code 0: layout alone, by a group",
    "check code 5: K3 fails for tokens alone",
    "check code 5: K3 fails for a token and layout",
    "check code 5: K3 fails for layout alone",
];

/// What a parse has to meet beside its codes.
const MET: [&str; 9] = [
    "parse: 0 bytes",
    "parse: 1 byte",
    "parse: 65535 bytes",
    "parse: at most 511 states",
    "parse: at most 512 states",
    "parse code 0: no record more would fit",
    "parse code 0: no move more is allowed",
    "parse code 11: one record short of code 0",
    "parse code 13: one move short of code 0",
];

/// What texts of two forms have to meet beside their codes. A text that is over the limit in the other form alone is in a
/// narrow band, and has to be aimed at.
const FORMS: [&str; 20] = [
    "read code 0: form 2, a line of act empty",
    "read code 0: form 2, a line of goto empty",
    "read code 0: form 2, a line of move empty",
    "read code 0: form 2, a full row",
    "read code 0: form 2, 65535 bytes",
    "write code 0: form 2 is over the limit",
    "write code 2: form 2 is not",
    "write2 code 0: form 1 is over the limit",
    "write2 code 2: form 1 is not",
    "write2 code 0: 65535 bytes",
    "form2 code 1: the first line of form 2",
    "form1 code 1: the first line of form 1",
    "form2 code 2: the source",
    "form1 code 2: the source",
    "form2 code 2: the target",
    "form1 code 2: the target",
    "form2 code 0: no byte more would fit",
    "form1 code 0: no byte more would fit",
    "form2 code 3: one byte short",
    "form1 code 3: one byte short",
];

/// What a printout has to meet beside its codes.
const PRINTED: [&str; 12] = [
    "print code 0: one leaf",
    "print code 0: a node without children",
    "print code 0: a leaf with [",
    "print code 0: a leaf with ]",
    "print code 0: a leaf with \\",
    "print code 0: a leaf that is not within the text",
    "print code 0: a leaf under 256 nodes",
    "print code 0: no byte more would fit",
    "print code 3: one byte short",
    "print code 15: 257 nodes on one way down",
    "print code 14: more than 256 nodes on one way down",
    PRINTED_NOTHING,
];

const PRINTED_NOTHING: &str = "print code 14: no words";

/// Why words are not one whole tree.
const NO_TREE: [&str; 4] = [
    "print code 14: words left over",
    "print code 14: a first word of 0",
    "print code 14: too few children",
    "print code 14: several trees",
];

/// What is too large for a case file.
const PRINTED_LARGE: [&str; 3] = [
    "print code 0: 65535 records",
    "print code 0: a text over 65535 bytes",
    "print code 3: a size of 2 to the 32nd or more",
];

/// Everything that has to be hit.
pub fn wanted() -> Vec<String> {
    let mut names: Vec<String> = Vec::new();
    names.extend([0, 4].map(|code| format!("shape code {code}")));
    names.extend(Rule::all().into_iter().map(rule_name));
    names.extend(["match", "no match"].map(|what| format!("scan code 0: {what}")));
    names.extend([4, 6, 13].map(|code| format!("scan code {code}")));
    names.extend([0, 1, 2, 3, 4].map(|code| format!("read code {code}")));
    names.extend(Line::ALL.map(|line| format!("read code 1: line {}", line.name())));
    names.extend(TextBreak::ALL.map(|how| format!("text break {how:?}")));
    names.extend([0, 2, 3, 4].map(|code| format!("write code {code}")));
    names.extend([0, 2, 3, 4].map(|code| format!("read code {code}: form 2")));
    let lines = Line::ALL.into_iter().filter(|&line| line != Line::Pack);
    names.extend(lines.map(|line| format!("read code 1: form 2, line {}", line.name())));
    names.extend(CellBreak::ALL.map(|how| format!("cell break {how:?}")));
    names.extend([0, 2, 3, 4].map(|code| format!("write2 code {code}")));
    for to in ["form2", "form1"] {
        names.extend([0, 1, 2, 3, 4].map(|code| format!("{to} code {code}")));
    }
    names.extend(FORMS.map(str::to_string));
    names.extend([0, 4, 5].map(|code| format!("check code {code}")));
    for condition in 1..=6 {
        names.extend(SPOTS.map(|spot| format!("check code 5: K{condition} {spot}")));
    }
    names.extend(CHECKED.map(str::to_string));
    names.extend([0, 4, 6, 7].map(|code| format!("parse code {code}")));
    names.extend(UNEXPECTED_WAYS.map(str::to_string));
    names.extend([9, 10, 11, 12, 13].map(|code| format!("parse code {code}")));
    names.extend(REFUSED_ACTIONS.map(str::to_string));
    names.extend(MET.map(str::to_string));
    names.extend(LOOKED.map(str::to_string));
    names.extend(
        ["a part", "an empty part inside", "the empty front part"]
            .map(|part| format!("leaf: {part}")),
    );
    names.extend([0, 3, 14, 15].map(|code| format!("print code {code}")));
    names.extend(PRINTED.map(str::to_string));
    names.extend(NO_TREE.map(str::to_string));
    names.extend(PRINTED_LARGE.map(str::to_string));
    names
}

impl Hits {
    fn new() -> Hits {
        Hits {
            counts: wanted().into_iter().map(|name| (name, 0)).collect(),
            cases: 0,
            drops: BTreeMap::new(),
        }
    }

    fn hit(&mut self, name: impl Into<String>) {
        *self.counts.entry(name.into()).or_default() += 1;
    }

    /// The names that have to be hit and never were.
    pub fn missed(&self) -> Vec<String> {
        wanted()
            .into_iter()
            .filter(|name| self.counts[name] == 0)
            .collect()
    }

    fn count(&mut self, case: &Case) {
        self.cases += 1;
        match case {
            Case::Shape { image } => match shape::pack(image) {
                Ok(_) => self.hit("shape code 0"),
                Err(fault) => {
                    self.hit("shape code 4");
                    self.hit(rule_name(fault.rule));
                }
            },
            Case::Scan {
                image,
                text,
                start,
                set,
                allowance,
            } => {
                let scanned = scan(image, text, *start as usize, *set, *allowance);
                match (scanned.code, scanned.set) {
                    (DONE, sets::EMPTY) => self.hit("scan code 0: no match"),
                    (DONE, _) => self.hit("scan code 0: match"),
                    (code, _) => self.hit(format!("scan code {code}")),
                }
            }
            Case::Read { text, room } => {
                let mut lent = [0; MOST_WORDS];
                let code = read(text, &mut lent[..*room as usize]).code;
                let second = Form::of(text) == Some(Form::Two);
                self.hit(format!("read code {code}"));
                if code == TEXT_FORM {
                    if let Err(malformed) = words_of(text) {
                        let name = malformed.line.name();
                        self.hit(format!("read code 1: line {name}"));
                        if second {
                            self.hit(format!("read code 1: form 2, line {name}"));
                        }
                    }
                } else if second {
                    self.hit(format!("read code {code}: form 2"));
                }
                if second && code == DONE {
                    let pack = Pack::new(&lent[..pack_words(&lent)]);
                    self.count_form_two(text, &pack);
                }
            }
            Case::Write { form, image, room } => {
                let mut lent = vec![0; *room as usize];
                let written = write_in(*form, image, &mut lent);
                self.hit(format!("{} code {}", case.name(), written.code));
                self.count_written(*form, image, written.code, written.number as usize);
            }
            Case::Move { to, text, room } => {
                let mut lent = vec![0; *room as usize];
                let moved = move_to(*to, text, &mut lent);
                let (room, number) = (*room as usize, moved.number as usize);
                let name = case.name();
                self.hit(format!("{name} code {}", moved.code));
                match moved.code {
                    TEXT_FORM if Form::of(text) == Some(*to) => {
                        let wrong = to.number();
                        self.hit(format!("{name} code 1: the first line of form {wrong}"));
                    }
                    TEXT_LONG if text.len() > TEXT_LIMIT => {
                        self.hit(format!("{name} code 2: the source"));
                    }
                    TEXT_LONG => self.hit(format!("{name} code 2: the target")),
                    DONE if number == room => {
                        self.hit(format!("{name} code 0: no byte more would fit"));
                    }
                    ROOM_SMALL if number == room + 1 => {
                        self.hit(format!("{name} code 3: one byte short"));
                    }
                    _ => (),
                }
            }
            Case::Check { image } => {
                self.hit(format!("check code {}", check(image).code));
                if let Ok(pack) = shape::pack(image) {
                    self.count_conditions(&pack);
                }
            }
            Case::Parse {
                image,
                text,
                tree,
                allowance,
            } => {
                let mut lent = vec![0; *tree as usize];
                let parsed = parse(image, text, &mut lent, *allowance);
                match parsed.code {
                    UNEXPECTED => {
                        let rest = &text[parsed.place as usize..];
                        self.hit(UNEXPECTED_WAYS[unexpected(image, rest)]);
                    }
                    code => self.hit(format!("parse code {code}")),
                }
                if parsed.code == SHAPE || parsed.code == QUERY_LONG {
                    return;
                }
                let records = &lent[..parsed.records as usize * RECORD_WORDS];
                let place = parsed.place as usize;
                let looks = Looks::of(Pack::new(image), text, records, place);
                if (STUCK..=STACK_FULL).contains(&parsed.code) {
                    self.hit(refused_action(image, text, &looks, parsed.code));
                }
                self.count_looks(image, text, &looks, parsed);
                let again = |records: usize, moves: u32| {
                    let mut lent = vec![0; *tree as usize + records * RECORD_WORDS];
                    parse(image, text, &mut lent, allowance.saturating_add(moves)).code
                };
                let room = *tree as usize / RECORD_WORDS;
                let met = [
                    text.is_empty(),
                    text.len() == 1,
                    text.len() == TEXT_LIMIT,
                    looks.highest == STACK_LIMIT - 1,
                    looks.highest == STACK_LIMIT,
                    parsed.code == DONE && room == parsed.records as usize,
                    parsed.code == DONE && *allowance == parsed.moves,
                    parsed.code == TREE_FULL && again(1, 0) == DONE,
                    parsed.code == ALLOWANCE && again(0, 1) == DONE,
                ];
                for (name, _) in MET.into_iter().zip(met).filter(|(_, met)| *met) {
                    self.hit(name);
                }
            }
            Case::Leaf { text, words } => {
                let (start, length) = leaf::part(text, *words);
                match (start, length) {
                    (0, 0) => self.hit("leaf: the empty front part"),
                    (_, 0) => self.hit("leaf: an empty part inside"),
                    _ => self.hit("leaf: a part"),
                }
            }
            Case::Print { text, tree, room } => {
                let mut lent = vec![0; *room as usize];
                let printed = print(text, tree, &mut lent);
                self.hit(format!("print code {}", printed.code));
                self.count_print(text, tree, *room as usize, printed);
            }
        }
    }

    /// What a text of form 2 that is read holds.
    fn count_form_two(&mut self, text: &[u8], pack: &Pack) {
        let sizes = pack.sizes;
        let act = (0..sizes.states).map(|s| pack.act_row(s));
        let goto = (0..sizes.states).map(|s| pack.goto_row(s));
        let moves = (0..sizes.scan_states).map(|q| pack.move_row(q));
        let empty = |row: &[u16]| row.iter().all(|&code| code == 0);
        let met = [
            act.clone().any(empty),
            goto.clone().any(empty),
            moves.clone().any(empty),
            act.chain(goto).chain(moves).any(|row| !row.contains(&0)),
            text.len() == TEXT_LIMIT,
        ];
        for (name, _) in FORMS.into_iter().zip(met).filter(|(_, met)| *met) {
            self.hit(name);
        }
    }

    /// What a writer meets: the other form of the image beside the one that it writes.
    fn count_written(&mut self, form: Form, image: &[u16], code: u32, number: usize) {
        if code != DONE && code != TEXT_LONG {
            return;
        }
        let over = text_in(form.other(), &Pack::new(image)).len() > TEXT_LIMIT;
        match (form, code, over) {
            (Form::One, DONE, true) => self.hit(FORMS[5]),
            (Form::One, TEXT_LONG, false) => self.hit(FORMS[6]),
            (Form::Two, DONE, true) => self.hit(FORMS[7]),
            (Form::Two, TEXT_LONG, false) => self.hit(FORMS[8]),
            _ => (),
        }
        if form == Form::Two && code == DONE && number == TEXT_LIMIT {
            self.hit(FORMS[9]);
        }
    }

    fn count_print(&mut self, text: &[u8], tree: &[u16], room: usize, printed: Printed) {
        let walk = Walk::of(tree);
        if printed.code == NOT_ONE_TREE {
            match walk.wrong {
                _ if tree.is_empty() => self.hit(PRINTED_NOTHING),
                Some(wrong) => self.hit(NO_TREE[wrong]),
                None => (),
            }
        }
        let done = printed.code == DONE;
        let leaves = || {
            let records = tree.chunks_exact(RECORD_WORDS);
            records.filter(|record| (1..64).contains(&record[0]))
        };
        let with = |byte: u8| {
            leaves()
                .any(|leaf| leaf::leaf(text, [leaf[0], leaf[1], leaf[2], leaf[3]]).contains(&byte))
        };
        let outside = |leaf: &[u16]| usize::from(leaf[1]) + usize::from(leaf[2]) > text.len();
        let size = printed.number as usize;
        let met = [
            done && tree.len() == RECORD_WORDS && leaves().count() == 1,
            done && walk.childless,
            done && with(b'['),
            done && with(b']'),
            done && with(b'\\'),
            done && leaves().any(outside),
            done && walk.above_leaf == NODES_DOWN,
            done && size == room,
            printed.code == ROOM_SMALL && size == room + 1,
            printed.code == TOO_DEEP && walk.nodes_down == NODES_DOWN + 1,
            printed.code == NOT_ONE_TREE && walk.nodes_down > NODES_DOWN,
        ];
        for (name, _) in PRINTED.into_iter().zip(met).filter(|(_, met)| *met) {
            self.hit(name);
        }
        let large = [
            done && tree.len() == RECORD_LIMIT * RECORD_WORDS,
            done && text.len() > TEXT_LIMIT,
            printed.code == ROOM_SMALL && printed.number >> 32 != 0,
        ];
        let large = PRINTED_LARGE.into_iter().zip(large);
        for (name, _) in large.filter(|(_, met)| *met) {
            self.hit(name);
        }
    }

    /// What the looks of a parse met, each name at most once for a parse.
    fn count_looks(&mut self, image: &[u16], text: &[u8], looks: &Looks, parsed: Parsed) {
        let pack = Pack::new(image);
        let layout = pack.layout();
        let mut met = [false; LOOKED.len()];
        for look in &looks.looks {
            let &Look { state, place, .. } = look;
            let valid = looks.sought(state) & !layout;
            let length_of = |set: Set| looks.scan(text, place, set).map_or(0, |m| m.length);
            let (Some(found), Some(t)) = (look.found, look.terminal) else {
                met[9] |= look.found.is_none() && length_of(valid) > 0;
                continue;
            };
            let several = sets::count(found.set) > 1;
            if !sets::has(layout, t) {
                let shorter = length_of(layout);
                met[7] |= shorter > 0 && shorter < found.length;
                met[8] |= several && found.set & layout != sets::EMPTY;
            } else if place < looks.place {
                let shorter = length_of(valid);
                let all = sets::below(pack.sizes.terminals) & !sets::single(0) & !layout;
                met[0] = true;
                met[1] |= place + found.length == text.len();
                met[2] |= look.reduced;
                met[3] |= shorter > 0 && shorter < found.length;
                met[4] |= length_of(all) > found.length;
                met[5] |= several && sides(found.set, layout) == 1;
                met[6] |= several && sides(found.set, layout) == 2;
            }
        }
        let valid = sets::has(pack.valid_set(looks.top()), parsed.terminal as usize);
        met[10] = parsed.code == UNEXPECTED && parsed.terminal > 0 && valid;
        if let (SEVERAL, Some(found)) = (parsed.code, looks.looks.last().and_then(|l| l.found)) {
            met[11 + sides(found.set, layout)] = true;
        }
        let skipped = looks
            .looks
            .iter()
            .any(|l| l.place < looks.place && l.terminal.is_some_and(|t| sets::has(layout, t)));
        met[14] = parsed.code == ALLOWANCE && skipped;
        for (name, _) in LOOKED.into_iter().zip(met).filter(|(_, met)| *met) {
            self.hit(name);
        }
    }

    fn count_conditions(&mut self, pack: &Pack) {
        let edges = Edges::new(pack);
        let failing: Vec<Failing> = check::conditions(pack, &edges).collect();
        let Some(&Failing { condition, places }) = failing.first() else {
            if (1..pack.sizes.states).any(|s| edges.into[s].is_empty()) {
                self.hit(CHECKED[0]);
            }
            let mut grouped = [false; 3];
            for s in 0..pack.sizes.states {
                for q in 0..pack.sizes.scan_states {
                    let set = pack.acc(q) & (pack.valid_set(s) | pack.layout());
                    grouped[sides(set, pack.layout())] |= sets::count(set) > 1;
                }
            }
            for (name, _) in CHECKED[2..5]
                .iter()
                .zip(grouped)
                .skip(1)
                .filter(|(_, is)| *is)
            {
                self.hit(*name);
            }
            return;
        };
        let (first, count) = match condition {
            // Scan state 0 accepts and rejects nothing.
            1 => (1, pack.sizes.scan_states),
            2 => (0, pack.sizes.scan_states),
            _ => (0, pack.sizes.states),
        };
        let spot = match places[0] {
            place if place == first => 0,
            place if place + 1 < count => 1,
            _ => 2,
        };
        self.hit(format!("check code 5: K{condition} {}", SPOTS[spot]));
        if failing.len() > 1 {
            self.hit(CHECKED[1]);
        }
        if condition == 5 && some_way_back(pack, &edges, places) {
            self.hit(CHECKED[2]);
        }
        if condition == 3 {
            let sought = pack.valid_set(places[0]) | pack.layout();
            self.hit(CHECKED[5 + sides(pack.acc(places[1]) & sought, pack.layout())]);
        }
    }
}

/// How many words the image at the front of a room has.
fn pack_words(room: &[u16]) -> usize {
    Sizes::from_words(&room[SIZE_PLACE..LAYOUT_PLACE])
        .places()
        .end
}

/// Is there a way back from state s by production p along which all is well?
fn some_way_back(pack: &Pack, edges: &Edges, [s, p]: [usize; 2]) -> bool {
    let mut reached = vec![s];
    for &symbol in pack.symbols(p).iter().rev() {
        let well = |v: &usize| *v != 0 && edges.all_carry(*v, usize::from(symbol));
        let before = |v: usize| edges.into[v].iter().map(|&(from, _)| from);
        reached = reached.into_iter().filter(well).flat_map(before).collect();
        reached.sort_unstable();
        reached.dedup();
    }
    let lhs = pack.lhs(p);
    reached.into_iter().any(|v| pack.goto(v, lhs).is_some())
}

/// The way in which a terminal is unexpected: the second scan is made again.
fn unexpected(image: &[u16], rest: &[u8]) -> usize {
    let pack = Pack::new(image);
    let others = sets::below(pack.sizes.terminals) & !sets::single(0) & !pack.layout();
    match Scanner::new(pack).scan(rest, others, &mut Meter::new(u32::MAX)) {
        _ if rest.is_empty() => 0,
        Ok(Some(found)) if sets::count(found.set) > 1 && pack.chosen_of(found.set).is_none() => 2,
        _ => 1,
    }
}

/// What a walk over tree records meets: it goes on where it can, be they one tree or not.
#[derive(Default)]
struct Walk {
    /// The first of the ways in which they are not one whole tree.
    wrong: Option<usize>,
    /// The most nodes on a way down, and on one that ends in a leaf.
    nodes_down: usize,
    above_leaf: usize,
    childless: bool,
}

impl Walk {
    fn of(tree: &[u16]) -> Walk {
        let mut walk = Walk::default();
        if tree.len() % RECORD_WORDS != 0 {
            walk.wrong = Some(0);
        }
        // For each tree that has no node above it yet: the nodes on a way down, and on one that ends in a leaf.
        let mut roots: Vec<(usize, Option<usize>)> = Vec::new();
        for record in tree.chunks_exact(RECORD_WORDS) {
            let [first, count] = [record[0], record[2]].map(usize::from);
            if first < FIRST_NONTERMINAL {
                if first == 0 {
                    walk.wrong = walk.wrong.or(Some(1));
                }
                roots.push((0, Some(0)));
                continue;
            }
            if count > roots.len() {
                walk.wrong = walk.wrong.or(Some(2));
            }
            let children = roots.split_off(roots.len().saturating_sub(count));
            walk.childless |= count == 0;
            let down = children.iter().map(|child| child.0).max().unwrap_or(0);
            let to_leaf = children.iter().filter_map(|child| child.1).max();
            roots.push((down + 1, to_leaf.map(|nodes| nodes + 1)));
            walk.nodes_down = walk.nodes_down.max(down + 1);
            walk.above_leaf = walk.above_leaf.max(to_leaf.map_or(0, |nodes| nodes + 1));
        }
        if roots.len() > 1 {
            walk.wrong = walk.wrong.or(Some(3));
        }
        walk
    }
}

/// Names the action that ended a parse with code 10, 11 or 12.
fn refused_action(image: &[u16], text: &[u8], looks: &Looks, code: u32) -> String {
    let pack = Pack::new(image);
    let last = looks.looks.last().filter(|_| looks.place < text.len());
    let terminal = last.and_then(|look| look.terminal).unwrap_or(0);
    let what = match (code, pack.action(looks.top(), terminal)) {
        (STUCK, Action::Accept) => "accept, not two states",
        (STUCK, Action::Reduce(p)) if looks.stack.len() < pack.len(p) + 1 => "too few states",
        (STUCK, Action::Reduce(_)) => "no goto",
        (_, Action::Shift(_)) => "shift",
        (_, Action::Reduce(_)) => "reduce",
        _ => "no such action",
    };
    format!("parse code {code}: {what}")
}

/// Is a set of several terminals one of tokens alone (0), of both (1), or of layout alone (2)?
fn sides(set: Set, layout: Set) -> usize {
    match (set & !layout, set & layout) {
        (_, sets::EMPTY) => 0,
        (sets::EMPTY, _) => 2,
        _ => 1,
    }
}

/// Counts the hits of a case file. The ways to break a text and its cells are not seen in it, and what is too large for one is not
/// there.
pub fn of_file(file: &[u8]) -> Result<BTreeMap<String, usize>, String> {
    let mut hits = Hits::new();
    for case in CaseReader::new(file) {
        hits.count(&case?);
    }
    hits.counts.retain(|name, _| {
        let breaks = name.starts_with("text break") || name.starts_with("cell break");
        !breaks && !PRINTED_LARGE.contains(&name.as_str())
    });
    Ok(hits.counts)
}

/// Counts the hits of at least `cases` generated cases.
pub fn run(cases: usize, seed: u64) -> Hits {
    let mut mix = Mix::new(seed, Kinds::ALL, false);
    let mut hits = Hits::new();
    while hits.cases < cases {
        for case in mix.bundle() {
            if hits.cases < cases {
                hits.count(&case);
            }
        }
    }
    for (how, count) in &mix.breaks {
        hits.counts.insert(format!("text break {how:?}"), *count);
    }
    for (how, count) in &mix.cell_breaks {
        hits.counts.insert(format!("cell break {how:?}"), *count);
    }
    hits.drops = mix.drops.reasons;
    hits
}

/// The table as lines: everything wanted in its order, then what else was seen, then the drops of source 1.
pub fn table(hits: &Hits) -> String {
    let mut lines = format!("cases: {}\n", hits.cases);
    let wanted = wanted();
    for name in &wanted {
        lines.push_str(&format!("{:7}  {name}\n", hits.counts[name]));
    }
    for (name, count) in &hits.counts {
        if !wanted.contains(name) {
            lines.push_str(&format!("{count:7}  {name} (not expected)\n"));
        }
    }
    for (reason, count) in &hits.drops {
        lines.push_str(&format!("{count:7}  dropped: {reason}\n"));
    }
    lines
}
