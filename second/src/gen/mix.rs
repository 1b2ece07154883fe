//! Cases of all kinds from the three sources, in bundles that share an image or a text.

use std::collections::BTreeMap;
use std::rc::Rc;

use super::borders;
use super::conditions;
use super::damage::{self, CellBreak, TextBreak};
use super::passing::{passing, Drops, Language, Scale};
use super::printing;
use super::query;
use super::random;
use super::rng::Rng;
use super::tables::Tables;
use super::wide;
use crate::cases::{Case, Image, Text, MOST_BYTES, MOST_TREE, MOST_WORDS};
use crate::image::{Pack, PROD_SYMBOLS};
use crate::marked::{
    image_of, image_with, BLANK_OR_COMMENT, CIRCLE_PACK, COMMENT_TO_THE_END, DEEP_PACK,
    ENDLESS_PACK, NESTED_EMPTY, NESTED_PACK, OPERATOR_OR_COMMENT, OPERATOR_PACK, REDUCED_PACK,
};
use crate::numbers::{DONE, QUERY_LONG, RECORD_LIMIT, RECORD_WORDS, ROOM_SMALL, SHAPE, TEXT_LIMIT};
use crate::parse::parse;
use crate::print::print;
use crate::scan::scan;
use crate::sets::{self, Set};
use crate::shape::{self, Rule};
use crate::text::{text_in, text_of, Form};

/// The kinds of cases wanted.
#[derive(Clone, Copy, Debug, PartialEq, Eq)]
pub struct Kinds {
    /// Shape and the scan called by itself.
    pub scan: bool,
    /// Reader and writer of form 1.
    pub text: bool,
    pub check: bool,
    /// Parse and leaf.
    pub parse: bool,
    pub print: bool,
    /// Reader and writer of form 2, and the moves.
    pub forms: bool,
}

impl Kinds {
    const NONE: Kinds = Kinds {
        scan: false,
        text: false,
        check: false,
        parse: false,
        print: false,
        forms: false,
    };

    pub const ALL: Kinds = Kinds {
        scan: true,
        text: true,
        check: true,
        parse: true,
        print: true,
        forms: true,
    };

    pub const SCAN: Kinds = Kinds {
        scan: true,
        ..Kinds::NONE
    };

    pub const TEXT: Kinds = Kinds {
        text: true,
        ..Kinds::NONE
    };

    pub const CHECK: Kinds = Kinds {
        check: true,
        ..Kinds::NONE
    };

    pub const PARSE: Kinds = Kinds {
        parse: true,
        ..Kinds::NONE
    };

    pub const PRINT: Kinds = Kinds {
        print: true,
        ..Kinds::NONE
    };

    pub const FORMS: Kinds = Kinds {
        forms: true,
        ..Kinds::NONE
    };

    pub fn by_name(name: &str) -> Option<Kinds> {
        match name {
            "all" => Some(Kinds::ALL),
            "scan" => Some(Kinds::SCAN),
            "text" => Some(Kinds::TEXT),
            "check" => Some(Kinds::CHECK),
            "parse" => Some(Kinds::PARSE),
            "print" => Some(Kinds::PRINT),
            "forms" => Some(Kinds::FORMS),
            _ => None,
        }
    }
}

/// An image, and the language that it was made for, if there is one.
struct Subject {
    image: Image,
    language: Option<Rc<Language>>,
}

/// How many moves a probing parse may take, so that no case takes long.
const PROBE: u32 = 2_000_000;

/// The longest printout that a comparison makes.
const MOST_PRINTOUT: usize = 2_000_000;

pub struct Mix {
    rng: Rng,
    kinds: Kinds,
    /// Small packs only, for stored files.
    small: bool,
    bundles: usize,
    pub drops: Drops,
    /// How often each way to break a text was taken.
    pub breaks: BTreeMap<TextBreak, usize>,
    /// How often each way to break the cells of form 2 was taken.
    pub cell_breaks: BTreeMap<CellBreak, usize>,
}

impl Mix {
    pub fn new(seed: u64, kinds: Kinds, small: bool) -> Mix {
        Mix {
            rng: Rng::new(seed),
            kinds,
            small,
            bundles: 0,
            drops: Drops::default(),
            breaks: BTreeMap::new(),
            cell_breaks: BTreeMap::new(),
        }
    }

    /// The next cases.
    pub fn bundle(&mut self) -> Vec<Case> {
        self.bundles += 1;
        if !self.small && self.bundles % 40 == 20 {
            return self.long_bundle();
        }
        if self.kinds.parse && self.bundles % 20 == 10 {
            return self.deep_bundle();
        }
        if self.kinds.parse && self.bundles % 20 == 15 {
            return self.layout_bundle();
        }
        if !self.small && self.kinds.scan && self.bundles % 40 == 5 {
            let most = *self.rng.pick(&[2, 8, 64]);
            let ranges = self.rng.from_to(0, most);
            return self.border_bundle(ranges);
        }
        if !self.small && self.kinds.scan && self.bundles % 40 == 25 {
            let ranges = self.rng.from_to(0, 64);
            return self.far_bundle(ranges);
        }
        // A tree need not come from a parse; where nothing else is wanted, three of four are made without one.
        let without_a_parse = match self.kinds {
            Kinds::PRINT => self.bundles % 4 != 0,
            kinds => kinds.print && self.bundles % 4 == 1,
        };
        if without_a_parse {
            return self.print_bundle();
        }
        let subject = self.subject();
        self.cases_of(&subject)
    }

    /// Every byte by itself, for a pack with so many ranges that tells its class.
    pub fn border_bundle(&mut self, ranges: usize) -> Vec<Case> {
        let ranges = borders::ranges(&mut self.rng, ranges);
        let image: Image = Rc::new(borders::telling(&ranges).image());
        let text: Text = Rc::new((0..=255).collect());
        let scan = |start| Case::Scan {
            image: image.clone(),
            text: text.clone(),
            start,
            set: Set::MAX,
            allowance: u32::MAX,
        };
        (0..256).map(scan).collect()
    }

    /// Scans over every byte, again and again, for a pack with so many ranges whose scans hang on each of them: short and long ones, and with
    /// allowances about what they need.
    pub fn far_bundle(&mut self, ranges: usize) -> Vec<Case> {
        let ranges = borders::ranges(&mut self.rng, ranges);
        let image: Image = Rc::new(borders::remembering(&ranges).image());
        let mut text: Vec<u8> = Vec::new();
        for _ in 0..self.rng.from_to(3, 5) {
            let mut bytes: Vec<u8> = (0..=255).collect();
            self.rng.shuffle(&mut bytes);
            text.extend(bytes);
        }
        let length = text.len();
        let text: Text = Rc::new(text);
        let mut cases = Vec::new();
        for left in [length, 514, 513, 512, 511, 510, self.rng.from_to(0, length)] {
            let set = match self.rng.percent(50) {
                true => Set::MAX,
                false => self.rng.number(),
            };
            let near = self.rng.from_to(508, 515);
            for allowance in [
                u32::MAX,
                left as u32,
                left as u32 - left.min(1) as u32,
                near as u32,
            ] {
                cases.push(Case::Scan {
                    image: image.clone(),
                    text: text.clone(),
                    start: (length - left) as u32,
                    set,
                    allowance,
                });
            }
        }
        cases
    }

    fn scale(&mut self) -> Scale {
        match (self.small, self.rng.below(100)) {
            (true, 0..=59) | (false, 0..=24) => Scale::Tiny,
            (true, _) | (false, 25..=74) => Scale::Small,
            (false, 75..=92) => Scale::Middle,
            (false, 93..=97) => Scale::Large,
            _ => Scale::Greatest,
        }
    }

    fn subject(&mut self) -> Subject {
        let (tables, language) = self.good_tables();
        let mut image = tables.image();
        if self.rng.percent(18) {
            image = damage::image(&mut self.rng, &image);
        }
        Subject {
            image: Rc::new(image),
            language: language.map(Rc::new),
        }
    }

    /// Tables of good shape: passing, passing but for some changes, random, of these some with many long productions, or looping.
    fn good_tables(&mut self) -> (Tables, Option<Language>) {
        if self.small && (self.kinds.text || self.kinds.forms) && self.rng.percent(70) {
            // The reader, the writers and the moves look at the shape only, so very small ones serve them best.
            let sizes = random::least_sizes(&mut self.rng);
            return (random::tables(&mut self.rng, sizes), None);
        }
        match self.rng.below(100) {
            0..=39 => {
                let scale = self.scale();
                let passing = passing(&mut self.rng, scale, &mut self.drops);
                (passing.tables, Some(passing.language))
            }
            40..=74 => {
                let scale = self.scale();
                let passing = passing(&mut self.rng, scale, &mut self.drops);
                let mut tables = passing.tables;
                for _ in 0..self.rng.from_to(1, 4) {
                    random::change(&mut self.rng, &mut tables);
                }
                (tables, Some(passing.language))
            }
            75..=88 if !self.small && self.rng.once_in(3) => {
                (random::long_productions(&mut self.rng), None)
            }
            75..=88 => {
                let large = !self.small && self.rng.once_in(15);
                let sizes = random::sizes(&mut self.rng, large);
                (random::tables(&mut self.rng, sizes), None)
            }
            _ => (random::looping(&mut self.rng), None),
        }
    }

    /// All wanted kinds of cases for one image, and some for damaged and changed copies of it.
    fn cases_of(&mut self, subject: &Subject) -> Vec<Case> {
        let mut cases = Vec::new();
        let good = shape::pack(&subject.image).is_ok();
        if self.kinds.scan {
            cases.push(Case::Shape {
                image: subject.image.clone(),
            });
        }
        if self.kinds.check {
            cases.push(Case::Check {
                image: subject.image.clone(),
            });
        }
        if self.kinds.text {
            self.writes(Form::One, subject, &mut cases);
            self.reads(subject, &mut cases);
        }
        if self.kinds.forms {
            self.writes(Form::Two, subject, &mut cases);
            self.moves(subject, &mut cases);
        }
        if self.kinds.scan || self.kinds.parse || self.kinds.print {
            let texts = if good { self.rng.from_to(1, 3) } else { 1 };
            for _ in 0..texts {
                let text = Rc::new(self.query(subject));
                if self.kinds.scan {
                    self.scans(subject, &text, &mut cases);
                }
                if self.kinds.parse {
                    self.parses(subject, &text, &mut cases);
                }
                if self.kinds.print && good {
                    self.printed_parses(subject, &text, &mut cases);
                }
            }
            if self.kinds.scan {
                self.rejected_scans(subject, &mut cases);
            }
        }
        // Copies of a large image would make the files large, and take long.
        if good && subject.image.len() < 2_000 {
            let (copies, damaged) = if self.small { (1, 2) } else { (4, 8) };
            for _ in 0..damaged {
                self.damaged_copy(subject, &mut cases);
            }
            if self.kinds.check {
                for _ in 0..3 * copies {
                    self.failing_copy(subject, &mut cases);
                }
            }
            if self.kinds.parse {
                for _ in 0..copies {
                    self.changed_copy(subject, &mut cases);
                }
            }
        } else if good && !self.small && self.kinds.check {
            self.failing_copy(subject, &mut cases);
        }
        cases
    }

    fn damaged_copy(&mut self, subject: &Subject, cases: &mut Vec<Case>) {
        let copy = Subject {
            image: Rc::new(damage::image(&mut self.rng, &subject.image)),
            language: None,
        };
        let image = &copy.image;
        if self.kinds.scan {
            cases.push(Case::Shape {
                image: image.clone(),
            });
        }
        if self.kinds.text && self.rng.once_in(5) {
            self.writes(Form::One, &copy, cases);
            if let Some(text) = Mix::writable(Form::One, image) {
                let room = self.rng.from_to(0, image.len());
                cases.push(Case::Read {
                    text: Rc::new(text),
                    room: room as u32,
                });
            }
        }
        if self.kinds.forms && self.rng.once_in(5) {
            self.writes(Form::Two, &copy, cases);
            for form in Form::ALL {
                let Some(text) = Mix::writable(form, image) else {
                    continue;
                };
                let text = Rc::new(text);
                let room = self.rng.from_to(0, 2 * text.len()).min(MOST_BYTES) as u32;
                if form == Form::Two {
                    let room = self.rng.from_to(0, image.len()) as u32;
                    let text = text.clone();
                    cases.push(Case::Read { text, room });
                }
                let to = form.other();
                cases.push(Case::Move { to, text, room });
            }
        }
        if self.kinds.check && self.rng.once_in(10) {
            cases.push(Case::Check {
                image: image.clone(),
            });
        }
    }

    /// The check of a copy in which one condition fails, or two, or a few random things are changed. Some have a state
    /// that nothing leads to.
    fn failing_copy(&mut self, subject: &Subject, cases: &mut Vec<Case>) {
        let rng = &mut self.rng;
        let mut tables = Tables::of(&Pack::new(&subject.image));
        if rng.once_in(6) {
            conditions::unreached_state(rng, &mut tables);
        }
        match rng.below(10) {
            0 => random::change(rng, &mut tables),
            1 => (),
            many => {
                for _ in 0..if many < 5 { 2 } else { 1 } {
                    let condition = rng.from_to(1, 6);
                    conditions::fail(rng, &mut tables, condition);
                }
            }
        }
        cases.push(Case::Check {
            image: Rc::new(tables.image()),
        });
    }

    fn changed_copy(&mut self, subject: &Subject, cases: &mut Vec<Case>) {
        let mut tables = Tables::of(&Pack::new(&subject.image));
        for _ in 0..self.rng.from_to(1, 3) {
            random::change(&mut self.rng, &mut tables);
        }
        let copy = Subject {
            image: Rc::new(tables.image()),
            language: None,
        };
        if self.kinds.check {
            cases.push(Case::Check {
                image: copy.image.clone(),
            });
        }
        // A query that the image itself may accept, so that the parse gets to the changes.
        let text = Rc::new(self.query(subject));
        self.parses(&copy, &text, cases);
    }

    fn query(&mut self, subject: &Subject) -> Vec<u8> {
        let rng = &mut self.rng;
        let likely = match shape::pack(&subject.image) {
            Ok(pack) => query::likely_bytes(rng, &pack),
            Err(_) => vec![b'a', b' ', b'0'],
        };
        let longest = *rng.pick(&[3, 10, 10, 30, 60]);
        let rejected = match shape::pack(&subject.image) {
            Ok(pack) if rng.once_in(8) => Mix::rejected_text(rng, &pack),
            _ => None,
        };
        let mut text = match &subject.language {
            _ if rejected.is_some() => rejected.map_or_else(Vec::new, |(text, _)| text),
            Some(language) if rng.percent(70) => {
                // Half of them are to be accepted, if a few attempts find one that is.
                let attempts = *rng.pick(&[1, 6]);
                let mut text = Vec::new();
                for _ in 0..attempts {
                    text = query::derived(rng, language, &likely);
                    let mut tree = [0; MOST_TREE];
                    if parse(&subject.image, &text, &mut tree, PROBE).code == DONE {
                        break;
                    }
                }
                text
            }
            None if rng.once_in(3) => query::repeated(rng, &likely),
            _ => query::random(rng, &likely, longest),
        };
        // Files stay small: a long query stands for itself only now and then.
        if self.small && text.len() > 120 && !rng.once_in(6) {
            text.truncate(rng.from_to(0, 120));
        }
        text.truncate(3_000);
        if self.kinds.parse && rng.once_in(12) {
            text.truncate(rng.below(2));
        }
        text
    }

    /// Scans of one text, with various starts, sets and allowances.
    fn scans(&mut self, subject: &Subject, text: &Text, cases: &mut Vec<Case>) {
        let Ok(pack) = shape::pack(&subject.image) else {
            cases.push(self.scan_case(subject, text, 0, Set::MAX, u32::MAX));
            return;
        };
        let more = if self.small { 4 } else { 0 };
        for _ in 0..self.rng.from_to(2, 5) + more {
            let rng = &mut self.rng;
            let (start, set) = Mix::start_and_set(rng, &subject.image, &pack, text);
            cases.push(self.scan_case(subject, text, start as u32, set, u32::MAX));
            let moves = scan(&subject.image, text, start, set, PROBE).moves;
            if moves > 0 && self.rng.percent(40) {
                let allowance = match self.rng.below(4) {
                    0 => moves,
                    1 => moves - 1,
                    2 => 0,
                    _ => self.rng.from_to(0, moves as usize) as u32,
                };
                cases.push(self.scan_case(subject, text, start as u32, set, allowance));
            }
        }
    }

    /// A text that comes to a scan state where something is rejected, sometimes with more bytes behind, and that state.
    /// Mostly it is something that the first parse state sees.
    fn rejected_text(rng: &mut Rng, pack: &Pack) -> Option<(Vec<u8>, usize)> {
        let seen = match rng.percent(70) {
            true => pack.valid_set(0),
            false => Set::MAX,
        };
        let rejecting: Vec<usize> = (0..pack.sizes.scan_states)
            .filter(|&q| pack.rej(q) & seen != sets::EMPTY)
            .collect();
        if rejecting.is_empty() {
            return None;
        }
        let q = *rng.pick(&rejecting);
        let mut text = query::path_to(rng, pack, q)?;
        if rng.percent(50) {
            let likely = query::likely_bytes(rng, pack);
            text.extend(query::random(rng, &likely, 3));
        }
        Some((text, q))
    }

    /// Scans of such texts, with the rejected terminals and without those that outrank them.
    fn rejected_scans(&mut self, subject: &Subject, cases: &mut Vec<Case>) {
        let Ok(pack) = shape::pack(&subject.image) else {
            return;
        };
        for _ in 0..2 {
            let rng = &mut self.rng;
            let Some((text, q)) = Mix::rejected_text(rng, &pack) else {
                continue;
            };
            let all = sets::below(pack.sizes.terminals);
            let more = match rng.below(3) {
                0 => all,
                1 => rng.set(all, 40),
                _ => sets::EMPTY,
            };
            let set = (pack.rej(q) | more) & !pack.acc(q);
            cases.push(self.scan_case(subject, &Rc::new(text), 0, set, u32::MAX));
        }
    }

    /// Where to scan and with which set: half of them are to match, if a few attempts find some that do.
    fn start_and_set(rng: &mut Rng, image: &[u16], pack: &Pack, text: &[u8]) -> (usize, Set) {
        let attempts = *rng.pick(&[1, 6]);
        let mut found = (0, 0);
        for _ in 0..attempts {
            let start = match rng.below(12) {
                0 => text.len() + rng.below(3),
                1 => rng.number() as u32 as usize,
                2..=6 => 0,
                _ => rng.from_to(0, text.len()),
            };
            let set = match rng.below(10) {
                0..=4 => pack.valid_set(rng.below(pack.sizes.states)),
                5 => pack.layout(),
                6 => Set::MAX,
                7 => rng.number(),
                8 => sets::below(pack.sizes.terminals) & !pack.layout(),
                _ => rng.set(sets::below(pack.sizes.terminals), 40),
            };
            found = (start, set);
            if scan(image, text, start, set, PROBE).length > 0 {
                break;
            }
        }
        found
    }

    fn scan_case(
        &self,
        subject: &Subject,
        text: &Text,
        start: u32,
        set: Set,
        allowance: u32,
    ) -> Case {
        Case::Scan {
            image: subject.image.clone(),
            text: text.clone(),
            start,
            set,
            allowance,
        }
    }

    /// Parses of one text with ample, exact and too small rooms and allowances, and its leaves.
    fn parses(&mut self, subject: &Subject, text: &Text, cases: &mut Vec<Case>) {
        let mut tree = vec![0; MOST_TREE];
        let probe = parse(&subject.image, text, &mut tree, PROBE);
        let rng = &mut self.rng;
        let (needed, moves) = (probe.records as usize * RECORD_WORDS, probe.moves);
        let mut pairs = vec![
            (needed + rng.below(40), moves.max(1).saturating_mul(2)),
            (needed, moves),
            (needed, u32::MAX),
        ];
        if let Some(less) = needed.checked_sub(1) {
            pairs.push((less - rng.below(RECORD_WORDS), u32::MAX));
            pairs.push((rng.from_to(0, less), u32::MAX));
        }
        if let Some(less) = moves.checked_sub(1) {
            pairs.push((needed + RECORD_WORDS, less));
            pairs.push((needed, rng.from_to(0, less as usize) as u32));
            let room = rng.from_to(0, needed);
            pairs.push((room, rng.from_to(0, less as usize) as u32));
        }
        for (i, (tree, allowance)) in pairs.into_iter().enumerate() {
            // A stored file has few of them for each text, and a parse that is refused before its run is made once.
            let wanted = match probe.code {
                QUERY_LONG | SHAPE => i == 0,
                _ => i == 0 || !self.small || self.rng.percent(35),
            };
            if wanted {
                cases.push(Case::Parse {
                    image: subject.image.clone(),
                    text: text.clone(),
                    tree: tree.min(MOST_TREE) as u32,
                    // A parse that the probe could not finish is bounded as the probe was.
                    allowance: match moves {
                        PROBE => allowance.min(PROBE),
                        _ => allowance,
                    },
                });
            }
        }
        if self.rng.percent(50) {
            self.leaves(text, &tree[..needed], cases);
        }
    }

    /// Leaves of a text: its records, some with a word changed, and some without a length.
    fn leaves(&mut self, text: &Text, records: &[u16], cases: &mut Vec<Case>) {
        let rng = &mut self.rng;
        for _ in 0..rng.from_to(1, 3) {
            let mut words = [0; RECORD_WORDS];
            if !records.is_empty() {
                let first = rng.below(records.len() / RECORD_WORDS) * RECORD_WORDS;
                words.copy_from_slice(&records[first..first + RECORD_WORDS]);
            }
            if rng.percent(50) {
                let i = rng.below(3);
                words[i] = match rng.below(4) {
                    0 => *rng.pick(&[0, 1, 63, 64, 65_535]),
                    1 => rng.from_to(0, text.len() + 2) as u16,
                    2 => words[i].wrapping_add(1),
                    _ => rng.number() as u16,
                };
            }
            if rng.once_in(6) {
                let start = rng.from_to(0, text.len());
                words = [rng.from_to(1, 63) as u16, start as u16, 0, words[3]];
            }
            cases.push(Case::Leaf {
                text: text.clone(),
                words,
            });
        }
    }

    /// Printouts of what a parse leaves, be it a whole tree or some of its parts, and of damaged copies.
    fn printed_parses(&mut self, subject: &Subject, text: &Text, cases: &mut Vec<Case>) {
        let mut tree = vec![0; if self.small { 200 } else { MOST_TREE }];
        let parsed = parse(&subject.image, text, &mut tree, PROBE);
        tree.truncate(parsed.records as usize * RECORD_WORDS);
        self.prints(text, tree.clone(), cases);
        let copies = if self.small { 1 } else { 3 };
        for _ in 0..copies {
            let damaged = printing::damaged(&mut self.rng, &tree);
            self.prints(text, damaged, cases);
        }
    }

    /// Printouts of one tree, with ample, exact and too small rooms.
    fn prints(&mut self, text: &Text, tree: Vec<u16>, cases: &mut Vec<Case>) {
        let rng = &mut self.rng;
        let longest = if self.small { 2_000 } else { MOST_PRINTOUT };
        let probe = print(text, &tree, &mut []);
        let rooms = match (probe.code, probe.number as usize) {
            (ROOM_SMALL, size) if size <= longest => {
                let mut rooms = vec![size + rng.below(40), size - 1];
                if rng.percent(50) {
                    rooms.extend([size, rng.below(size)]);
                }
                rooms
            }
            _ => vec![rng.below(60)],
        };
        let tree = Rc::new(tree);
        cases.extend(rooms.into_iter().map(|room| Case::Print {
            text: text.clone(),
            tree: tree.clone(),
            room: room as u32,
        }));
    }

    /// Printouts of trees that come from no parse, over one text.
    fn print_bundle(&mut self) -> Vec<Case> {
        let mut cases = Vec::new();
        let length = match self.rng.below(20) {
            0 => 0,
            1 if !self.small => self.rng.below(3_000),
            _ => self.rng.from_to(1, 60),
        };
        let text = Rc::new(printing::text(&mut self.rng, length));
        for _ in 0..if self.small { 2 } else { 4 } {
            let rng = &mut self.rng;
            let tree = match rng.below(10) {
                0 => printing::tree(rng, length, 1),
                // In a stored file deep ones are written down.
                1 | 2 if !self.small => printing::deep(rng, length),
                3 if !self.small => {
                    let records = rng.from_to(1, 600);
                    printing::tree(rng, length, records)
                }
                _ => {
                    let records = rng.from_to(1, 12);
                    printing::tree(rng, length, records)
                }
            };
            let damaged = printing::damaged(rng, &tree);
            self.prints(&text, tree, &mut cases);
            self.prints(&text, damaged, &mut cases);
        }
        if self.rng.once_in(10) {
            self.prints(&text, Vec::new(), &mut cases);
        }
        cases
    }

    /// Printouts of 65,535 records and about as many, of texts of 65,535 bytes and more, and, seldom, of a size of 2 to
    /// the 32nd and more.
    fn long_prints(&mut self, cases: &mut Vec<Case>) {
        let rng = &mut self.rng;
        let length = rng.from_to(TEXT_LIMIT - 1, TEXT_LIMIT + 40);
        let text = Rc::new(printing::text(rng, length));
        let leaf = |start, length| [1, start, length, 0];
        let long = [leaf(0, 65_535), leaf(1, 65_535), leaf(65_535, 0)].concat();
        let long = [long, vec![64, 7, 3, 0]].concat();
        let damaged = printing::damaged(rng, &long);
        let limit = RECORD_LIMIT;
        let records = *rng.pick(&[limit - 1, limit, limit, limit + 1]);
        let many = match rng.below(3) {
            0 => printing::tree(rng, length, records),
            1 => printing::chain(rng, length, records - 1),
            _ => {
                let leaves = (1..records).flat_map(|_| leaf(7, 1)).collect::<Vec<u16>>();
                [leaves, vec![64, 0, (records - 1) as u16, 0]].concat()
            }
        };
        for tree in [long, damaged, many] {
            self.prints(&text, tree, cases);
        }
        if self.bundles % 8_000 == 20 {
            let text = Rc::new(vec![b'['; TEXT_LIMIT]);
            let leaves = (0..33_000)
                .flat_map(|_| leaf(0, 65_535))
                .collect::<Vec<u16>>();
            self.prints(&text, [leaves, vec![64, 7, 33_000, 0]].concat(), cases);
        }
    }

    /// The text of an image whose lines can be written, whatever its shape.
    fn writable(form: Form, image: &[u16]) -> Option<Vec<u8>> {
        shape::front(image).ok()?;
        let pack = Pack::new(image);
        let lines = (0..pack.sizes.productions).all(|p| pack.len(p) <= PROD_SYMBOLS);
        lines.then(|| text_in(form, &pack))
    }

    fn writes(&mut self, form: Form, subject: &Subject, cases: &mut Vec<Case>) {
        let length = Mix::writable(form, &subject.image).map_or(9, |text| text.len());
        let rng = &mut self.rng;
        let mut rooms = vec![length + rng.below(20)];
        if rng.percent(40) {
            rooms.push(match rng.below(3) {
                0 => length - 1,
                1 => rng.below(length),
                _ => length,
            });
        }
        if rng.once_in(10) {
            rooms.push(0);
        }
        for room in rooms {
            cases.push(Case::Write {
                form,
                image: subject.image.clone(),
                room: room.min(MOST_BYTES) as u32,
            });
        }
    }

    fn reads(&mut self, subject: &Subject, cases: &mut Vec<Case>) {
        let Some(text) = Mix::writable(Form::One, &subject.image) else {
            return;
        };
        if text.len() > TEXT_LIMIT + 1 {
            return;
        }
        let words = subject.image.len();
        let text = Rc::new(text);
        let rng = &mut self.rng;
        let mut rooms = vec![words + rng.below(20)];
        if rng.percent(40) {
            rooms.push(match rng.below(3) {
                0 => words - 1,
                1 => rng.below(words),
                _ => words,
            });
        }
        for room in rooms {
            cases.push(Case::Read {
                text: text.clone(),
                room: room.min(MOST_WORDS) as u32,
            });
        }
        // A large text is broken once only.
        let breaks = if text.len() > 3_000 { 1 } else { 4 };
        for _ in 0..breaks {
            let how = *self.rng.pick(&TextBreak::ALL);
            *self.breaks.entry(how).or_default() += 1;
            let mut broken = damage::text(&mut self.rng, &text, how);
            broken.truncate(MOST_BYTES);
            let room = words + self.rng.below(8);
            cases.push(Case::Read {
                text: Rc::new(broken),
                room: room.min(MOST_WORDS) as u32,
            });
        }
    }

    /// Moves of the texts of one image, good and broken, to the other form and to their own; and the reading of form 2.
    fn moves(&mut self, subject: &Subject, cases: &mut Vec<Case>) {
        let [one, two] = Form::ALL.map(|form| Mix::writable(form, &subject.image));
        let (Some(one), Some(two)) = (one, two) else {
            return;
        };
        let (words, lengths) = (subject.image.len(), [one.len(), two.len()]);
        let texts = [one, two].map(|mut text| {
            text.truncate(MOST_BYTES);
            Rc::new(text)
        });
        for (form, text) in Form::ALL.into_iter().zip(&texts) {
            let to = form.other();
            let needed = lengths[usize::from(to.number()) - 1];
            let rng = &mut self.rng;
            let mut rooms = vec![needed + rng.below(20)];
            if rng.percent(40) {
                rooms.push(match rng.below(4) {
                    0 => needed - 1,
                    1 => rng.below(needed),
                    2 => 0,
                    _ => needed,
                });
            }
            cases.extend(rooms.into_iter().map(|room| Case::Move {
                to,
                text: text.clone(),
                room: room.min(MOST_BYTES) as u32,
            }));
            // The wrong first line for this move.
            if self.rng.once_in(4) {
                let room = self.rng.from_to(0, text.len() + 20).min(MOST_BYTES) as u32;
                let text = text.clone();
                cases.push(Case::Move {
                    to: form,
                    text,
                    room,
                });
            }
        }
        let rng = &mut self.rng;
        let mut rooms = vec![words + rng.below(20)];
        if rng.percent(40) {
            rooms.push(match rng.below(3) {
                0 => words - 1,
                1 => rng.below(words),
                _ => words,
            });
        }
        for room in rooms {
            cases.push(Case::Read {
                text: texts[1].clone(),
                room: room.min(MOST_WORDS) as u32,
            });
        }
        // Large texts are broken once only.
        let breaks = if texts[0].len() > 3_000 { 1 } else { 4 };
        for _ in 0..breaks {
            if self.rng.percent(65) {
                let how = *self.rng.pick(&CellBreak::ALL);
                *self.cell_breaks.entry(how).or_default() += 1;
                let broken = damage::cells(&mut self.rng, &texts[1], how);
                self.broken(Form::Two, broken, words, cases);
                continue;
            }
            let form = *self.rng.pick(&Form::ALL);
            let how = *self.rng.pick(&TextBreak::ALL);
            *self.breaks.entry(how).or_default() += 1;
            let good = &texts[usize::from(form.number()) - 1];
            let broken = damage::text(&mut self.rng, good, how);
            self.broken(form, broken, words, cases);
        }
    }

    /// A broken text of form 2 is read and moved, and one of form 1 moved.
    fn broken(&mut self, form: Form, mut text: Vec<u8>, words: usize, cases: &mut Vec<Case>) {
        text.truncate(MOST_BYTES);
        let text = Rc::new(text);
        let room = (text.len() * 4 + self.rng.below(200)).min(MOST_BYTES) as u32;
        cases.push(Case::Move {
            to: form.other(),
            text: text.clone(),
            room,
        });
        if form == Form::Two {
            let room = (words + self.rng.below(8)).min(MOST_WORDS) as u32;
            cases.push(Case::Read { text, room });
        }
    }

    /// Packs of the greatest sizes with the text of one form about the limit: where form 1 is over it and form 2 is not,
    /// where form 2 is and form 1 is not, and where both are.
    fn long_forms(&mut self, cases: &mut Vec<Case>) {
        for (form, digits) in [(Form::One, 3), (Form::Two, 1), (Form::Two, 3)] {
            let rng = &mut self.rng;
            let length = TEXT_LIMIT
                + match rng.below(4) {
                    0 => 0,
                    1 => rng.from_to(1, 600),
                    _ => 1,
                };
            let image = wide::with_length(rng, form, length, digits);
            let subject = Subject {
                image: Rc::new(image),
                language: None,
            };
            for form in Form::ALL {
                self.writes(form, &subject, cases);
            }
            self.moves(&subject, cases);
        }
    }

    /// Texts and queries about the limit of 65,535 bytes, and images of the greatest sizes.
    fn long_bundle(&mut self) -> Vec<Case> {
        let mut cases = Vec::new();
        let passing = passing(&mut self.rng, Scale::Small, &mut self.drops);
        let subject = Subject {
            image: Rc::new(passing.tables.image()),
            language: None,
        };
        let more = *self.rng.pick(&[1, 1, 2, 20]);
        for length in [TEXT_LIMIT, TEXT_LIMIT + more] {
            if self.kinds.scan || self.kinds.parse {
                let pack = Pack::new(&subject.image);
                let likely = query::likely_bytes(&mut self.rng, &pack);
                let byte = *self.rng.pick(&likely);
                let mut text = vec![byte; length];
                for _ in 0..self.rng.below(4) {
                    let place = self.rng.below(length);
                    text[place] = *self.rng.pick(&likely);
                }
                let text = Rc::new(text);
                if self.kinds.scan {
                    self.scans(&subject, &text, &mut cases);
                }
                if self.kinds.parse {
                    self.parses(&subject, &text, &mut cases);
                }
            }
            if self.kinds.text {
                let image = Rc::new(wide::with_text_length(length));
                let text = Rc::new(text_of(&Pack::new(&image)));
                let room = self.rng.from_to(20_500, MOST_WORDS) as u32;
                cases.push(Case::Read { text, room });
                let room = self.rng.from_to(65_500, MOST_BYTES) as u32;
                let form = Form::One;
                cases.push(Case::Write { form, image, room });
            }
        }
        if self.kinds.forms {
            self.long_forms(&mut cases);
        }
        if self.kinds.print {
            self.long_prints(&mut cases);
        }
        let sizes = wide::greatest_sizes();
        let tables = random::tables(&mut self.rng, sizes);
        let subject = Subject {
            image: Rc::new(tables.image()),
            language: None,
        };
        cases.extend(self.cases_of(&subject));
        let passing = super::passing::passing(&mut self.rng, Scale::Greatest, &mut self.drops);
        let subject = Subject {
            image: Rc::new(passing.tables.image()),
            language: Some(Rc::new(passing.language)),
        };
        cases.extend(self.cases_of(&subject));
        cases
    }

    /// Texts that bring the stack to about 512 states, and a room for about 65,535 records.
    fn deep_bundle(&mut self) -> Vec<Case> {
        let mut cases = Vec::new();
        for _ in 0..2 {
            let mut image = match self.rng.below(3) {
                0 => image_of(DEEP_PACK),
                1 => image_of(NESTED_PACK),
                _ => image_with(NESTED_PACK, &NESTED_EMPTY),
            };
            if self.rng.once_in(3) {
                let mut tables = Tables::of(&Pack::new(&image));
                random::change(&mut self.rng, &mut tables);
                image = tables.image();
            }
            let subject = Subject {
                image: Rc::new(image),
                language: None,
            };
            let text = vec![b'a'; self.rng.from_to(507, 514)];
            self.parses(&subject, &Rc::new(text), &mut cases);
        }
        if !self.small && self.rng.once_in(20) {
            let records = self.rng.from_to(RECORD_LIMIT - 1, RECORD_LIMIT + 1);
            cases.push(Case::Parse {
                image: Rc::new(image_of(ENDLESS_PACK)),
                text: Rc::new(b"a".to_vec()),
                tree: (RECORD_WORDS * records + self.rng.below(RECORD_WORDS)) as u32,
                allowance: u32::MAX,
            });
        }
        cases
    }

    /// The packs in which layout and tokens begin alike, some of them changed, and texts of what they begin with.
    fn layout_bundle(&mut self) -> Vec<Case> {
        let mut cases = Vec::new();
        for _ in 0..2 {
            let rng = &mut self.rng;
            let mut pieces: &[&[u8]] = &[b"a", b"//=", b"//", b" ", b"=", b"//a"];
            let mut image = match rng.below(6) {
                0 => image_of(OPERATOR_PACK),
                1 => image_with(OPERATOR_PACK, *rng.pick(&OPERATOR_OR_COMMENT)),
                2 => image_with(OPERATOR_PACK, *rng.pick(&BLANK_OR_COMMENT)),
                3 => image_with(OPERATOR_PACK, COMMENT_TO_THE_END),
                4 => image_of(REDUCED_PACK),
                _ => {
                    pieces = &[b"a", b"b"];
                    image_of(CIRCLE_PACK)
                }
            };
            if rng.once_in(3) {
                let mut tables = Tables::of(&Pack::new(&image));
                random::change(rng, &mut tables);
                image = tables.image();
            }
            let count = rng.from_to(0, 8);
            let text: Vec<&[u8]> = (0..count).map(|_| *rng.pick(pieces)).collect();
            let text = Rc::new([&b"a"[..rng.below(2)], &text.concat()].concat());
            let subject = Subject {
                image: Rc::new(image),
                language: None,
            };
            if self.kinds.check {
                cases.push(Case::Check {
                    image: subject.image.clone(),
                });
            }
            self.parses(&subject, &text, &mut cases);
        }
        cases
    }

    /// An image for each rule of the shape, broken there and nowhere else.
    pub fn broken_rules(&mut self) -> Vec<Image> {
        let mut images = Vec::new();
        for rule in Rule::all() {
            loop {
                let sizes = random::sizes(&mut self.rng, false);
                let good = random::tables(&mut self.rng, sizes).image();
                let broken = damage::image_by_rule(&mut self.rng, &good, rule);
                if let Some(image) = broken {
                    if shape::pack(&image).is_err_and(|fault| fault.rule == rule) {
                        images.push(Rc::new(image));
                        break;
                    }
                }
            }
        }
        images
    }

    /// Many long productions with so many terminals of layout, whole and with a word changed to one about a limit.
    pub fn long_productions(&mut self, layout: u32, changes: usize) -> Vec<Image> {
        let tables = loop {
            let tables = random::long_productions(&mut self.rng);
            if sets::count(tables.layout) == layout {
                break tables;
            }
        };
        let whole = tables.image();
        let pack = Pack::new(&whole);
        let (t, n) = (pack.sizes.terminals, pack.sizes.nonterminals);
        let skipped = sets::lowest(tables.layout).unwrap_or(0);
        let limits = [
            0,
            1,
            t - 1,
            t,
            14,
            15,
            63,
            64,
            63 + n,
            64 + n,
            skipped,
            65_535,
        ];
        let mut images = vec![Rc::new(whole.clone())];
        for _ in 0..changes {
            let mut image = whole.clone();
            let p = self.rng.below(pack.sizes.productions);
            let place = pack.prod_place(p) + self.rng.below(2 + PROD_SYMBOLS);
            image[place] = *self.rng.pick(&limits) as u16;
            images.push(Rc::new(image));
        }
        images
    }

    /// A pack text broken in each of the ways.
    pub fn broken_texts(&mut self, good: &[u8]) -> Vec<Text> {
        TextBreak::ALL
            .map(|how| {
                *self.breaks.entry(how).or_default() += 1;
                Rc::new(damage::text(&mut self.rng, good, how))
            })
            .to_vec()
    }

    /// A text of form 2 broken in each of the ways in which cells are.
    pub fn broken_cells(&mut self, good: &[u8]) -> Vec<Text> {
        CellBreak::ALL
            .map(|how| {
                *self.cell_breaks.entry(how).or_default() += 1;
                Rc::new(damage::cells(&mut self.rng, good, how))
            })
            .to_vec()
    }

    /// Cases of one passing pack of the greatest sizes, for stored files.
    pub fn greatest_bundle(&mut self) -> Vec<Case> {
        let passing = passing(&mut self.rng, Scale::Greatest, &mut self.drops);
        let subject = Subject {
            image: Rc::new(passing.tables.image()),
            language: Some(Rc::new(passing.language)),
        };
        self.cases_of(&subject)
    }
}

/// Passing packs with queries, rooms and allowances, for the promise: packs from source 1, and changed ones that pass
/// all the same.
pub struct Promised {
    rng: Rng,
    pub drops: Drops,
}

pub struct PromisedParse {
    pub text: Vec<u8>,
    pub tree: usize,
    pub allowance: u32,
}

impl Promised {
    pub fn new(seed: u64) -> Promised {
        Promised {
            rng: Rng::new(seed),
            drops: Drops::default(),
        }
    }

    /// A passing image and parses to make with it.
    pub fn pack_and_parses(&mut self) -> (Vec<u16>, Vec<PromisedParse>) {
        let scale = match self.rng.below(100) {
            0..=29 => Scale::Tiny,
            30..=79 => Scale::Small,
            80..=94 => Scale::Middle,
            95..=98 => Scale::Large,
            _ => Scale::Greatest,
        };
        let made = passing(&mut self.rng, scale, &mut self.drops);
        let mut image = made.tables.image();
        if self.rng.percent(50) {
            // Changes that keep it passing.
            let mut tables = made.tables.clone();
            for _ in 0..30 {
                let mut changed = tables.clone();
                random::change(&mut self.rng, &mut changed);
                let words = changed.image();
                if crate::check::check(&words).code == DONE {
                    tables = changed;
                    image = words;
                }
            }
        }
        let pack = Pack::new(&image);
        let likely = query::likely_bytes(&mut self.rng, &pack);
        let parses = (0..40)
            .map(|_| {
                let rng = &mut self.rng;
                let text = if rng.percent(80) {
                    query::derived(rng, &made.language, &likely)
                } else {
                    query::random(rng, &likely, 40)
                };
                let tree = match rng.below(5) {
                    0 => rng.from_to(0, 40),
                    _ => 40_000,
                };
                let allowance = match rng.below(5) {
                    0 => rng.from_to(0, 100) as u32,
                    _ => PROBE,
                };
                PromisedParse {
                    text,
                    tree,
                    allowance,
                }
            })
            .collect();
        (image, parses)
    }
}
