//! Compares two engines over generated cases, case by case.

use std::collections::BTreeMap;

use crate::cases::{answer, line, Case};
use crate::engine::Engine;
use crate::gen::mix::{Kinds, Mix};
use crate::numbers::{DONE, QUERY_LONG, SHAPE, TEXT_LIMIT, TEXT_LONG};
use crate::text::Form;

/// How a comparison went.
#[derive(Default)]
pub struct Comparison {
    pub cases: usize,
    /// Cases by the name of their kind.
    pub kinds: BTreeMap<&'static str, usize>,
    /// Checks of an image of good shape, so that its conditions are tested.
    pub checks_past_shape: usize,
    /// Parses that get to their run: neither the query nor the shape is refused.
    pub parses_run: usize,
    /// Printouts that are made.
    pub printouts: usize,
    /// Texts that are moved from one form to the other.
    pub moved: usize,
    /// Texts whose other form would be over the limit, by the form that they are moved to.
    pub too_long: BTreeMap<Form, usize>,
    pub difference: Option<Difference>,
}

/// The first case in which two engines differ, and their answer lines.
pub struct Difference {
    pub number: usize,
    pub case: Case,
    pub answers: [String; 2],
}

impl Comparison {
    fn count(&mut self, case: &Case, code: u64) {
        self.cases += 1;
        *self.kinds.entry(case.name()).or_default() += 1;
        let refused = code == SHAPE.into() || code == QUERY_LONG.into();
        match case {
            Case::Check { .. } if !refused => self.checks_past_shape += 1,
            Case::Parse { .. } if !refused => self.parses_run += 1,
            Case::Print { .. } if code == DONE.into() => self.printouts += 1,
            Case::Move { .. } if code == DONE.into() => self.moved += 1,
            Case::Move { to, text, .. } if code == TEXT_LONG.into() && text.len() <= TEXT_LIMIT => {
                *self.too_long.entry(*to).or_default() += 1;
            }
            _ => (),
        }
    }
}

/// Compares over `cases` generated cases of the kinds wanted, and stops at the first difference.
pub fn compare(one: &Engine, other: &Engine, kinds: Kinds, cases: usize, seed: u64) -> Comparison {
    let mut mix = Mix::new(seed, kinds, false);
    let mut comparison = Comparison::default();
    while comparison.cases < cases {
        for case in mix.bundle() {
            if comparison.cases == cases {
                break;
            }
            let answers = [one, other].map(|engine| answer(engine, &case));
            if answers[0] != answers[1] {
                comparison.difference = Some(Difference {
                    number: comparison.cases,
                    case,
                    answers: answers.map(|numbers| line(&numbers)),
                });
                return comparison;
            }
            comparison.count(&case, answers[0][0]);
        }
    }
    comparison
}

/// The counts as lines.
pub fn table(comparison: &Comparison) -> String {
    let mut lines = format!("{:9}  cases\n", comparison.cases);
    for (name, count) in &comparison.kinds {
        lines.push_str(&format!("{count:9}  {name}\n"));
    }
    let reached = [
        (
            "checks of an image of good shape",
            comparison.checks_past_shape,
        ),
        ("parses that get to their run", comparison.parses_run),
        ("printouts that are made", comparison.printouts),
        ("texts moved from one form to the other", comparison.moved),
        (
            "texts whose form 1 alone is over the limit",
            comparison.too_long.get(&Form::One).copied().unwrap_or(0),
        ),
        (
            "texts whose form 2 alone is over the limit",
            comparison.too_long.get(&Form::Two).copied().unwrap_or(0),
        ),
    ];
    for (what, count) in reached {
        lines.push_str(&format!("{count:9}  {what}\n"));
    }
    lines
}

/// The difference in words, with all that is needed to see it again.
pub fn describe(difference: &Difference, names: [&str; 2]) -> String {
    let Difference {
        number,
        case,
        answers,
    } = difference;
    let mut lines = format!("case {number} differs:\n");
    for (name, answer) in names.iter().zip(answers) {
        lines.push_str(&format!("{name}: {answer}\n"));
    }
    lines.push_str(&format!("kind: {}", case.name()));
    lines.push_str(&match case {
        Case::Shape { .. } | Case::Check { .. } => String::new(),
        Case::Scan {
            start,
            set,
            allowance,
            ..
        } => format!(", start {start}, set {set:016x}, allowance {allowance}"),
        Case::Read { room, .. }
        | Case::Write { room, .. }
        | Case::Move { room, .. }
        | Case::Print { room, .. } => format!(", room {room}"),
        Case::Parse {
            tree, allowance, ..
        } => format!(", tree {tree} words, allowance {allowance}"),
        Case::Leaf { words, .. } => format!(", words {words:?}"),
    });
    lines.push('\n');
    if let Some(image) = case.image() {
        let words: Vec<u64> = image.iter().map(|&word| word.into()).collect();
        let what = match case {
            Case::Print { .. } => "tree",
            _ => "image",
        };
        lines.push_str(&format!("{what}: {}\n", line(&words)));
    }
    if let Some(text) = case.text() {
        lines.push_str(&format!("text: \"{}\"\n", text.escape_ascii()));
    }
    lines
}
