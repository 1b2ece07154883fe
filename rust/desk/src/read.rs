//! `desk read`: a query as a tree, or why it is refused.

use zhgarelli::{Forest, Pack, Record, Records, Refused, Subtree, Terminals, Tree};

use crate::json::Json;
use crate::names::Names;
use crate::paint::Paint;
use crate::refusal;
use crate::text::{count, shown};

/// A record's name, and for a leaf its bytes.
fn label(subtree: &Subtree, names: &Names, paint: Paint) -> String {
    match subtree.record() {
        Record::Leaf(leaf) => {
            let name = paint.blue(&names.terminal(leaf.terminal));
            format!("{name}  {}", paint.green(&shown(leaf.bytes)))
        }
        Record::Node(node) => {
            let name = paint.bold(&names.nonterminal(node.nonterminal));
            match node.children {
                0 => format!("{name}  {}", paint.dim("(empty)")),
                _ => name,
            }
        }
    }
}

/// A tree to draw: what stands in front of it and of what is below it, and how deep it is.
struct Branch<'f, 't> {
    subtree: Subtree<'f, 't>,
    front: String,
    below: String,
    depth: usize,
}

/// The trees as lines, down to some depth. A node with one child stands on one line with it.
pub fn drawing(forest: &Forest, names: &Names, depth: usize, paint: Paint) -> String {
    let mut lines = String::new();
    let mut waiting: Vec<Branch> = forest
        .tops()
        .rev()
        .map(|subtree| Branch {
            subtree,
            front: String::new(),
            below: String::new(),
            depth: 1,
        })
        .collect();
    while let Some(Branch {
        mut subtree,
        front,
        below,
        depth: at,
    }) = waiting.pop()
    {
        lines.push_str(&paint.dim(&front));
        let mut children: Vec<Subtree> = subtree.children().collect();
        let mut level = at;
        while let ([only], true) = (children.as_slice(), level < depth) {
            lines.push_str(&format!(
                "{} {} ",
                label(&subtree, names, paint),
                paint.dim("─")
            ));
            subtree = *only;
            children = subtree.children().collect();
            level += 1;
        }
        lines.push_str(&label(&subtree, names, paint));
        if !children.is_empty() && level >= depth {
            let rest = format!(
                "… {} below, {}",
                count(subtree.size() - 1, "record"),
                count(subtree.span().len(), "byte")
            );
            lines.push_str(&format!("  {}", paint.dim(&rest)));
            children.clear();
        }
        lines.push('\n');
        let last = children.len().saturating_sub(1);
        for (i, subtree) in children.into_iter().enumerate().rev() {
            let [branch, rest] = if i == last {
                ["└─ ", "   "]
            } else {
                ["├─ ", "│  "]
            };
            waiting.push(Branch {
                subtree,
                front: format!("{below}{branch}"),
                below: format!("{below}{rest}"),
                depth: level + 1,
            });
        }
    }
    lines
}

/// An accepted query in words.
fn accepted(records: Records, moves: u32, names: &Names, depth: usize, paint: Paint) -> String {
    let leaves = records
        .iter()
        .filter(|record| matches!(record, Record::Leaf(_)))
        .count();
    let sums = format!(
        "accepted: {}, {}, {}",
        count(leaves, "leaf").replace("leafs", "leaves"),
        count(records.len() - leaves, "node"),
        count(moves as usize, "move")
    );
    let tree = drawing(&records.forest(), names, depth, paint);
    format!("{tree}\n{}\n", paint.green(&sums))
}

fn record_json(subtree: &Subtree, names: &Names) -> Json {
    Json::Object(match subtree.record() {
        Record::Leaf(leaf) => vec![
            ("terminal", Json::number(leaf.terminal)),
            ("name", Json::text(names.terminal(leaf.terminal))),
            ("start", Json::number(leaf.start)),
            ("length", Json::number(leaf.length)),
            ("state", Json::number(leaf.state)),
            ("text", Json::bytes(leaf.bytes)),
        ],
        Record::Node(node) => vec![
            ("nonterminal", Json::number(node.nonterminal)),
            ("name", Json::text(names.nonterminal(node.nonterminal))),
            ("production", Json::number(node.production)),
            (
                "children",
                Json::list(subtree.children().map(|child| Json::number(child.index()))),
            ),
            ("state", Json::number(node.state)),
        ],
    })
}

/// The answer and the records for programs. A node's children are the numbers of their records.
fn json(
    pack: &Pack,
    names: &Names,
    records: Records,
    moves: u32,
    refused: Option<&Refused>,
    printout: Option<&[u8]>,
) -> Json {
    let [place, length, terminal] = refused.map_or([records.text().len(), 0, 0], Refused::values);
    let mut fields = vec![
        (
            "code",
            Json::Number(refused.map_or(0, Refused::code).into()),
        ),
        ("place", Json::number(place)),
        ("length", Json::number(length)),
        ("terminal", Json::number(terminal)),
        ("records", Json::number(records.len())),
        ("moves", Json::Number(moves.into())),
    ];
    if let Some(refused) = refused {
        fields.extend(refusal::of_query(pack, names, records, refused).fields(records.text()));
        let state = pack
            .state_on_top(records)
            .filter(|_| refused.work().is_some());
        let valid = state.map_or(Terminals::NONE, |state| pack.valid(state));
        let name = |terminal| {
            Json::Object(vec![
                ("terminal", Json::number(terminal)),
                ("name", Json::text(names.terminal(terminal))),
            ])
        };
        fields.push(("state", state.map_or(Json::Null, Json::number)));
        fields.push(("valid", Json::list(valid.iter().map(name))));
    }
    fields.extend(printout.map(|printout| ("printout", Json::bytes(printout))));
    let forest = records.forest();
    let trees = (0..records.len()).filter_map(|index| forest.subtree(index));
    fields.push((
        "tree",
        Json::list(trees.map(|subtree| record_json(&subtree, names))),
    ));
    Json::Object(fields)
}

/// How a query is read.
pub struct Reading<'a> {
    pub pack: &'a Pack,
    pub names: &'a Names,
    pub query: &'a [u8],
    pub room: usize,
    pub allowance: u32,
    /// Whether the tree is wanted as a printout.
    pub print: bool,
}

impl Reading<'_> {
    /// Reads it. What comes back says whether it is accepted, and printed where that is wanted.
    pub fn answer(&self, depth: usize, as_json: bool, paint: Paint) -> (bool, Vec<u8>) {
        let Reading {
            pack, names, query, ..
        } = *self;
        let mut tree = Tree::with_room(self.room);
        let answer = pack
            .parse(query, &mut tree, self.allowance)
            .map(|parsed| parsed.moves());
        let records = tree.records(query);
        let moves = answer.unwrap_or_else(|refused| refused.work().unwrap_or_default().moves);
        let printed = answer.and_then(|_| self.print.then(|| records.print()).transpose());
        let refused = printed.as_ref().err();
        let printout = printed.as_ref().ok().and_then(Option::as_deref);
        let words = match (refused, printout) {
            _ if as_json => format!("{}\n", json(pack, names, records, moves, refused, printout)),
            (None, Some(printout)) => return (true, [printout, b"\n"].concat()),
            (None, None) => accepted(records, moves, names, depth, paint),
            (Some(refused), _) => {
                refusal::of_query(pack, names, records, refused).words(query, paint)
            }
        };
        (refused.is_none(), words.into_bytes())
    }
}
