//! `desk draw`: the derivation of a query as a picture, with the text under it and layout in grey.
//!
//! Leaves stand in a row above their bytes, and a node one row above the highest of its children. Each tree has a stretch of the width to
//! itself, and lines run down within the stretch of the child that they lead to, so that nothing overlaps, whatever the tree is.

use zhgarelli::{Forest, Record, Records};

use crate::names::Names;
use crate::text::{shown, width, word};

/// The width of a character, in the font's size of 14.
const LETTER: f64 = 8.43;
/// From one row of the tree to the next.
const ROW: f64 = 46.0;
/// The height of a name's box.
const BOX: f64 = 24.0;
/// Left and right of a name in its box.
const PAD: f64 = 9.0;
/// Between two leaves.
const GAP: f64 = 8.0;
/// Around the picture.
const EDGE: f64 = 24.0;

/// Where a record is drawn.
#[derive(Clone, Default)]
struct Place {
    name: String,
    /// The record's children.
    children: Vec<usize>,
    /// A leaf's bytes as they are shown, and those of the layout before it.
    text: String,
    layout: String,
    /// The row, counted from the leaves.
    level: usize,
    /// The stretch of the width that is its own, and the middle of its box.
    left: f64,
    width: f64,
    middle: f64,
}

impl Place {
    /// What the layout before it takes of the width.
    fn layout_width(&self) -> f64 {
        match width(&self.layout) {
            0 => 0.0,
            columns => columns as f64 * LETTER + GAP,
        }
    }

    fn box_width(&self) -> f64 {
        width(&self.name) as f64 * LETTER + 2.0 * PAD
    }
}

/// Bytes of layout, with something to see for a blank.
fn layout(bytes: &[u8]) -> String {
    shown(bytes).replace(' ', "␣")
}

fn places(records: Records, names: &Names) -> Vec<Place> {
    let forest: Forest = records.forest();
    let mut places: Vec<Place> = Vec::with_capacity(records.len());
    let mut read = 0;
    for (index, record) in records.iter().enumerate() {
        let mut place = Place::default();
        match record {
            Record::Leaf(leaf) => {
                place.name = names.terminal(leaf.terminal);
                place.text = shown(leaf.bytes);
                place.layout = layout(records.text().get(read..leaf.start).unwrap_or_default());
                read = leaf.start + leaf.length;
                let text = width(&place.text) as f64 * LETTER;
                place.width = place.layout_width() + text.max(place.box_width()) + GAP;
            }
            Record::Node(node) => {
                place.name = names.nonterminal(node.nonterminal);
                let below = forest
                    .subtree(index)
                    .into_iter()
                    .flat_map(|subtree| subtree.children());
                place.children = below.map(|child| child.index()).collect();
                let children = place.children.iter().map(|&child| &places[child]);
                place.level = 1 + children.clone().map(|child| child.level).max().unwrap_or(0);
                let natural: f64 = children.map(|child| child.width).sum();
                place.width = natural.max(place.box_width() + GAP);
            }
        }
        places.push(place);
    }
    // From the top down, since a node stands behind its children.
    let mut left = EDGE;
    for top in forest.tops() {
        places[top.index()].left = left;
        left += places[top.index()].width;
    }
    for index in (0..places.len()).rev() {
        let place = places[index].clone();
        let natural: f64 = place
            .children
            .iter()
            .map(|&child| places[child].width)
            .sum();
        let mut left = place.left + (place.width - natural) / 2.0;
        for &child in &place.children {
            places[child].left = left;
            left += places[child].width;
        }
    }
    for index in 0..places.len() {
        let place = &places[index];
        let half = place.box_width() / 2.0;
        let middle = match (place.children.first(), place.children.last()) {
            (Some(&first), Some(&last)) => (places[first].middle + places[last].middle) / 2.0,
            _ => place.left + (place.width + place.layout_width()) / 2.0,
        };
        let (least, most) = (place.left + half, place.left + place.width - half);
        places[index].middle = middle.min(most).max(least);
    }
    places
}

fn escaped(text: &str) -> String {
    let mut out = String::new();
    for letter in text.chars() {
        match letter {
            '&' => out.push_str("&amp;"),
            '<' => out.push_str("&lt;"),
            '>' => out.push_str("&gt;"),
            '"' => out.push_str("&quot;"),
            letter => out.push(letter),
        }
    }
    out
}

fn written(out: &mut String, class: &str, x: f64, y: f64, text: &str) {
    if !text.is_empty() {
        let text = escaped(text);
        out.push_str(&format!(
            "<text class=\"{class}\" x=\"{x:.1}\" y=\"{y:.1}\">{text}</text>\n"
        ));
    }
}

/// The lines from a node to its children: one bar below the node, and from it straight down to each child.
fn lines(out: &mut String, place: &Place, places: &[Place], y: impl Fn(usize) -> f64) {
    let from = y(place.level) + BOX / 2.0;
    let bar = from + (ROW - BOX) / 2.0;
    let mut path = String::new();
    if let (Some(&first), Some(&last)) = (place.children.first(), place.children.last()) {
        path.push_str(&format!("M{:.1} {from:.1}V{bar:.1}", place.middle));
        let ends = [place.middle, places[first].middle, places[last].middle];
        let left = ends.iter().copied().fold(f64::INFINITY, f64::min);
        let right = ends.iter().copied().fold(f64::NEG_INFINITY, f64::max);
        path.push_str(&format!("M{left:.1} {bar:.1}H{right:.1}"));
    }
    for &child in &place.children {
        let child = &places[child];
        path.push_str(&format!(
            "M{:.1} {bar:.1}V{:.1}",
            child.middle,
            y(child.level) - BOX / 2.0
        ));
    }
    if !path.is_empty() {
        out.push_str(&format!("<path d=\"{path}\"/>\n"));
    }
}

/// The picture of an accepted query.
pub fn picture(records: Records, names: &Names) -> String {
    let places = places(records, names);
    let highest = places.iter().map(|place| place.level).max().unwrap_or(0);
    let text = records.text();
    let read = leaves_end(records);
    let rest = layout(text.get(read..).unwrap_or_default());
    let last = places.last().map_or(EDGE, |place| place.left + place.width);
    let whole = last + width(&rest) as f64 * LETTER + GAP + EDGE;
    let y = |level: usize| EDGE + BOX / 2.0 + (highest - level) as f64 * ROW;
    let ground = y(0) + BOX / 2.0 + 34.0;
    let high = ground + 20.0 + EDGE / 2.0;

    let mut out = format!(
        "<svg xmlns=\"http://www.w3.org/2000/svg\" width=\"{whole:.0}\" height=\"{high:.0}\" viewBox=\"0 0 {whole:.0} {high:.0}\" role=\"img\">\n"
    );
    out.push_str(&format!("<title>{}</title>\n", escaped(&word(text))));
    out.push_str(
        "<style>\n\
         text { font: 14px 'DejaVu Sans Mono', Menlo, Consolas, monospace; text-anchor: middle; fill: #1b2430; }\n\
         .node { font-weight: bold; fill: #1d3a78; } .leaf { fill: #14532d; }\n\
         .text { font-size: 14px; } .layout { fill: #9c9c9c; text-anchor: start; }\n\
         path { fill: none; stroke: #8a97ab; stroke-width: 1.3; stroke-linecap: round; }\n\
         .under { stroke: #c3cad5; stroke-dasharray: 2 3; }\n\
         rect.node { fill: #e9effb; stroke: #6b8acb; } rect.leaf { fill: #e8f5ec; stroke: #67a97f; }\n\
         </style>\n",
    );
    out.push_str("<rect width=\"100%\" height=\"100%\" fill=\"#ffffff\"/>\n");
    out.push_str(&format!(
        "<rect x=\"{:.1}\" y=\"{:.1}\" width=\"{:.1}\" height=\"28\" rx=\"4\" fill=\"#f4f5f7\"/>\n",
        EDGE / 2.0,
        ground - 19.0,
        whole - EDGE
    ));
    for place in &places {
        lines(&mut out, place, &places, y);
    }
    for place in &places {
        let (middle, at) = (place.middle, y(place.level));
        let class = if place.level == 0 { "leaf" } else { "node" };
        if place.level == 0 {
            let (from, to) = (at + BOX / 2.0, ground - 15.0);
            out.push_str(&format!(
                "<path class=\"under\" d=\"M{middle:.1} {from:.1}V{to:.1}\"/>\n"
            ));
            written(
                &mut out,
                "layout",
                place.left + GAP / 2.0,
                ground,
                &place.layout,
            );
            written(&mut out, "text", middle, ground, &place.text);
        } else if place.children.is_empty() {
            let below = at + BOX / 2.0 + 18.0;
            out.push_str(&format!("<text class=\"layout\" style=\"text-anchor: middle\" x=\"{middle:.1}\" y=\"{below:.1}\">empty</text>\n"));
        }
        let round = if place.level == 0 { BOX / 2.0 } else { 5.0 };
        out.push_str(&format!(
            "<rect class=\"{class}\" x=\"{:.1}\" y=\"{:.1}\" width=\"{:.1}\" height=\"{BOX}\" rx=\"{round}\"/>\n",
            middle - place.box_width() / 2.0,
            at - BOX / 2.0,
            place.box_width()
        ));
        written(&mut out, class, middle, at + 5.0, &place.name);
    }
    written(&mut out, "layout", last + GAP / 2.0, ground, &rest);
    out.push_str("</svg>\n");
    out
}

/// Where the last leaf ends.
fn leaves_end(records: Records) -> usize {
    let leaves = records.iter().filter_map(|record| match record {
        Record::Leaf(leaf) => Some(leaf.start + leaf.length),
        Record::Node(_) => None,
    });
    leaves.max().unwrap_or(0)
}
