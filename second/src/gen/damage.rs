//! Source 3: damage to images, to the lines of a pack text, to the cells of form 2, and to queries.

use super::rng::Rng;
use crate::image::{
    Pack, FIRST_NONTERMINAL, LAYOUT_PLACE, PROD_SYMBOLS, SET_WORDS, SIZE_COUNT, SIZE_LIMITS,
    SIZE_PLACE,
};
use crate::sets;
use crate::shape::Rule;
use crate::text::Line;

/// Damages an image of good shape.
pub fn image(rng: &mut Rng, good: &[u16]) -> Vec<u16> {
    let mut words = good.to_vec();
    match rng.below(20) {
        0 | 1 => {
            for _ in 0..rng.from_to(1, 3) {
                let place = rng.below(words.len());
                words[place] ^= 1 << rng.below(16);
            }
        }
        2 | 3 => {
            for _ in 0..rng.from_to(1, 3) {
                let place = rng.below(words.len());
                words[place] = any_word(rng);
            }
        }
        4 => {
            let length = rng.below(words.len());
            words.truncate(length);
        }
        5 => {
            let more = rng.from_to(1, 5);
            words.extend((0..more).map(|_| any_word(rng)));
        }
        _ => {
            // Each rule is as likely as another; some images cannot break some rules.
            let pack = Pack::new(good);
            while break_some_rule(rng, &pack, &mut words).is_none() {}
            // Sometimes two.
            if rng.once_in(8) && words.len() == good.len() {
                break_some_rule(rng, &pack, &mut words);
            }
        }
    }
    words
}

fn any_word(rng: &mut Rng) -> u16 {
    match rng.below(4) {
        0 => rng.below(5) as u16,
        1 => *rng.pick(&[63, 64, 65, 95, 96, 127, 128, 255, 256, 257, 65_534, 65_535]),
        _ => rng.number() as u16,
    }
}

/// One more than the greatest, or any greater word.
fn beyond(rng: &mut Rng, greatest: usize) -> u16 {
    let least = greatest + 1;
    match rng.below(3) {
        0 => rng.from_to(least, 65_535) as u16,
        1 => rng.from_to(least, 65_535.min(2 * least)) as u16,
        _ => least as u16,
    }
}

/// A number below `bound`, if there is one.
fn some_below(rng: &mut Rng, bound: usize) -> Option<usize> {
    (bound > 0).then(|| rng.below(bound))
}

/// Breaks the given rule in an image of good shape, if it has something that could break it.
pub fn image_by_rule(rng: &mut Rng, good: &[u16], rule: Rule) -> Option<Vec<u16>> {
    let mut words = good.to_vec();
    break_rule(rng, &Pack::new(good), &mut words, rule)?;
    Some(words)
}

fn break_some_rule(rng: &mut Rng, pack: &Pack, words: &mut Vec<u16>) -> Option<()> {
    let rule = *rng.pick(&Rule::all());
    break_rule(rng, pack, words, rule)
}

/// Changes words so that a rule of the shape is broken; none if this image has nothing that could break it.
fn break_rule(rng: &mut Rng, pack: &Pack, words: &mut Vec<u16>, rule: Rule) -> Option<()> {
    let sizes = pack.sizes;
    let flip = |words: &mut [u16], place: usize, bit: usize| {
        words[place + bit / 16] ^= 1 << (bit % 16);
    };
    // Terminals and places that a rule is about.
    let above = |rng: &mut Rng| {
        some_below(rng, 64 - sizes.terminals).map(|bit| match rng.below(2) {
            0 => sizes.terminals,
            _ => sizes.terminals + bit,
        })
    };
    let terminal = |rng: &mut Rng| some_below(rng, sizes.terminals - 1).map(|t| 1 + t);
    let of_layout = |rng: &mut Rng| {
        let layout: Vec<usize> = sets::members(pack.layout()).collect();
        some_below(rng, layout.len()).map(|i| layout[i])
    };
    let no_layout = |rng: &mut Rng| terminal(rng).filter(|&t| !sets::has(pack.layout(), t));
    let p = rng.below(sizes.productions);
    let (production, len) = (pack.prod_place(p), pack.len(p));
    let used = |rng: &mut Rng| some_below(rng, len).map(|i| production + 2 + i);
    let s = rng.below(sizes.states);
    let q = rng.below(sizes.scan_states);
    let range = some_below(rng, sizes.ranges).map(|r| pack.range_place(r));
    let group = some_below(rng, sizes.groups);
    match rule {
        Rule::WordZeroIsOne => words[0] = *rng.pick(&[0, 2, 3, 256, 257, 65_535]),
        Rule::SizeIsThere => words.truncate(rng.from_to(1, SIZE_COUNT)),
        Rule::SizeInRange(i) => {
            let (least, greatest) = SIZE_LIMITS[i];
            words[SIZE_PLACE + i] = match least.checked_sub(1) {
                Some(less) if rng.percent(40) => less,
                _ => beyond(rng, usize::from(greatest)),
            };
        }
        Rule::LengthNotShort => words.truncate(rng.from_to(LAYOUT_PLACE, words.len() - 1)),
        Rule::LengthNotLong => words.push(any_word(rng)),
        Rule::LayoutBelowT => flip(words, LAYOUT_PLACE, above(rng)?),
        Rule::LayoutLacksZero => flip(words, LAYOUT_PLACE, 0),
        Rule::DomBelowT => {
            let place = pack.dom_place(rng.below(sizes.terminals));
            flip(words, place, above(rng)?);
        }
        Rule::DomOfZeroEmpty => flip(words, pack.dom_place(0), rng.below(sizes.terminals)),
        Rule::DomLacksZero => flip(words, pack.dom_place(terminal(rng)?), 0),
        Rule::DomLacksItself => {
            let t = terminal(rng)?;
            flip(words, pack.dom_place(t), t);
        }
        Rule::LhsBelowN => words[production] = beyond(rng, sizes.nonterminals - 1),
        Rule::LenAtMost14 => words[production + 1] = beyond(rng, PROD_SYMBOLS),
        Rule::SymbolNotZero => match used(rng) {
            Some(place) if rng.percent(60) => words[place] = 0,
            _ if len < PROD_SYMBOLS => {
                words[production + 1] = words[production + 1].saturating_add(1)
            }
            _ => return None,
        },
        Rule::SymbolBelowT => words[used(rng)?] = above(rng)? as u16,
        Rule::SymbolOutsideLayout => words[used(rng)?] = of_layout(rng)? as u16,
        Rule::SymbolBelowN => {
            let greatest = FIRST_NONTERMINAL + sizes.nonterminals - 1;
            words[used(rng)?] = beyond(rng, greatest);
        }
        Rule::UnusedSymbolZero => match some_below(rng, PROD_SYMBOLS - len) {
            Some(i) if rng.percent(60) => words[production + 2 + len + i] = any_word(rng),
            _ if len > 0 => words[production + 1] = words[production + 1].saturating_sub(1),
            _ => return None,
        },
        Rule::ActionLayoutColumn => {
            let reduce = 3 + 2 * rng.below(sizes.productions);
            let shift = 2 + 2 * rng.below(sizes.states);
            let place = pack.act_place(s, of_layout(rng)?);
            words[place] = *rng.pick(&[1, reduce, shift]) as u16;
        }
        Rule::ActionAcceptColumn => words[pack.act_place(s, no_layout(rng)?)] = 1,
        Rule::ActionShiftColumn => {
            words[pack.act_place(s, 0)] = 2 + 2 * rng.below(sizes.states) as u16;
        }
        Rule::ActionState => {
            let more = beyond(rng, sizes.states - 1).min(32_766);
            words[pack.act_place(s, no_layout(rng)?)] = 2 + 2 * more;
        }
        Rule::ActionProduction => {
            let t = no_layout(rng).unwrap_or(0);
            let more = beyond(rng, sizes.productions - 1).min(32_766);
            words[pack.act_place(s, t)] = 3 + 2 * more;
        }
        Rule::GotoAtMostS => {
            let n = rng.below(sizes.nonterminals);
            words[pack.goto_place(s, n)] = beyond(rng, sizes.states);
        }
        Rule::RangeLoAbovePrevious => {
            let r = 1 + some_below(rng, sizes.ranges.saturating_sub(1))?;
            let previous = usize::from(pack.range(r - 1).hi);
            words[pack.range_place(r)] = match rng.percent(50) {
                true => previous as u16,
                false => rng.from_to(0, previous) as u16,
            };
        }
        Rule::RangeLoAtMostHi => {
            let place = range?;
            let hi = usize::from(words[place + 1]);
            words[place] = beyond(rng, hi);
        }
        Rule::RangeHiAtMost255 => {
            let place = range?;
            words[place + 1] = beyond(rng, 255);
            if rng.once_in(3) {
                words[place] = words[place + 1];
            }
        }
        Rule::RangeClassBelowC => words[range? + 2] = beyond(rng, sizes.classes - 1),
        Rule::MoveAtMostQ => {
            let c = rng.below(sizes.classes);
            words[pack.move_place(q, c)] = beyond(rng, sizes.scan_states);
        }
        Rule::AccBelowT => flip(words, pack.acc_place(q), above(rng)?),
        Rule::AccLacksZero => flip(words, pack.acc_place(q), 0),
        Rule::AccEmptyInStateZero => flip(words, pack.acc_place(0), terminal(rng)?),
        Rule::RejBelowT => flip(words, pack.rej_place(q), above(rng)?),
        Rule::RejLacksZero => flip(words, pack.rej_place(q), 0),
        Rule::RejSharesNothing => {
            let acc: Vec<usize> = sets::members(pack.acc(q)).collect();
            let t = acc[some_below(rng, acc.len())?];
            flip(words, pack.rej_place(q), t);
        }
        Rule::RejEmptyInStateZero => flip(words, pack.rej_place(0), terminal(rng)?),
        Rule::PossBelowT => flip(words, pack.poss_place(q), above(rng)?),
        Rule::PossLacksZero => flip(words, pack.poss_place(q), 0),
        Rule::GroupBelowT => flip(words, pack.group_place(group?), above(rng)?),
        Rule::GroupLacksZero => flip(words, pack.group_place(group?), 0),
        Rule::GroupAtLeastTwo => {
            let g = group?;
            let left = match rng.percent(50) {
                true => sets::EMPTY,
                false => sets::single(pack.chosen(g)),
            };
            let place = pack.group_place(g);
            words[place..place + SET_WORDS].copy_from_slice(&sets::to_words(left));
        }
        Rule::GroupNotEarlier => {
            let g = 1 + some_below(rng, sizes.groups.saturating_sub(1))?;
            let earlier = pack.group_place(rng.below(g));
            // With the same chosen terminal, or with its own.
            let copied = SET_WORDS + rng.below(2);
            words.copy_within(earlier..earlier + copied, pack.group_place(g));
        }
        Rule::ChosenInGroup => {
            let g = group?;
            let others: Vec<usize> = (0..sizes.terminals)
                .filter(|&t| !sets::has(pack.group(g), t))
                .collect();
            words[pack.chosen_place(g)] = match some_below(rng, others.len()) {
                Some(i) if rng.percent(50) => others[i] as u16,
                _ => beyond(rng, sizes.terminals - 1),
            };
        }
    }
    Some(())
}

/// The ways in which a pack text is broken.
#[derive(Clone, Copy, Debug, PartialEq, Eq, PartialOrd, Ord)]
pub enum TextBreak {
    LeadingZero,
    Sign,
    Blank,
    CarriageReturn,
    EmptyField,
    ExtraComma,
    FieldMissing,
    FieldMore,
    Uppercase,
    ShortSet,
    LongSet,
    NumberOver65535,
    NotADigit,
    NoLastLf,
    TextAfterLast,
    EmptyLine,
    LineName,
    LinesSwapped,
    LineDropped,
    LineDoubled,
    SizeOutOfLimits,
    LenOver14,
    LenOther,
    PackOther,
    Cut,
    AnyByte,
}

impl TextBreak {
    pub const ALL: [TextBreak; 26] = [
        TextBreak::LeadingZero,
        TextBreak::Sign,
        TextBreak::Blank,
        TextBreak::CarriageReturn,
        TextBreak::EmptyField,
        TextBreak::ExtraComma,
        TextBreak::FieldMissing,
        TextBreak::FieldMore,
        TextBreak::Uppercase,
        TextBreak::ShortSet,
        TextBreak::LongSet,
        TextBreak::NumberOver65535,
        TextBreak::NotADigit,
        TextBreak::NoLastLf,
        TextBreak::TextAfterLast,
        TextBreak::EmptyLine,
        TextBreak::LineName,
        TextBreak::LinesSwapped,
        TextBreak::LineDropped,
        TextBreak::LineDoubled,
        TextBreak::SizeOutOfLimits,
        TextBreak::LenOver14,
        TextBreak::LenOther,
        TextBreak::PackOther,
        TextBreak::Cut,
        TextBreak::AnyByte,
    ];
}

/// Breaks a good pack text in one way. (A few of the ways can leave it good, as two equal lines swapped.)
pub fn text(rng: &mut Rng, good: &[u8], how: TextBreak) -> Vec<u8> {
    let mut lines: Vec<Vec<u8>> = good
        .split_inclusive(|&byte| byte == b'\n')
        .map(<[u8]>::to_vec)
        .collect();
    let sets = matches!(
        how,
        TextBreak::Uppercase | TextBreak::ShortSet | TextBreak::LongSet
    );
    let number = match how {
        TextBreak::SizeOutOfLimits => 1,
        TextBreak::PackOther => 0,
        TextBreak::LenOver14 | TextBreak::LenOther => line_of(rng, &lines, &[Line::Prod]),
        _ if sets => line_of(
            rng,
            &lines,
            &[Line::Layout, Line::Dom, Line::Scan, Line::Group],
        ),
        _ => line_of(rng, &lines, &Line::ALL),
    };
    match how {
        TextBreak::NoLastLf => {
            if let Some(line) = lines.last_mut() {
                line.pop();
            }
        }
        TextBreak::TextAfterLast => {
            let more = *rng.pick(&["\n", "x", "group=", "scan=\n", " ", "\0", "pack=1\n"]);
            lines.push(more.into());
        }
        TextBreak::EmptyLine => lines.insert(rng.from_to(0, lines.len()), b"\n".to_vec()),
        TextBreak::LinesSwapped => {
            let other = rng.below(lines.len());
            lines.swap(number, other);
        }
        TextBreak::LineDropped => {
            lines.remove(number);
        }
        TextBreak::LineDoubled => lines.insert(number, lines[number].clone()),
        TextBreak::LineName => {
            let name = rng.pick(&Line::ALL).name();
            let line = &lines[number];
            let equals = line.iter().position(|&b| b == b'=').unwrap_or(0);
            lines[number] = [name.as_bytes(), &line[equals..]].concat();
        }
        TextBreak::Cut => {
            let mut text = lines.concat();
            text.truncate(rng.below(good.len()));
            return text;
        }
        TextBreak::AnyByte => {
            let mut text = lines.concat();
            let place = rng.below(text.len());
            text[place] = *rng.pick(b"0123456789abcdef,=\n\r -+AFg\0\xff");
            return text;
        }
        _ => break_fields(rng, &mut lines[number], how),
    }
    lines.concat()
}

/// A line, each of the names that are there as likely as another.
fn line_of(rng: &mut Rng, lines: &[Vec<u8>], names: &[Line]) -> usize {
    let numbers = |name: Line| -> Vec<usize> {
        let start = [name.name().as_bytes(), b"="].concat();
        (0..lines.len())
            .filter(|&number| lines[number].starts_with(&start))
            .collect()
    };
    let there: Vec<Vec<usize>> = names
        .iter()
        .map(|&name| numbers(name))
        .filter(|numbers| !numbers.is_empty())
        .collect();
    let numbers = rng.pick(&there);
    *rng.pick(numbers)
}

/// Breaks one field of a line.
fn break_fields(rng: &mut Rng, line: &mut Vec<u8>, how: TextBreak) {
    let whole = String::from_utf8_lossy(line).into_owned();
    let (name, rest) = whole
        .trim_end_matches('\n')
        .split_once('=')
        .unwrap_or(("", ""));
    let mut fields: Vec<String> = rest.split(',').map(str::to_string).collect();
    let i = rng.below(fields.len());
    let field = fields[i].clone();
    let mut end = "\n";
    match how {
        TextBreak::LeadingZero => fields[i] = format!("0{field}"),
        TextBreak::Sign => fields[i] = format!("{}{field}", rng.pick(&["+", "-"])),
        TextBreak::Blank => {
            fields[i] = match rng.below(3) {
                0 => format!(" {field}"),
                1 => format!("{field} "),
                _ => format!("{field}\t"),
            }
        }
        TextBreak::CarriageReturn => end = "\r\n",
        TextBreak::EmptyField => fields[i].clear(),
        TextBreak::ExtraComma => fields[i].push(','),
        TextBreak::FieldMissing => {
            fields.remove(i);
        }
        TextBreak::FieldMore => fields.insert(i, field),
        TextBreak::Uppercase => {
            let upper = field.to_uppercase();
            fields[i] = if upper == field {
                field.replacen('0', "A", 1)
            } else {
                upper
            };
        }
        TextBreak::ShortSet => {
            fields[i].pop();
        }
        TextBreak::LongSet => fields[i].insert(0, '0'),
        TextBreak::NumberOver65535 => {
            fields[i] = rng
                .pick(&["65536", "65537", "70000", "99999", "100000", "4294967296"])
                .to_string();
        }
        TextBreak::NotADigit => {
            let other = rng.pick(&["a", "x", "0x1", "1.0", "1e1", ":", "g", "\u{0}"]);
            fields[i] = other.to_string();
        }
        TextBreak::SizeOutOfLimits => {
            let i = rng.below(SIZE_COUNT.min(fields.len()));
            let (least, greatest) = SIZE_LIMITS[i];
            let size = if least > 0 && rng.percent(50) {
                least - 1
            } else {
                greatest + 1
            };
            fields[i] = size.to_string();
        }
        TextBreak::LenOver14 => {
            // As many symbols as it says.
            let len = rng.from_to(15, 20);
            fields.truncate(1);
            fields.push(len.to_string());
            fields.extend((0..len).map(|_| "64".to_string()));
        }
        TextBreak::LenOther => {
            let len = rng.from_to(0, 14);
            if let Some(field) = fields.get_mut(1) {
                *field = len.to_string();
            }
        }
        TextBreak::PackOther => {
            fields[0] = rng
                .pick(&["0", "2", "01", "11", "", "1 ", "65537"])
                .to_string();
        }
        _ => unreachable!("{how:?} breaks more than a field"),
    }
    *line = format!("{name}={}{end}", fields.join(",")).into_bytes();
}

/// The ways in which the cells of a text of form 2 are broken, and its first line.
#[derive(Clone, Copy, Debug, PartialEq, Eq, PartialOrd, Ord)]
pub enum CellBreak {
    ColumnFalls,
    ColumnRepeats,
    ColumnOutside,
    ZeroCell,
    LeadingZero,
    NoCode,
    NoColumn,
    NoColon,
    TwoColons,
    OtherColon,
    CommaInFront,
    CommaBehind,
    TwoCommas,
    NumberOver65535,
    Blank,
    FullRow,
    EmptyElsewhere,
    FirstLine,
    FormOne,
}

impl CellBreak {
    pub const ALL: [CellBreak; 19] = [
        CellBreak::ColumnFalls,
        CellBreak::ColumnRepeats,
        CellBreak::ColumnOutside,
        CellBreak::ZeroCell,
        CellBreak::LeadingZero,
        CellBreak::NoCode,
        CellBreak::NoColumn,
        CellBreak::NoColon,
        CellBreak::TwoColons,
        CellBreak::OtherColon,
        CellBreak::CommaInFront,
        CellBreak::CommaBehind,
        CellBreak::TwoCommas,
        CellBreak::NumberOver65535,
        CellBreak::Blank,
        CellBreak::FullRow,
        CellBreak::EmptyElsewhere,
        CellBreak::FirstLine,
        CellBreak::FormOne,
    ];
}

/// Breaks a good text of form 2 in one of these ways.
pub fn cells(rng: &mut Rng, good: &[u8], how: CellBreak) -> Vec<u8> {
    let mut lines: Vec<String> = good
        .split_inclusive(|&byte| byte == b'\n')
        .map(|line| String::from_utf8_lossy(line).into_owned())
        .collect();
    match how {
        CellBreak::FirstLine => {
            let first = [
                "pack=3",
                "pack=02",
                "pack=0",
                "pack=",
                "pack=12",
                "pack=2,2",
                "pack=2,",
                "pack=65538",
                "pack=2:1",
                "pack= 2",
                "pack=2\r",
                "Pack=2",
                "form=2",
                "",
                "pack=2\n",
                "pack=1\npack=2",
            ];
            lines[0] = format!("{}\n", rng.pick(&first));
        }
        CellBreak::FormOne => lines[0] = "pack=1\n".to_string(),
        CellBreak::EmptyElsewhere => {
            // A line that may not be empty after its `=`.
            let others: Vec<usize> = (0..lines.len())
                .filter(|&number| !is_cells(&lines[number]))
                .collect();
            let number = *rng.pick(&others);
            if let Some((name, _)) = lines[number].clone().split_once('=') {
                lines[number] = format!("{name}=\n");
            }
        }
        _ => {
            let sizes: Vec<usize> = lines[1]
                .trim_end_matches('\n')
                .split(['=', ','])
                .filter_map(|size| size.parse().ok())
                .collect();
            let number = cells_line(rng, &lines);
            let line = lines[number].clone();
            let (name, rest) = line
                .trim_end_matches('\n')
                .split_once('=')
                .unwrap_or(("", ""));
            let columns = match name {
                "act" => sizes[0],
                "goto" => sizes[1],
                _ => sizes[5],
            };
            let mut fields: Vec<String> = rest.split(',').map(str::to_string).collect();
            if rest.is_empty() {
                fields.clear();
            }
            break_cells(rng, &mut fields, columns, how);
            lines[number] = format!("{name}={}\n", fields.join(","));
        }
    }
    lines.concat().into_bytes()
}

fn is_cells(line: &str) -> bool {
    ["act=", "goto=", "move="]
        .iter()
        .any(|name| line.starts_with(name))
}

/// A line of cells, each of the three names as likely as another; mostly one that has cells.
fn cells_line(rng: &mut Rng, lines: &[String]) -> usize {
    let named = |name: &str| -> Vec<usize> {
        (0..lines.len())
            .filter(|&number| lines[number].starts_with(name))
            .collect()
    };
    // A text over the limit may be cut before the last of them.
    let names: Vec<&str> = ["act=", "goto=", "move="]
        .into_iter()
        .filter(|name| !named(name).is_empty())
        .collect();
    let name = *rng.pick(&names);
    let named = named(name);
    let filled: Vec<usize> = named
        .iter()
        .copied()
        .filter(|&number| lines[number].trim_end() != name)
        .collect();
    match filled.is_empty() || rng.once_in(8) {
        true => *rng.pick(&named),
        false => *rng.pick(&filled),
    }
}

fn break_cells(rng: &mut Rng, fields: &mut Vec<String>, columns: usize, how: CellBreak) {
    // A row without cells gets a wrong one.
    if fields.is_empty() {
        let column = rng.below(columns);
        fields.push(format!("{column}:1"));
    }
    let i = rng.below(fields.len());
    let field = fields[i].clone();
    let (column, code) = field.split_once(':').unwrap_or(("0", "1"));
    let (column, code) = (column.to_string(), code.to_string());
    match how {
        CellBreak::ColumnFalls => match fields.len() {
            1 if column == "0" => fields.insert(0, "1:1".to_string()),
            1 => fields.push(format!("0:{code}")),
            count => {
                let i = i.min(count - 2);
                fields.swap(i, i + 1);
            }
        },
        CellBreak::ColumnRepeats => {
            let again = match rng.percent(50) {
                true => field,
                false => format!("{column}:{}", rng.from_to(1, 9)),
            };
            fields.insert(i + 1, again);
        }
        CellBreak::ColumnOutside => {
            let outside = match rng.below(4) {
                0 => rng.from_to(columns, 65_535),
                1 => rng.from_to(columns, columns + 70),
                _ => columns,
            };
            match rng.percent(60) {
                // One cell more, behind the others.
                true => fields.push(format!("{outside}:{code}")),
                false => {
                    fields.pop();
                    fields.push(format!("{outside}:{code}"));
                }
            }
        }
        CellBreak::ZeroCell => {
            // A cell that is made 0, or one that is 0 and stands there.
            let free = (0..columns)
                .find(|column| !fields.iter().any(|f| f.starts_with(&format!("{column}:"))));
            match free {
                Some(free) if rng.percent(50) => {
                    let behind = |f: &String| {
                        let column = f.split(':').next().and_then(|c| c.parse().ok());
                        column.unwrap_or(0) < free
                    };
                    let place = fields.iter().take_while(|f| behind(f)).count();
                    fields.insert(place, format!("{free}:0"));
                }
                _ => fields[i] = format!("{column}:0"),
            }
        }
        CellBreak::LeadingZero => {
            fields[i] = match rng.percent(50) {
                true => format!("0{field}"),
                false => format!("{column}:0{code}"),
            }
        }
        CellBreak::NoCode => fields[i] = format!("{column}:"),
        CellBreak::NoColumn => fields[i] = format!(":{code}"),
        CellBreak::NoColon => {
            fields[i] = match rng.below(3) {
                0 => column,
                1 => code,
                _ => format!("{column}{code}"),
            }
        }
        CellBreak::TwoColons => {
            fields[i] = match rng.below(4) {
                0 => format!("{column}::{code}"),
                1 => format!(":{field}"),
                2 => format!("{field}:"),
                _ => format!("{field}:{}", rng.below(3)),
            }
        }
        CellBreak::OtherColon => {
            let other = rng.pick(&["=", ";", ".", ",", " ", "\u{0}", "-", "/"]);
            fields[i] = format!("{column}{other}{code}");
        }
        CellBreak::CommaInFront => fields.insert(0, String::new()),
        CellBreak::CommaBehind => fields.push(String::new()),
        CellBreak::TwoCommas => match fields.len() {
            1 => *fields = vec![String::new(); 2],
            count => fields.insert(1 + i.min(count - 2), String::new()),
        },
        CellBreak::NumberOver65535 => {
            let over = *rng.pick(&["65536", "65537", "99999", "100000", "4294967297"]);
            fields[i] = match rng.percent(50) {
                true => format!("{over}:{code}"),
                false => format!("{column}:{over}"),
            };
        }
        CellBreak::Blank => {
            fields[i] = match rng.below(4) {
                0 => format!(" {field}"),
                1 => format!("{column} :{code}"),
                2 => format!("{column}: {code}"),
                _ => format!("{field} "),
            }
        }
        CellBreak::FullRow => {
            let mut row = vec!["0".to_string(); columns];
            for field in fields.iter() {
                if let Some((column, code)) = field.split_once(':') {
                    if let Some(cell) = column.parse().ok().and_then(|c: usize| row.get_mut(c)) {
                        *cell = code.to_string();
                    }
                }
            }
            *fields = row;
        }
        CellBreak::EmptyElsewhere | CellBreak::FirstLine | CellBreak::FormOne => {
            unreachable!("{how:?} breaks no cell")
        }
    }
}

/// Damages a query.
pub fn query(rng: &mut Rng, text: &mut Vec<u8>, likely: &[u8]) {
    for _ in 0..rng.from_to(1, 3) {
        let byte = *rng.pick(likely);
        match rng.below(6) {
            0 => text.insert(rng.from_to(0, text.len()), byte),
            _ if text.is_empty() => text.push(byte),
            1 => {
                text.remove(rng.below(text.len()));
            }
            2 => {
                let place = rng.below(text.len());
                text[place] = byte;
            }
            3 => text.truncate(rng.below(text.len())),
            4 => {
                let place = rng.below(text.len());
                let part = text[place..].to_vec();
                text.extend(part);
            }
            _ => {
                let place = rng.below(text.len());
                text[place] ^= 1 << rng.below(8);
            }
        }
    }
}
