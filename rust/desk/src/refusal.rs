//! A refusal in words: where, what was found there, and what would have been allowed.

use zhgarelli::{Action, Pack, Part, Records, Refused, Sizes, Symbol, Terminals};

use crate::json::Json;
use crate::names::Names;
use crate::paint::Paint;
use crate::text::{column, count, excerpt, line_at, word};

/// A refusal, in a sentence each.
pub struct Explained {
    code: u32,
    title: &'static str,
    /// The bytes that are meant: place and length.
    mark: Option<(usize, usize)>,
    found: String,
    allowed: String,
    hint: Option<String>,
}

impl Explained {
    /// For people: the line with a caret under it, and the sentences.
    pub fn words(&self, text: &[u8], paint: Paint) -> String {
        let title = format!("refused: {} (code {})", self.title, self.code);
        let mut lines = format!("{}\n", paint.red(&title));
        if let Some((place, length)) = self.mark {
            lines.push_str(&format!("\n{}\n", excerpt(text, place, length, paint)));
        }
        let more = [Some(&self.found), Some(&self.allowed), self.hint.as_ref()];
        for sentence in more.into_iter().flatten() {
            lines.push_str(&format!("{sentence}\n"));
        }
        lines
    }

    /// For programs: the same sentences, where they are.
    pub fn fields(&self, text: &[u8]) -> Vec<(&'static str, Json)> {
        let (line, column) = match self.mark {
            Some((place, _)) => (
                Json::number(line_at(text, place).0),
                Json::number(column(text, place)),
            ),
            None => (Json::Null, Json::Null),
        };
        vec![
            ("title", Json::text(self.title)),
            ("line", line),
            ("column", column),
            ("found", Json::text(&self.found)),
            ("allowed", Json::text(&self.allowed)),
            ("hint", self.hint.as_ref().map_or(Json::Null, Json::text)),
        ]
    }
}

/// Where a place is, in words.
fn at(text: &[u8], place: usize) -> String {
    let (line, _) = line_at(text, place);
    match line {
        1 if !text.contains(&b'\n') => format!("at byte {place}"),
        _ => format!(
            "at line {line}, column {} (byte {place})",
            column(text, place)
        ),
    }
}

/// The byte at a place as the one character that begins there, where there is one.
fn here(text: &[u8], place: usize) -> String {
    let rest = text.get(place..).unwrap_or_default();
    let front = rest.utf8_chunks().next();
    let bytes = match front.and_then(|chunk| chunk.valid().chars().next()) {
        Some(letter) => &rest[..letter.len_utf8()],
        None => &rest[..rest.len().min(1)],
    };
    word(bytes)
}

/// A refused query. The records are those that the parse had written before.
///
/// The answer of a parse does not name the state on top, whose valid set is what would have been allowed. It is worked out again here from
/// the records, on the pack's tables: see `Pack::state_on_top`.
pub fn of_query(pack: &Pack, names: &Names, records: Records, refused: &Refused) -> Explained {
    let text = records.text();
    let state = pack.state_on_top(records);
    let valid = state.map_or(Terminals::NONE, |state| pack.valid(state));
    // What the scans of the state are for.
    let sought = valid | pack.layout();
    let may_come = format!("Allowed there: {}.", names.allowed(pack, valid));
    let bytes =
        |place: usize, length: usize| word(text.get(place..place + length).unwrap_or_default());
    let explained = |title, mark, found| Explained {
        code: refused.code(),
        title,
        mark: Some(mark),
        found,
        allowed: may_come.clone(),
        hint: None,
    };
    let passes = "A pack that passes the check never comes to this: `desk check` tells what is wrong with this one.";
    match *refused {
        Refused::NoTerminal { place, .. } => {
            let mut told = explained(
                "no terminal matches",
                (place, 1),
                format!(
                    "Found `{}` {}, where no word of the pack matches.",
                    here(text, place),
                    at(text, place)
                ),
            );
            if text.get(place..) == Some(b"\n") {
                told.hint = Some(
                    "It is the line end behind the query; `printf %s` writes none.".to_string(),
                );
            }
            told
        }
        Refused::Unexpected {
            place, length: 0, ..
        } => explained(
            "the query ends too early",
            (place, 0),
            format!("Found the end of the query, {}.", at(text, place)),
        ),
        Refused::Unexpected {
            place,
            length,
            terminal,
            ..
        } => {
            let name = names.terminal(terminal);
            let found = format!(
                "Found {name} `{}`, {} {}",
                bytes(place, length),
                count(length, "byte"),
                at(text, place)
            );
            // The second case is one of packs whose possible sets are wrong, or whose layout is rejected behind the word by layout.
            let found = match valid.contains(terminal) {
                false => format!("{found}, which is not allowed there."),
                true => format!("{found}, which is allowed, but the scan for what is allowed and layout does not end with it."),
            };
            let mut told = explained("an unexpected word", (place, length), found);
            told.hint = valid.contains(terminal).then(|| {
                "The pack does not pass the check, or some of its layout terminals outrank each other.".to_string()
            });
            told
        }
        Refused::Several { place, length, .. } => {
            let found = pack
                .scan(text, place, sought, u32::MAX)
                .ok()
                .and_then(|scanned| scanned.found);
            let both = names.all(
                found.map_or(Terminals::NONE, |found| found.terminals),
                "and",
            );
            let mut told = explained(
                "several terminals and no group",
                (place, length),
                format!(
                    "Found `{}` {}, which is {both}, and no group of the pack says which of them it is.",
                    bytes(place, length),
                    at(text, place)
                ),
            );
            told.hint = Some(passes.to_string());
            told
        }
        Refused::Stuck { place, .. } => {
            let mut told = explained(
                "the parse is stuck",
                (place, 0),
                format!(
                    "Found {} that {}.",
                    at(text, place),
                    stuck(pack, names, text, place, state)
                ),
            );
            told.hint = Some(passes.to_string());
            told
        }
        Refused::TreeFull { place, work } => {
            let mut told = explained(
                "the tree room is used up",
                (place, 0),
                format!(
                    "Found no room {} for one more record than {}.",
                    at(text, place),
                    work.records
                ),
            );
            told.hint = Some(match work.records {
                65_535 => "No tree has room for more than 65535 records.".to_string(),
                _ => "`--room` gives more.".to_string(),
            });
            told
        }
        Refused::StackFull { place, .. } => {
            let mut told = explained(
                "the stack is full",
                (place, 0),
                format!(
                    "Found all 512 states of the stack in use {}.",
                    at(text, place)
                ),
            );
            told.hint = Some("The query nests deeper than the parse can follow.".to_string());
            told
        }
        Refused::Allowance { place, work } => {
            let mut told = explained(
                "the allowance is used up",
                (place, 0),
                format!(
                    "Found all {} used up by the scan that began {}.",
                    count(work.moves as usize, "move"),
                    at(text, place)
                ),
            );
            told.hint = match work.moves {
                u32::MAX => None,
                _ => Some("`--allowance` gives more.".to_string()),
            };
            told
        }
        Refused::TooDeep => Explained {
            code: refused.code(),
            title: "the tree is too deep to print",
            mark: None,
            found: "Found more than 256 nodes on one way down.".to_string(),
            allowed: "Allowed are 256.".to_string(),
            hint: Some("Without `--print` it is drawn, as deep as `--depth` says.".to_string()),
        },
        _ => Explained {
            code: refused.code(),
            title: "the query is too long",
            mark: None,
            found: "Found more than 65535 bytes.".to_string(),
            allowed: "Allowed are 65535.".to_string(),
            hint: None,
        },
    }
}

/// What the state on top wants to do at a place, and why it cannot.
fn stuck(pack: &Pack, names: &Names, text: &[u8], place: usize, state: Option<usize>) -> String {
    let Some(state) = state else {
        return "no state is on top".to_string();
    };
    let terminal = if place >= text.len() {
        Some(0)
    } else {
        let wanted = (pack.valid(state) | pack.layout()) - Terminals::one(0);
        let scanned = pack.scan(text, place, wanted, u32::MAX).ok();
        scanned.and_then(|scanned| scanned.found).and_then(|found| {
            let mut groups = (0..pack.sizes().groups).filter_map(|group| pack.group(group));
            let group = groups.find(|group| group.terminals == found.terminals);
            group.map(|group| group.chosen).or(found.terminals.lowest())
        })
    };
    match terminal.map(|terminal| pack.action(state, terminal)) {
        Some(Action::Reduce(production)) => format!(
            "state {state} is to reduce by {}, which does not fit the stack",
            names.production(pack, production)
        ),
        Some(Action::Accept) => {
            format!("state {state} is to accept, and the stack is not state 0 and one more")
        }
        _ => format!("state {state} has an action that does not fit the stack"),
    }
}

/// Is a pack text in form 2? Its rows of cells leave out those that are 0.
fn is_form2(text: &[u8]) -> bool {
    text.starts_with(b"pack=2\n")
}

/// The kinds of lines of a pack text, in order, and how many there are of each.
fn lines_of(sizes: Option<Sizes>, form2: bool) -> Vec<(&'static str, usize, &'static str)> {
    let cells = |full: &'static str, sparse: &'static str| if form2 { sparse } else { full };
    let mut lines = vec![
        ("pack=", 1, "the number of the form, 1 or 2"),
        ("size=", 1, "eight sizes within their limits"),
    ];
    if let Some(sizes) = sizes {
        lines.extend([
            ("layout=", 1, "a set of 16 hex digits"),
            (
                "dom=",
                sizes.terminals,
                "a set of 16 hex digits for each terminal",
            ),
            (
                "prod=",
                sizes.productions,
                "left side, number of symbols (14 at the most) and the symbols of each production",
            ),
            (
                "act=",
                sizes.states,
                cells(
                    "a code for each terminal, in each parse state",
                    "terminal:code for each code other than 0, terminals rising, in each parse state",
                ),
            ),
            (
                "goto=",
                sizes.states,
                cells(
                    "a code for each nonterminal, in each parse state",
                    "nonterminal:code for each code other than 0, nonterminals rising, in each parse state",
                ),
            ),
            (
                "class=",
                sizes.ranges,
                "low, high and class of each range of bytes",
            ),
            (
                "move=",
                sizes.scan_states,
                cells(
                    "a code for each class, in each scan state",
                    "class:code for each code other than 0, classes rising, in each scan state",
                ),
            ),
            (
                "scan=",
                sizes.scan_states,
                "three sets of 16 hex digits, in each scan state",
            ),
            (
                "group=",
                sizes.groups,
                "a set of 16 hex digits and the chosen terminal of each group",
            ),
        ]);
    }
    lines
}

/// The sizes that the second line of a pack text names.
fn sizes_of(text: &[u8]) -> Option<Sizes> {
    let line = text.split(|&byte| byte == b'\n').nth(1)?;
    let fields = std::str::from_utf8(line).ok()?.strip_prefix("size=")?;
    let numbers: Vec<usize> = fields
        .split(',')
        .map(|field| field.parse::<u16>().ok().map(usize::from))
        .collect::<Option<_>>()?;
    Some(Sizes::of(numbers.try_into().ok()?))
}

/// Which line is due after so many good ones, in words.
fn due(text: &[u8], good: usize) -> String {
    let sizes = if good > 1 { sizes_of(text) } else { None };
    let mut before = 0;
    for (name, many, what) in lines_of(sizes, is_form2(text)) {
        if good < before + many {
            let which = if many == 1 {
                String::new()
            } else {
                format!(", {} of {many}", good - before + 1)
            };
            return format!("Due there: a line `{name}`{which}, with {what}.");
        }
        before += many;
    }
    "Due there: the end of the pack text.".to_string()
}

/// Where the field of a part of the image stands in a pack text of the form: its line, counted from 0, and its number in that line.
fn field_of(sizes: Sizes, part: Part) -> Option<(usize, usize)> {
    let (name, row, field) = match part {
        Part::Form => ("pack=", 0, 0),
        Part::Size(size) => ("size=", 0, size),
        Part::Layout => ("layout=", 0, 0),
        Part::Outranks(terminal) => ("dom=", terminal, 0),
        Part::Left(production) => ("prod=", production, 0),
        Part::Length(production) => ("prod=", production, 1),
        Part::Symbol(production, symbol) => ("prod=", production, 2 + symbol),
        Part::Action(state, terminal) => ("act=", state, terminal),
        Part::Goto(state, nonterminal) => ("goto=", state, nonterminal),
        Part::Range(range, column) => ("class=", range, column),
        Part::Move(state, class) => ("move=", state, class),
        Part::Scan(state, set) => ("scan=", state, set),
        Part::Group(group) => ("group=", group, 0),
        Part::Chosen(group) => ("group=", group, 1),
        Part::End => return None,
    };
    let kinds = lines_of(Some(sizes), false);
    let at = kinds.iter().position(|kind| kind.0 == name)?;
    let before: usize = kinds[..at].iter().map(|kind| kind.1).sum();
    Some((before + row, field))
}

/// The bytes of a field of a line, as place and length. In form 2 the field of a cell is the one of its column.
fn field_bytes(text: &[u8], line: usize, field: usize) -> Option<(usize, usize)> {
    let lines: Vec<&[u8]> = text.split(|&byte| byte == b'\n').collect();
    let start: usize = lines.get(..line)?.iter().map(|line| line.len() + 1).sum();
    let content = lines.get(line)?;
    let first = content.iter().position(|&byte| byte == b'=')? + 1;
    let fields: Vec<&[u8]> = content[first..].split(|&byte| byte == b',').collect();
    let cells = [&b"act="[..], b"goto=", b"move="];
    let field = if is_form2(text) && cells.contains(&&content[..first]) {
        let column = format!("{field}:");
        fields
            .iter()
            .position(|field| field.starts_with(column.as_bytes()))?
    } else {
        field
    };
    let before: usize = fields
        .get(..field)?
        .iter()
        .map(|field| field.len() + 1)
        .sum();
    Some((start + first + before, fields.get(field)?.len()))
}

/// What a part of the image is, and which rule of the shape is about it.
fn part_words(names: &Names, part: Part) -> (String, &'static str) {
    let terminal = |terminal| names.symbol(Symbol::Terminal(terminal));
    let nonterminal = |nonterminal| names.symbol(Symbol::Nonterminal(nonterminal));
    let column = |columns: [&'static str; 3], column: usize| {
        columns.get(column).copied().unwrap_or_default()
    };
    match part {
        Part::Form => ("the number of the form".to_string(), "1"),
        Part::Size(size) => (
            format!("size {}", column_name(size)),
            "a size within its limits, which fits the length of the image",
        ),
        Part::Layout => ("the layout set".to_string(), "a set of terminals of the pack, without the end"),
        Part::Outranks(0) => ("the set of what outranks the end".to_string(), "the empty set"),
        Part::Outranks(of) => (
            format!("the set of what outranks {}", terminal(of)),
            "a set of terminals of the pack, without the end and without itself",
        ),
        Part::Left(production) => (format!("the left side of production {production}"), "a nonterminal of the pack"),
        Part::Length(production) => (format!("the number of symbols of production {production}"), "0 to 14"),
        Part::Symbol(production, symbol) => (
            format!("symbol {symbol} of production {production}"),
            "a terminal of the pack, neither the end nor layout, or 64 and a nonterminal; behind the last symbol 0",
        ),
        Part::Action(state, of) => (
            format!("the action of state {state} on {}", terminal(of)),
            "a code that names a state or a production of the pack; accept on the end alone, no shift on the end, and 0 on layout",
        ),
        Part::Goto(state, on) => (format!("the goto of state {state} on {}", nonterminal(on)), "0, or 1 and a state of the pack"),
        Part::Range(range, which) => (
            format!("the {} of byte range {range}", column(["low end", "high end", "class"], which)),
            "ranges that rise from 0 to 255 and do not overlap, each with a class of the pack",
        ),
        Part::Move(state, class) => (
            format!("the move of scan state {state} on class {class}"),
            "0, or 1 and a scan state of the pack",
        ),
        Part::Scan(state, which) => (
            format!("the {} set of scan state {state}", column(["accepted", "rejected", "possible"], which)),
            "a set of terminals of the pack, without the end; accepted and rejected share nothing, and are empty in scan state 0",
        ),
        Part::Group(group) => (
            format!("the set of group {group}"),
            "a set of two or more terminals of the pack, without the end, which no group before has",
        ),
        Part::Chosen(group) => (format!("the chosen terminal of group {group}"), "a terminal of the group"),
        Part::End => ("behind the last word".to_string(), "no word"),
    }
}

fn column_name(size: usize) -> &'static str {
    ["T", "N", "P", "S", "Q", "C", "R", "G"]
        .get(size)
        .copied()
        .unwrap_or_default()
}

/// A pack text that is refused.
pub fn of_pack(names: &Names, text: &[u8], refused: &Refused) -> Explained {
    let explained = |title, mark, found, allowed| Explained {
        code: refused.code(),
        title,
        mark,
        found,
        allowed,
        hint: None,
    };
    match *refused {
        Refused::Form { place } => {
            let (line, bytes) = line_at(text, place);
            let found = match text.get(bytes.clone()) {
                _ if place >= text.len() => "the end of the pack text".to_string(),
                Some([]) => "an empty line".to_string(),
                Some(content) if bytes.end == text.len() => {
                    format!("`{}`, which no line end follows,", word(content))
                }
                Some(content) => format!("`{}`", word(content)),
                None => "a line".to_string(),
            };
            explained(
                "the pack text is not of the form",
                Some((place, bytes.len())),
                format!("Found {found} at line {line} (byte {place})."),
                due(text, line - 1),
            )
        }
        Refused::Shape { word: at } => {
            let sizes = sizes_of(text);
            let part = sizes.map_or(Part::End, |sizes| sizes.part(at));
            let (what, rule) = part_words(names, part);
            let field = sizes.and_then(|sizes| field_of(sizes, part));
            let mark = field.and_then(|(line, field)| field_bytes(text, line, field));
            let value = mark
                .and_then(|(place, length)| text.get(place..place + length))
                .unwrap_or_default();
            explained(
                "the shape is wrong",
                mark,
                format!("Found {} as {what}, word {at} of the image.", word(value)),
                format!("Allowed there: {rule}."),
            )
        }
        _ => explained(
            "the pack text is too long",
            None,
            "Found more than 65535 bytes.".to_string(),
            "Allowed are 65535.".to_string(),
        ),
    }
}
