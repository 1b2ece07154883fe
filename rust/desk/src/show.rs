//! `desk show`: what is in a pack, in tables.

use zhgarelli::{Action, Pack, Terminals};

use crate::json::Json;
use crate::names::Names;
use crate::paint::Paint;
use crate::text::{table, width, word};
use crate::words::Words;

fn row(cells: impl IntoIterator<Item = impl ToString>) -> Vec<String> {
    cells.into_iter().map(|cell| cell.to_string()).collect()
}

fn action(pack: &Pack, names: &Names, action: Action) -> String {
    match action {
        Action::Error => "error".to_string(),
        Action::Accept => "accept".to_string(),
        Action::Shift(state) => format!("shift, go to state {state}"),
        Action::Reduce(production) => {
            format!(
                "reduce by {production}: {}",
                names.production(pack, production)
            )
        }
    }
}

/// Runs of bytes, as `a-z 0-9`.
fn bytes(bytes: &[u8]) -> String {
    let mut sorted = bytes.to_vec();
    sorted.sort_unstable();
    let mut runs: Vec<(u8, u8)> = Vec::new();
    for byte in sorted {
        match runs.last_mut() {
            Some((_, high)) if usize::from(*high) + 1 == usize::from(byte) => *high = byte,
            _ => runs.push((byte, byte)),
        }
    }
    let one = |byte: u8| match byte {
        b'!'..=b'~' => char::from(byte).to_string(),
        b' ' => "blank".to_string(),
        b'\n' => "\\n".to_string(),
        b'\t' => "\\t".to_string(),
        b'\r' => "\\r".to_string(),
        _ => format!("\\x{byte:02x}"),
    };
    let runs: Vec<String> = runs
        .into_iter()
        .map(|(low, high)| match high - low {
            0 => one(low),
            1 => format!("{} {}", one(low), one(high)),
            _ => format!("{}-{}", one(low), one(high)),
        })
        .collect();
    let whole = runs.join(" ");
    match width(&whole) {
        0..=60 => whole,
        _ => format!("{}…", whole.chars().take(60).collect::<String>()),
    }
}

fn whole(pack: &Pack, names: &Names, paint: Paint) -> String {
    let sizes = pack.sizes();
    let kinds = [
        "terminals",
        "nonterminals",
        "productions",
        "parse states",
        "scan states",
        "classes of bytes",
        "ranges of bytes",
        "groups",
    ];
    let letters = ["T", "N", "P", "S", "Q", "C", "R", "G"];
    let most = [64, 32, 128, 128, 128, 32, 64, 32];
    let mut rows = vec![row(["size", "of what", "here", "greatest"])];
    for (i, number) in sizes.numbers().into_iter().enumerate() {
        rows.push(row([
            letters[i].to_string(),
            kinds[i].to_string(),
            number.to_string(),
            most[i].to_string(),
        ]));
    }
    let mut out = format!(
        "{}\n  an image of {} words\n",
        table(&rows, paint),
        sizes.words()
    );

    let words = Words::new(pack);
    let mut rows = vec![row(["terminal", "name", "such as", "", "outranked by"])];
    for terminal in 0..sizes.terminals {
        let example = words
            .example(terminal)
            .map_or(String::new(), |(text, only)| match only {
                true => format!("`{}` alone", word(&text)),
                false => format!("`{}`", word(&text)),
            });
        let layout = if pack.layout().contains(terminal) {
            "layout"
        } else {
            ""
        };
        let above = pack.outranks(terminal);
        let above = if above.is_empty() {
            String::new()
        } else {
            names.set(above)
        };
        rows.push(row([
            terminal.to_string(),
            names.terminal(terminal),
            example,
            layout.to_string(),
            above,
        ]));
    }
    out.push_str(&format!("\n{}", table(&rows, paint)));

    let mut rows = vec![row(["production", ""])];
    for production in 0..sizes.productions {
        rows.push(row([
            production.to_string(),
            names.production(pack, production),
        ]));
    }
    out.push_str(&format!("\n{}", table(&rows, paint)));

    if sizes.groups > 0 {
        let mut rows = vec![row(["group", "of", "takes"])];
        for (number, group) in
            (0..sizes.groups).filter_map(|number| Some((number, pack.group(number)?)))
        {
            rows.push(row([
                number.to_string(),
                names.set(group.terminals),
                names.terminal(group.chosen),
            ]));
        }
        out.push_str(&format!("\n{}", table(&rows, paint)));
    }
    out
}

fn state(pack: &Pack, names: &Names, state: usize, paint: Paint) -> String {
    let edges = pack.edges_into(state);
    let into: Vec<String> = edges
        .iter()
        .map(|&(from, symbol)| format!("{from} by {}", names.symbol(symbol)))
        .collect();
    let into = match into.len() {
        0 => "nothing".to_string(),
        1..=8 => into.join(", "),
        many => format!("{}, and {} more", into[..8].join(", "), many - 8),
    };
    let mut rows = vec![row(["on", "it does"])];
    for terminal in pack.valid(state).iter() {
        rows.push(row([
            names.terminal(terminal),
            action(pack, names, pack.action(state, terminal)),
        ]));
    }
    for nonterminal in 0..pack.sizes().nonterminals {
        if let Some(next) = pack.goto(state, nonterminal) {
            rows.push(row([
                names.nonterminal(nonterminal),
                format!("go to state {next}"),
            ]));
        }
    }
    format!(
        "parse state {state}, reached from {into}\n\n{}",
        table(&rows, paint)
    )
}

fn scan_state(pack: &Pack, names: &Names, state: usize, paint: Paint) -> String {
    let words = Words::new(pack);
    let behind = match words.way_to(state) {
        Some(way) if way.is_empty() => "where a scan begins".to_string(),
        Some(way) => format!("behind `{}`, for one", word(&way)),
        None => "to which no text leads".to_string(),
    };
    let sets = pack.scan_sets(state);
    let [accepted, rejected, possible] = sets.map_or([Terminals::NONE; 3], |sets| {
        [sets.accepted, sets.rejected, sets.possible]
    });
    let rows = vec![
        row(["set", "terminals"]),
        row(["accepted", &names.set(accepted)]),
        row(["rejected", &names.set(rejected)]),
        row(["possible", &names.set(possible)]),
    ];
    let mut moves = vec![row(["class", "bytes", "to scan state"])];
    for class in 0..pack.sizes().classes {
        if let Some(next) = pack.moved(state, class) {
            moves.push(row([
                class.to_string(),
                bytes(words.class(class)),
                next.to_string(),
            ]));
        }
    }
    format!(
        "scan state {state}, {behind}\n\n{}\n{}",
        table(&rows, paint),
        table(&moves, paint)
    )
}

fn terminals(set: Terminals) -> Json {
    Json::list(set.iter().map(Json::number))
}

fn action_json(action: Action) -> Json {
    Json::Object(match action {
        Action::Error => vec![("action", Json::text("error"))],
        Action::Accept => vec![("action", Json::text("accept"))],
        Action::Shift(state) => vec![
            ("action", Json::text("shift")),
            ("state", Json::number(state)),
        ],
        Action::Reduce(production) => vec![
            ("action", Json::text("reduce")),
            ("production", Json::number(production)),
        ],
    })
}

fn json(pack: &Pack, names: &Names, wanted: Option<usize>, scan: Option<usize>) -> Json {
    let sizes = pack.sizes();
    let [t, n, p, s, q, c, r, g] = sizes.numbers().map(Json::number);
    let sizes_json = vec![
        ("T", t),
        ("N", n),
        ("P", p),
        ("S", s),
        ("Q", q),
        ("C", c),
        ("R", r),
        ("G", g),
    ];
    let mut fields = vec![
        ("sizes", Json::Object(sizes_json)),
        ("words", Json::number(sizes.words())),
        ("layout", terminals(pack.layout())),
        (
            "terminals",
            Json::list((0..sizes.terminals).map(|t| Json::text(names.terminal(t)))),
        ),
        (
            "nonterminals",
            Json::list((0..sizes.nonterminals).map(|n| Json::text(names.nonterminal(n)))),
        ),
        (
            "productions",
            Json::list(
                (0..sizes.productions)
                    .filter_map(|p| pack.production(p))
                    .map(|production| {
                        let symbols = production
                            .symbols
                            .iter()
                            .map(|symbol| Json::number(symbol.number()));
                        Json::Object(vec![
                            ("left", Json::number(production.left)),
                            ("symbols", Json::list(symbols)),
                        ])
                    }),
            ),
        ),
        (
            "groups",
            Json::list(
                (0..sizes.groups)
                    .filter_map(|group| pack.group(group))
                    .map(|group| {
                        Json::Object(vec![
                            ("terminals", terminals(group.terminals)),
                            ("chosen", Json::number(group.chosen)),
                        ])
                    }),
            ),
        ),
    ];
    if let Some(state) = wanted {
        let valid = pack.valid(state);
        let actions = valid.iter().map(|terminal| {
            let cell = action_json(pack.action(state, terminal));
            Json::Object(vec![("terminal", Json::number(terminal)), ("does", cell)])
        });
        let gotos = (0..sizes.nonterminals).filter_map(|nonterminal| {
            let next = Json::number(pack.goto(state, nonterminal)?);
            Some(Json::Object(vec![
                ("nonterminal", Json::number(nonterminal)),
                ("state", next),
            ]))
        });
        let row = vec![
            ("number", Json::number(state)),
            ("actions", Json::list(actions)),
            ("gotos", Json::list(gotos)),
        ];
        fields.push(("state", Json::Object(row)));
    }
    if let Some((state, sets)) = scan.and_then(|state| Some((state, pack.scan_sets(state)?))) {
        let moves = (0..sizes.classes).filter_map(|class| {
            let next = Json::number(pack.moved(state, class)?);
            Some(Json::Object(vec![
                ("class", Json::number(class)),
                ("scan_state", next),
            ]))
        });
        let row = vec![
            ("number", Json::number(state)),
            ("accepted", terminals(sets.accepted)),
            ("rejected", terminals(sets.rejected)),
            ("possible", terminals(sets.possible)),
            ("moves", Json::list(moves)),
        ];
        fields.push(("scan", Json::Object(row)));
    }
    Json::Object(fields)
}

/// The tables that are wanted; the error says what the pack does not have.
pub fn answer(
    pack: &Pack,
    names: &Names,
    wanted: Option<usize>,
    scan: Option<usize>,
    as_json: bool,
    paint: Paint,
) -> Result<String, String> {
    let sizes = pack.sizes();
    if let Some(number) = wanted.filter(|&number| number >= sizes.states) {
        return Err(format!(
            "there is no parse state {number}: the last one is {}",
            sizes.states - 1
        ));
    }
    if let Some(number) = scan.filter(|&number| number >= sizes.scan_states) {
        return Err(format!(
            "there is no scan state {number}: the last one is {}",
            sizes.scan_states - 1
        ));
    }
    if as_json {
        return Ok(format!("{}\n", json(pack, names, wanted, scan)));
    }
    let parts = [
        wanted.map(|number| state(pack, names, number, paint)),
        scan.map(|number| scan_state(pack, names, number, paint)),
    ];
    let parts: Vec<String> = parts.into_iter().flatten().collect();
    Ok(match parts.is_empty() {
        true => whole(pack, names, paint),
        false => parts.join("\n"),
    })
}
