//! `desk`, the query reader for people: trees and refusals at a terminal, checks, tables and pictures. `desk --help` shows how it is used.
//!
//! It reads nothing by itself: the proved library does, through the crate `zhgarelli`.
#![forbid(unsafe_code)]

mod args;
mod check;
mod draw;
mod input;
mod json;
mod names;
mod paint;
mod read;
mod refusal;
mod show;
mod text;
mod words;

use std::env;
use std::fs;
use std::io::{self, IsTerminal, Write};
use std::process::ExitCode;

use zhgarelli::{Pack, Tree};

use args::{Args, Command, Wanted, When};
use input::Packed;
use json::Json;
use paint::Paint;
use read::Reading;

/// What a command comes to: whether it is done or refused, and what it prints.
struct Outcome {
    done: bool,
    printed: Vec<u8>,
    /// What is said of a refusal where the output is not for people.
    said: String,
}

impl Outcome {
    fn printed((done, printed): (bool, impl Into<Vec<u8>>)) -> Outcome {
        Outcome {
            done,
            printed: printed.into(),
            said: String::new(),
        }
    }
}

/// Whether colours are wanted: on a terminal, if nobody says otherwise.
fn paint(when: When) -> Paint {
    let plain = env::var_os("NO_COLOR").is_some_and(|value| !value.is_empty());
    Paint {
        on: match when {
            When::Always => true,
            When::Never => false,
            When::Auto => io::stdout().is_terminal() && !plain,
        },
    }
}

/// A pack text that is refused, for any command.
fn refused_pack(args: &Args, packed: &Packed, paint: Paint) -> Option<Outcome> {
    let refused = packed.pack.as_ref().err()?;
    let told = refusal::of_pack(&packed.names, &packed.text, refused);
    if args.json {
        let mut fields = vec![
            ("code", Json::Number(refused.code().into())),
            ("place", Json::number(refused.values()[0])),
        ];
        fields.extend(told.fields(&packed.text));
        return Some(Outcome::printed((
            false,
            format!("{}\n", Json::Object(fields)),
        )));
    }
    let words = told.words(&packed.text, paint);
    let whole = format!("{}: {words}", args.pack.display());
    Some(match args.command {
        Command::Draw => Outcome {
            done: false,
            printed: Vec::new(),
            said: whole,
        },
        _ => Outcome::printed((false, whole)),
    })
}

fn draw(args: &Args, pack: &Pack, names: &names::Names, query: &[u8]) -> Result<Outcome, String> {
    let mut tree = Tree::with_room(args.room);
    let refused = pack.parse(query, &mut tree, args.allowance).err();
    let records = tree.records(query);
    if let Some(refused) = refused {
        let plain = Paint { on: false };
        let said = refusal::of_query(pack, names, records, &refused).words(query, plain);
        return Ok(Outcome {
            done: false,
            printed: Vec::new(),
            said,
        });
    }
    let picture = draw::picture(records, names);
    let printed = match &args.output {
        Some(path) if path.as_os_str() != "-" => {
            fs::write(path, picture).map_err(|error| input::wrong(path.display(), error))?;
            String::new()
        }
        _ => picture,
    };
    Ok(Outcome::printed((true, printed)))
}

fn run(args: &Args) -> Result<Outcome, String> {
    let paint = paint(args.color);
    let packed = input::pack(args)?;
    let pack = match &packed.pack {
        Ok(pack) => pack,
        Err(_) => return refused_pack(args, &packed, paint).ok_or_else(String::new),
    };
    let names = &packed.names;
    match args.command {
        Command::Check => Ok(Outcome::printed(check::answer(
            pack, names, args.json, paint,
        ))),
        Command::Show => {
            let tables = show::answer(pack, names, args.state, args.scan, args.json, paint)?;
            Ok(Outcome::printed((true, tables)))
        }
        Command::Read => {
            let query = input::query(args)?;
            let reading = Reading {
                pack,
                names,
                query: &query,
                room: args.room,
                allowance: args.allowance,
                print: args.print,
            };
            Ok(Outcome::printed(
                reading.answer(args.depth, args.json, paint),
            ))
        }
        Command::Draw => draw(args, pack, names, &input::query(args)?),
    }
}

/// Writes to standard output. Where the reader has gone away, nobody misses anything.
fn put(bytes: &[u8]) -> Result<(), String> {
    let mut out = io::stdout().lock();
    match out.write_all(bytes).and_then(|()| out.flush()) {
        Err(error) if error.kind() != io::ErrorKind::BrokenPipe => {
            Err(input::wrong("standard output", error))
        }
        _ => Ok(()),
    }
}

/// Writes to standard error, where that can be done.
fn say(text: &str) {
    let _ = io::stderr().write_all(text.as_bytes());
}

fn main() -> ExitCode {
    let outcome = match args::read(env::args_os().skip(1)) {
        Ok(Wanted::Help) => Ok(Outcome::printed((true, args::HELP.to_string()))),
        Ok(Wanted::Version) => Ok(Outcome::printed((
            true,
            format!("desk {}\n", env!("CARGO_PKG_VERSION")),
        ))),
        Ok(Wanted::Run(args)) => run(&args),
        Err(wrong) => Err(format!("{wrong}\n`desk --help` shows how it is used")),
    };
    let done = outcome.and_then(|outcome| {
        put(&outcome.printed)?;
        say(&outcome.said);
        Ok(outcome.done)
    });
    match done {
        Ok(true) => ExitCode::SUCCESS,
        Ok(false) => ExitCode::from(1),
        Err(wrong) => {
            say(&format!("desk: {wrong}\n"));
            ExitCode::from(2)
        }
    }
}
