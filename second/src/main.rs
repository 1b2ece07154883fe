//! The commands of the second program.

use std::fs;
use std::io::{self, Read, Write};
use std::process::ExitCode;

use second::cases::answers;
use second::compare::{compare, describe, table};
use second::engine::{OTHERS, SECOND};
use second::gen::mix::Kinds;
use second::hits;
use second::numbers::{DONE, TEXT_LIMIT};
use second::promise;
use second::readq::readq;
use second::store::{store, File};
use second::text::{move_to, Form};

const USAGE: &str = "\
usage: second write-cases SEED scan|text|parse|print|forms CASES_OUT ANSWERS_OUT
       second answer CASES_IN ANSWERS_OUT
       second hits N SEED
       second promise N SEED
       second readq PACKTEXT_FILE
       second reform 1|2
       second compare N SEED [all|scan|text|check|parse|print|forms [ENGINE]]";

fn number(word: &str) -> Result<u64, String> {
    word.parse().map_err(|_| format!("{word} is no number"))
}

fn count(word: &str) -> Result<usize, String> {
    word.parse().map_err(|_| format!("{word} is no count"))
}

fn put(name: &str, bytes: &[u8]) -> Result<(), String> {
    fs::write(name, bytes).map_err(|wrong| format!("{name}: {wrong}"))
}

fn write_cases(seed: u64, kind: &str, cases: &str, answers: &str) -> Result<(), String> {
    let file = File::by_name(kind).ok_or_else(|| format!("{kind} is no kind of case file"))?;
    let (bytes, lines) = store(file, seed)?;
    put(cases, &bytes)?;
    put(answers, lines.as_bytes())?;
    println!("{} cases, {} bytes", lines.lines().count(), bytes.len());
    Ok(())
}

fn answer_file(cases: &str, answers_out: &str) -> Result<(), String> {
    let bytes = fs::read(cases).map_err(|wrong| format!("{cases}: {wrong}"))?;
    let lines = answers(&SECOND, &bytes)?;
    put(answers_out, lines.as_bytes())?;
    println!("{} cases", lines.lines().count());
    Ok(())
}

fn show_hits(cases: usize, seed: u64) -> Result<(), String> {
    let hits = hits::run(cases, seed);
    print!("{}", hits::table(&hits));
    let missed = hits.missed();
    if missed.is_empty() {
        Ok(())
    } else {
        Err(format!("never hit: {}", missed.join(", ")))
    }
}

fn show_promise(parses: usize, seed: u64) -> Result<(), String> {
    let counts = promise::run(parses, seed)?;
    print!("{}", promise::table(&counts));
    println!("no violation");
    Ok(())
}

/// A pack text that is not named or not opened is empty.
fn show_readq(name: Option<&str>) -> Result<(), String> {
    let pack_text = name
        .and_then(|name| fs::read(name).ok())
        .unwrap_or_default();
    let mut query = Vec::new();
    let wrong = |wrong: io::Error| wrong.to_string();
    io::stdin().read_to_end(&mut query).map_err(wrong)?;
    let lines = readq(&pack_text, &query);
    io::stdout().write_all(lines.as_bytes()).map_err(wrong)
}

/// Moves the pack text on standard input to a form from the other one.
fn show_reform(to: Form) -> Result<(), String> {
    let mut text = Vec::new();
    let wrong = |wrong: io::Error| wrong.to_string();
    io::stdin().read_to_end(&mut text).map_err(wrong)?;
    let mut room = vec![0; TEXT_LIMIT];
    let moved = move_to(to, &text, &mut room);
    match moved.code {
        DONE => {
            let written = &room[..moved.number as usize];
            io::stdout().write_all(written).map_err(wrong)
        }
        code => Err(format!("code={code}\nplace={}", moved.number)),
    }
}

fn show_compare(cases: usize, seed: u64, kinds: &str, name: &str) -> Result<(), String> {
    let wanted = Kinds::by_name(kinds).ok_or_else(|| format!("{kinds} is no kind of cases"))?;
    let other = OTHERS.iter().find(|engine| engine.name == name);
    let other = other.ok_or_else(|| {
        let names: Vec<&str> = OTHERS.iter().map(|engine| engine.name).collect();
        let names = names.join(", ");
        format!("there is no engine {name} in this build; there are: {names}")
    })?;
    let comparison = compare(&SECOND, other, wanted, cases, seed);
    println!("second and {name} give the same in");
    print!("{}", table(&comparison));
    match &comparison.difference {
        Some(difference) => Err(describe(difference, [SECOND.name, name])),
        None => Ok(()),
    }
}

fn run(words: &[&str]) -> Result<(), String> {
    match *words {
        ["write-cases", seed, kind, cases, answers] => {
            write_cases(number(seed)?, kind, cases, answers)
        }
        ["answer", cases, answers] => answer_file(cases, answers),
        ["hits", cases, seed] => show_hits(count(cases)?, number(seed)?),
        ["promise", parses, seed] => show_promise(count(parses)?, number(seed)?),
        ["readq", ref names @ ..] => show_readq(names.first().copied()),
        ["reform", "1"] => show_reform(Form::One),
        ["reform", "2"] => show_reform(Form::Two),
        ["compare", cases, seed, ref rest @ ..] if rest.len() <= 2 => {
            let kinds = rest.first().unwrap_or(&"all");
            let name = rest.get(1).unwrap_or(&"proved");
            show_compare(count(cases)?, number(seed)?, kinds, name)
        }
        _ => Err(USAGE.to_string()),
    }
}

fn main() -> ExitCode {
    let words: Vec<String> = std::env::args().skip(1).collect();
    let words: Vec<&str> = words.iter().map(String::as_str).collect();
    match run(&words) {
        Ok(()) => ExitCode::SUCCESS,
        Err(wrong) => {
            eprintln!("{}", wrong.trim_end());
            ExitCode::FAILURE
        }
    }
}
