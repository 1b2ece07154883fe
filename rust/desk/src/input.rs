//! The files and the query that a command is about.

use std::fs::File;
use std::io::{self, IsTerminal, Read, Write};
use std::path::Path;

use zhgarelli::lent::LONGEST_TEXT;
use zhgarelli::{Pack, Refused};

use crate::args::Args;
use crate::names::Names;

/// The most bytes of a file of names that are read.
const NAMES_LIMIT: usize = 1 << 20;

/// What is wrong with a file or a stream, without the number that the system has for it.
pub fn wrong(name: impl std::fmt::Display, wrong: io::Error) -> String {
    let words = wrong.to_string();
    let plain = words.split(" (os error").next().unwrap_or(&words);
    format!("{name}: {plain}")
}

/// One byte more than may be is enough to see that it is too many, so an endless input ends too.
fn read_front(from: impl Read, limit: usize) -> io::Result<Vec<u8>> {
    let mut bytes = Vec::new();
    from.take(limit as u64 + 1).read_to_end(&mut bytes)?;
    Ok(bytes)
}

fn read_file(path: &Path, limit: usize) -> Result<Vec<u8>, String> {
    let read = File::open(path).and_then(|file| read_front(file, limit));
    read.map_err(|error| wrong(path.display(), error))
}

/// The pack's text, and the pack or its refusal.
pub struct Packed {
    pub text: Vec<u8>,
    pub pack: Result<Pack, Refused>,
    pub names: Names,
}

pub fn pack(args: &Args) -> Result<Packed, String> {
    let text = read_file(&args.pack, LONGEST_TEXT)?;
    let names = match &args.names {
        Some(path) => read_file(path, NAMES_LIMIT)?,
        None => beside(&args.pack)?,
    };
    Ok(Packed {
        pack: Pack::read(&text),
        text,
        names: Names::read(&names),
    })
}

/// The names beside a pack; none where there is no such file.
fn beside(pack: &Path) -> Result<Vec<u8>, String> {
    let path = pack.with_extension("names");
    if path != pack && path.is_file() {
        read_file(&path, NAMES_LIMIT)
    } else {
        Ok(Vec::new())
    }
}

/// The query: a word of the command line, a file, or standard input.
pub fn query(args: &Args) -> Result<Vec<u8>, String> {
    if let Some(query) = &args.query {
        return Ok(query.clone());
    }
    if let Some(path) = &args.file {
        return read_file(path, LONGEST_TEXT);
    }
    let stdin = io::stdin();
    if stdin.is_terminal() {
        let _ = writeln!(
            io::stderr(),
            "desk: the query comes from standard input; Ctrl-D ends it"
        );
    }
    read_front(stdin.lock(), LONGEST_TEXT).map_err(|error| wrong("standard input", error))
}
