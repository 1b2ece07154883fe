//! The crate gives the second program's answers, to the last word of lent memory.

use second::check::Checked;
use second::compare::{compare, describe};
use second::engine::{Engine, SECOND};
use second::gen::mix::Kinds;
use second::parse::Parsed;
use second::print::Printed;
use second::scan::Scanned;
use second::shape::Shaped;
use second::text::Written;
use zhgarelli::{lent, Refused, Terminals};

/// The code and the values of an answer that gives nothing but its refusal.
fn numbers(answer: Result<(), Refused>) -> (u32, [u32; 3]) {
    match answer {
        Ok(()) => (0, [0; 3]),
        Err(refused) => (refused.code(), refused.values().map(|value| value as u32)),
    }
}

fn shape(image: &[u16]) -> Shaped {
    let (code, [place, ..]) = numbers(lent::shape(image));
    Shaped { code, place }
}

fn check(image: &[u16]) -> Checked {
    let (code, numbers) = numbers(lent::check(image));
    Checked { code, numbers }
}

fn written(answer: Result<usize, Refused>) -> Written {
    match answer {
        Ok(number) => Written {
            code: 0,
            number: number as u32,
        },
        Err(refused) => {
            let (code, [number, ..]) = numbers(Err(refused));
            Written { code, number }
        }
    }
}

fn scan(image: &[u16], text: &[u8], start: usize, set: u64, allowance: u32) -> Scanned {
    match lent::scan(image, text, start, Terminals::of_bits(set), allowance) {
        Ok(scanned) => Scanned {
            code: 0,
            place: scanned.place as u32,
            set: scanned.found.map_or(0, |found| found.terminals.bits()),
            length: scanned.found.map_or(0, |found| found.length as u32),
            moves: scanned.moves,
        },
        Err(refused) => {
            let (code, [place, ..]) = numbers(Err(refused));
            let moves = refused.work().unwrap_or_default().moves;
            Scanned {
                code,
                place,
                set: 0,
                length: 0,
                moves,
            }
        }
    }
}

fn parse(image: &[u16], text: &[u8], tree: &mut [u16], allowance: u32) -> Parsed {
    let answer = lent::parse(image, text, tree, allowance);
    let (code, [place, length, terminal]) = match answer {
        Ok(_) => (0, [text.len() as u32, 0, 0]),
        Err(refused) => numbers(Err(refused)),
    };
    let work = answer.unwrap_or_else(|refused| refused.work().unwrap_or_default());
    Parsed {
        code,
        place,
        length,
        terminal,
        records: work.records as u32,
        moves: work.moves,
    }
}

fn leaf(text: &[u8], record: [u16; 4]) -> (usize, usize) {
    let part = lent::leaf(text, record);
    let start = part.as_ptr() as usize - text.as_ptr() as usize;
    (start, part.len())
}

/// The size of a printout may have more than 32 bits.
fn print(text: &[u8], tree: &[u16], room: &mut [u8]) -> Printed {
    let (code, number) = match lent::print(text, tree, room) {
        Ok(bytes) => (0, bytes),
        Err(refused) => (refused.code(), refused.values()[0]),
    };
    let number = number as u64;
    Printed { code, number }
}

const CRATE: Engine = Engine {
    name: "zhgarelli",
    shape,
    scan,
    read: |text, room| written(lent::read(text, room)),
    write: |image, room| written(lent::write(image, room)),
    write2: |image, room| written(lent::write_form2(image, room)),
    form2: |text, room| written(lent::to_form2(text, room)),
    form1: |text, room| written(lent::to_form1(text, room)),
    check,
    parse,
    leaf,
    print,
};

fn same(kinds: Kinds, cases: usize, seed: u64) {
    let comparison = compare(&SECOND, &CRATE, kinds, cases, seed);
    if let Some(difference) = comparison.difference {
        panic!("{}", describe(&difference, ["second", CRATE.name]));
    }
    assert_eq!(comparison.cases, cases);
}

#[test]
fn every_function_gives_the_answers_of_the_second_program() {
    same(Kinds::ALL, 50_000, 16);
}

#[test]
fn the_parse_gives_the_answers_of_the_second_program() {
    same(Kinds::PARSE, 50_000, 17);
}

#[test]
fn the_printout_gives_the_answers_of_the_second_program() {
    same(Kinds::PRINT, 20_000, 18);
}

#[test]
fn both_forms_and_the_moves_give_the_answers_of_the_second_program() {
    same(Kinds::FORMS, 20_000, 19);
}

#[test]
fn an_engine_that_is_wrong_is_found() {
    let wrong = Engine {
        check: |image| match check(image) {
            Checked { code: 5, .. } => Checked::default(),
            checked => checked,
        },
        ..CRATE
    };
    assert!(compare(&SECOND, &wrong, Kinds::CHECK, 2_000, 1)
        .difference
        .is_some());
}
