//! A comparison finds engines that are wrong, and is content with one that is right.

use second::check::{check, Checked};
use second::compare::{compare, describe};
use second::engine::{Engine, SECOND};
use second::gen::mix::Kinds;
use second::image::Pack;
use second::leaf;
use second::parse::parse;
use second::print::{print, Printed};
use second::shape;
use second::text::{form1, form2, read, text_in, write2, Form, Written};
use second::wrong::{
    FILTERS_AFTERWARDS, KEEPS_AFTER_REJECT, PRINTS_BARE_BACKSLASHES, PRINTS_CHILDREN_IN_REVERSE,
};

#[test]
fn the_second_program_agrees_with_itself() {
    let comparison = compare(&SECOND, &SECOND, Kinds::ALL, 3_000, 1);
    assert_eq!(comparison.cases, 3_000);
    assert_eq!(comparison.kinds.values().sum::<usize>(), 3_000);
    assert_eq!(comparison.kinds.len(), 11);
    assert!(comparison.difference.is_none());
    // Where only the check or the parse is wanted, nearly all cases get past what is refused before.
    let checks = compare(&SECOND, &SECOND, Kinds::CHECK, 3_000, 1);
    assert!(
        checks.checks_past_shape > 2_500,
        "{}",
        checks.checks_past_shape
    );
    let parses = compare(&SECOND, &SECOND, Kinds::PARSE, 3_000, 1);
    assert!(parses.parses_run > 2_300, "{}", parses.parses_run);
    // Of the printouts a third is made.
    let prints = compare(&SECOND, &SECOND, Kinds::PRINT, 3_000, 1);
    assert!(prints.printouts > 1_000, "{}", prints.printouts);
}

/// The name of the kind in which a wrong engine is found, and the difference in words.
fn finds(wrong: &Engine) -> (&'static str, String) {
    finds_in(Kinds::ALL, wrong)
}

fn finds_in(kinds: Kinds, wrong: &Engine) -> (&'static str, String) {
    let comparison = compare(&SECOND, wrong, kinds, 20_000, 1);
    let difference = comparison.difference.expect("a difference");
    let words = describe(&difference, ["second", wrong.name]);
    (difference.case.name(), words)
}

#[test]
fn longest_match_filtered_afterwards_is_found() {
    let (kind, words) = finds(&FILTERS_AFTERWARDS);
    assert_eq!(kind, "scan");
    assert!(words.contains("filters-afterwards: 0,"), "{words}");
}

#[test]
fn a_match_kept_after_the_reject_is_found() {
    let (kind, words) = finds(&KEEPS_AFTER_REJECT);
    assert_eq!(kind, "scan");
    assert!(words.contains("kind: scan, start"), "{words}");
    assert!(words.contains("text: \""), "{words}");
}

#[test]
fn lent_memory_is_compared() {
    let writes_behind_the_records = Engine {
        parse: |image, text, tree, allowance| {
            let parsed = parse(image, text, tree, allowance);
            if let Some(word) = tree.get_mut(4 * parsed.records as usize) {
                *word = word.wrapping_add(1);
            }
            parsed
        },
        ..SECOND
    };
    assert_eq!(finds(&writes_behind_the_records).0, "parse");
}

#[test]
fn a_text_without_its_last_lf_is_compared() {
    let takes_no_last_lf = Engine {
        read: |text, room| match text.last() {
            Some(b'\n') | None => read(text, room),
            _ => read(&[text, b"\n"].concat(), room),
        },
        ..SECOND
    };
    assert_eq!(finds(&takes_no_last_lf).0, "read");
}

#[test]
fn a_check_that_passes_what_it_should_not_is_found() {
    // One engine for each condition that it does not know.
    let forgets: [fn(&[u16]) -> Checked; 6] = [
        |image| without(image, 1),
        |image| without(image, 2),
        |image| without(image, 3),
        |image| without(image, 4),
        |image| without(image, 5),
        |image| without(image, 6),
    ];
    for check in forgets {
        assert_eq!(finds(&Engine { check, ..SECOND }).0, "check");
    }
}

fn without(image: &[u16], condition: u32) -> Checked {
    match check(image) {
        Checked { code: 5, numbers } if numbers[0] == condition => Checked::default(),
        checked => checked,
    }
}

#[test]
fn a_leaf_is_compared_to_its_start() {
    let gives_the_empty_part_at_the_front = Engine {
        leaf: |text, words| match leaf::part(text, words) {
            (_, 0) => (0, 0),
            part => part,
        },
        ..SECOND
    };
    assert_eq!(finds(&gives_the_empty_part_at_the_front).0, "leaf");
}

#[test]
fn wrong_printouts_are_found() {
    let wrong: [fn(&[u8], &[u16], &mut [u8]) -> Printed; 6] = [
        // Words behind the last whole record are not looked at.
        |text, tree, room| print(text, &tree[..tree.len() / 4 * 4], room),
        // No words print nothing.
        |text, tree, room| match tree {
            [] => Printed::default(),
            _ => print(text, tree, room),
        },
        // A byte is written before the refusal.
        |text, tree, room| {
            let printed = print(text, tree, room);
            if let (3, Some(byte)) = (printed.code, room.first_mut()) {
                *byte ^= 1;
            }
            printed
        },
        // One node more is let through: the top of a tree whose top has one child is left out of the count.
        |text, tree, room| match (print(text, tree, room), tree) {
            (Printed { code: 15, .. }, [below @ .., _, _, 1, _]) => print(text, below, room),
            (printed, _) => printed,
        },
        // The size is cut to 32 bits.
        |text, tree, room| {
            let printed = print(text, tree, room);
            Printed {
                number: printed.number & 0xFFFF_FFFF,
                ..printed
            }
        },
        // Another order of refusals: 3 before 15.
        |text, tree, room| match print(text, tree, room) {
            Printed { code: 15, .. } if room.len() < 256 => Printed { code: 3, number: 0 },
            printed => printed,
        },
    ];
    for print in wrong {
        assert_eq!(finds(&Engine { print, ..SECOND }).0, "print");
    }
}

#[test]
fn printouts_without_their_escapes_and_of_children_in_reverse_are_found() {
    for wrong in [PRINTS_BARE_BACKSLASHES, PRINTS_CHILDREN_IN_REVERSE] {
        let (kind, words) = finds(&wrong);
        assert_eq!(kind, "print");
        assert!(words.contains("tree: "), "{words}");
    }
}

/// The rows of cells in a text of form 2, each changed by a function of its fields.
fn with_cells(text: &[u8], change: fn(&mut Vec<String>)) -> Vec<u8> {
    if Form::of(text) != Some(Form::Two) {
        return text.to_vec();
    }
    let mut lines = String::new();
    for line in String::from_utf8_lossy(text).split_inclusive('\n') {
        match line.trim_end_matches('\n').split_once('=') {
            Some((name @ ("act" | "goto" | "move"), rest)) if !rest.is_empty() => {
                let mut fields: Vec<String> = rest.split(',').map(str::to_string).collect();
                change(&mut fields);
                lines.push_str(&format!("{name}={}\n", fields.join(",")));
            }
            _ => lines.push_str(line),
        }
    }
    lines.into_bytes()
}

fn column(field: &str) -> usize {
    let column = field.split(':').next();
    column.and_then(|c| c.parse().ok()).unwrap_or(0)
}

#[test]
fn wrong_readers_of_form_2_are_found() {
    let wrong: [fn(&[u8], &mut [u16]) -> Written; 5] = [
        // Columns that do not rise.
        |text, room| {
            let sorted = with_cells(text, |fields| fields.sort_by_key(|field| column(field)));
            read(&sorted, room)
        },
        // The last of two cells of one column counts.
        |text, room| {
            let last = with_cells(text, |fields| {
                for i in (1..fields.len()).rev() {
                    if column(&fields[i - 1]) == column(&fields[i]) {
                        fields.remove(i - 1);
                    }
                }
            });
            read(&last, room)
        },
        // A cell of 0 is let through.
        |text, room| {
            let less = with_cells(text, |fields| fields.retain(|field| !field.ends_with(":0")));
            read(&less, room)
        },
        // A column outside the row is passed over.
        |text, room| {
            let less = with_cells(text, |fields| fields.retain(|field| column(field) < 64));
            read(&less, room)
        },
        // Form 2 is not known.
        |text, room| match Form::of(text) {
            Some(Form::Two) => Written { code: 1, number: 0 },
            _ => read(text, room),
        },
    ];
    for read in wrong {
        assert_eq!(finds_in(Kinds::FORMS, &Engine { read, ..SECOND }).0, "read");
    }
}

#[test]
fn wrong_writers_of_form_2_and_wrong_moves_are_found() {
    let writes_form_1 = Engine {
        write2: |image, room| second::text::write(image, room),
        ..SECOND
    };
    assert_eq!(finds_in(Kinds::FORMS, &writes_form_1).0, "write2");
    let no_limit = Engine {
        write2: |image, room| match (write2(image, room), shape::pack(image)) {
            (Written { code: 2, .. }, Ok(pack)) => Written {
                code: 3,
                number: text_in(Form::Two, &pack).len() as u32,
            },
            (written, _) => written,
        },
        ..SECOND
    };
    assert_eq!(finds_in(Kinds::FORMS, &no_limit).0, "write2");
    // The move to form 2 takes a text that is in form 2 already.
    let takes_form_2 = Engine {
        form2: |text, room| match (form2(text, room), Form::of(text)) {
            (Written { code: 1, .. }, Some(Form::Two)) => {
                let mut lent = vec![0; 65_535];
                let back = form1(text, &mut lent);
                match back.code {
                    0 => form2(&lent[..back.number as usize], room),
                    _ => back,
                }
            }
            (moved, _) => moved,
        },
        ..SECOND
    };
    assert_eq!(finds_in(Kinds::FORMS, &takes_form_2).0, "form2");
    // The limit of the target is not tested.
    let any_length = Engine {
        form1: |text, room| match form1(text, room) {
            Written { code: 2, .. } if text.len() <= 65_535 => Written {
                code: 3,
                number: 65_536,
            },
            moved => moved,
        },
        ..SECOND
    };
    assert_eq!(finds_in(Kinds::FORMS, &any_length).0, "form1");
    // The room is tested before the limit of the target.
    let room_first = Engine {
        form2: |text, room| match form2(text, room) {
            Written { code: 2, .. } if text.len() <= 65_535 && room.len() < 65_536 => {
                let words = second::text::words_of(text).unwrap_or_default();
                let number = text_in(Form::Two, &Pack::new(&words)).len() as u32;
                Written { code: 3, number }
            }
            moved => moved,
        },
        ..SECOND
    };
    assert_eq!(finds_in(Kinds::FORMS, &room_first).0, "form2");
}
