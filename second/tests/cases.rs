//! The case file format: written and read alike, the stored files, and what is no case file.

use std::rc::Rc;

use second::cases::*;
use second::engine::SECOND;
use second::gen::mix::{Kinds, Mix};
use second::hits;
use second::marked::small_image;
use second::store::{store, File};

#[test]
fn one_case_byte_by_byte() {
    let mut writer = CaseWriter::new();
    let text = Rc::new(b"ab".to_vec());
    let scan = Case::Scan {
        image: Rc::new(vec![1, 0x203]),
        text: text.clone(),
        start: 7,
        set: 0x0102_0304_0506_0708,
        allowance: 0xFFFF_FFFF,
    };
    writer.put(&scan);
    let leaf = Case::Leaf {
        text,
        words: [1, 2, 3, 65_535],
    };
    writer.put(&leaf);
    let numbers = |numbers: [u32; 10]| numbers.map(u32::to_le_bytes).concat();
    let expected = [
        numbers([2, 2, 2, 7, 0x0506_0708, 0x0102_0304, 0xFFFF_FFFF, 0, 0, 0]),
        vec![1, 0, 3, 2],
        b"ab".to_vec(),
        numbers([7, REUSE, REUSE, 1, 2, 3, 65_535, 0, 0, 0]),
    ]
    .concat();
    assert_eq!(writer.bytes, expected);
    let read: Result<Vec<Case>, String> = CaseReader::new(&expected).collect();
    assert_eq!(read, Ok(vec![scan, leaf]));
}

#[test]
fn checksums_and_patterns_by_hand() {
    assert_eq!(checksum([0_u8; 0]), 1);
    assert_eq!(checksum([0_u8]), 258);
    assert_eq!(checksum([5_u16, 65_535]), (257 + 6) * 257 + 65_536);
    // 257^4 passes the modulus: 1 * 257^4 + 257^3 + 257^2 + 257 + 1 mod 4294967291.
    let sum: u64 = 257_u64.pow(4) + 257_u64.pow(3) + 257_u64.pow(2) + 257 + 1;
    assert_eq!(checksum([0_u8; 4]), sum % 4_294_967_291);
    assert_eq!(word_pattern(3), [12_345, 52_848, 27_815]);
    assert_eq!(byte_pattern(3), [91, 2, 169]);
}

/// A comparison also has printouts that are too large for a case file.
fn fits_a_file(case: &Case) -> bool {
    let room = match case {
        Case::Print { room, .. } => *room as usize,
        _ => 0,
    };
    let words = case.image().map_or(0, |image| image.len());
    let bytes = case.text().map_or(0, |text| text.len());
    words <= MOST_WORDS && bytes.max(room) <= MOST_BYTES
}

#[test]
fn generated_cases_are_read_as_they_were_written() {
    for (seed, small) in [(1, true), (2, false)] {
        let mut mix = Mix::new(seed, Kinds::ALL, small);
        let mut writer = CaseWriter::new();
        let mut cases = Vec::new();
        for _ in 0..60 {
            cases.extend(mix.bundle().into_iter().filter(fits_a_file));
        }
        cases.iter().for_each(|case| writer.put(case));
        assert_eq!(writer.cases, cases.len());
        let read: Result<Vec<Case>, String> = CaseReader::new(&writer.bytes).collect();
        assert!(read == Ok(cases));
    }
}

#[test]
fn the_stored_files_are_small_and_deterministic_and_cover_everything() {
    let mut total = 0;
    let mut counts = std::collections::BTreeMap::new();
    for (file, sizes) in [
        (File::Scan, 300_000..510_000),
        (File::Text, 300_000..450_000),
        (File::Parse, 300_000..450_000),
        (File::Print, 20_000..40_000),
        (File::Forms, 600_000..700_000),
    ] {
        let (bytes, lines) = store(file, 1).unwrap();
        assert!(store(file, 1).unwrap() == (bytes.clone(), lines.clone()));
        assert!(store(file, 2).unwrap().0 != bytes);
        assert!(sizes.contains(&bytes.len()), "{}", bytes.len());
        total += bytes.len() + lines.len();
        // Answered again from the file alone.
        assert!(answers(&SECOND, &bytes).unwrap() == lines);
        for (name, count) in hits::of_file(&bytes).unwrap() {
            *counts.entry(name).or_insert(0) += count;
        }
    }
    assert!(total < 2_150_000, "{total}");
    let missed: Vec<_> = counts.iter().filter(|(_, &count)| count == 0).collect();
    assert!(missed.is_empty(), "never hit: {missed:?}");
}

#[test]
fn the_first_answers_are_the_marked_ones() {
    let (_, lines) = store(File::Parse, 1).unwrap();
    let marked = second::marked::marked_parses();
    for (line, marked) in lines.lines().zip(&marked) {
        let numbers: Vec<u64> = line.split(',').map(|n| n.parse().unwrap()).collect();
        let answer: Vec<u64> = marked.answer.iter().map(|&n| n.into()).collect();
        assert_eq!(numbers[..6], answer, "case {}", marked.number);
    }
    let (_, lines) = store(File::Scan, 1).unwrap();
    // Shape of the example's pack, then `form*` with {i, k2}: k2, 4 bytes, 4 moves; and with allowance 3.
    let first: Vec<&str> = lines.lines().take(3).collect();
    assert_eq!(first, ["0,0", "0,0,8,4,4", "13,0,0,0,3"]);
}

#[test]
fn what_is_no_case_file_is_refused() {
    let mut writer = CaseWriter::new();
    writer.put(&Case::Check {
        image: Rc::new(small_image()),
    });
    let file = writer.bytes;
    assert_eq!(answers(&SECOND, &file), Ok("0,0,0,0\n".to_string()));
    assert_eq!(answers(&SECOND, &[]), Ok(String::new()));
    for length in 1..file.len() {
        assert!(
            answers(&SECOND, &file[..length]).is_err(),
            "cut at {length}"
        );
    }
    let with = |place: usize, number: u32| {
        let mut file = file.clone();
        file[4 * place..4 * place + 4].copy_from_slice(&number.to_le_bytes());
        answers(&SECOND, &file)
    };
    assert!(with(0, 0).is_err());
    assert!(with(0, 12).is_err());
    assert!(with(1, 20_701).is_err());
    assert!(with(2, 65_601).is_err());
}
