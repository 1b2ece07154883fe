//! Whatever the pack and the query are, desk answers: no panic, and the exit status is the answer's.

mod run;

use std::fs;
use std::path::Path;

use run::{bytes_in, desk, desk_in, folder, packs};
use second::cases::Case;
use second::gen::mix::{Kinds, Mix};
use second::shape;
use second::text::text_of;

/// Pack texts of good shape with a query each, most of them of packs that fail the check, as the generator makes them.
fn generated(count: usize, seed: u64) -> Vec<(Vec<u8>, Vec<u8>)> {
    let mut mix = Mix::new(seed, Kinds::PARSE, true);
    let mut cases = Vec::new();
    while cases.len() < count {
        for case in mix.bundle().into_iter().step_by(3) {
            let Case::Parse { image, text, .. } = case else {
                continue;
            };
            match shape::pack(&image) {
                Ok(pack) if text_of(&pack).len() <= 65_535 => {
                    cases.push((text_of(&pack), text.to_vec()))
                }
                _ => (),
            }
        }
    }
    cases.truncate(count);
    cases
}

#[test]
fn generated_packs_and_queries() {
    let folder = folder("generated");
    let mut printouts = 0;
    for (number, (pack, query)) in generated(120, 16).into_iter().enumerate() {
        let name = format!("{number}.pack");
        fs::write(folder.join(&name), &pack).expect("the pack is written");
        let image = second::text::words_of(&pack).expect("of the form");
        let mut tree = vec![0; 4 * 65_535];
        let parsed = second::parse::parse(&image, &query, &mut tree, 100_000);
        let few = ["--allowance", "100000"];
        let read = desk_in(&folder, &[&["read", &name], &few[..]].concat(), &query);
        assert_eq!(
            read.status,
            i32::from(parsed.code != 0),
            "{number}: {}",
            read.out
        );
        let json = desk_in(
            &folder,
            &[&["read", &name, "--json"], &few[..]].concat(),
            &query,
        );
        assert!(
            json.out.starts_with(&format!(
                "{{\"code\":{},\"place\":{},",
                parsed.code, parsed.place
            )),
            "{}",
            json.out
        );
        let draw = desk_in(&folder, &[&["draw", &name], &few[..]].concat(), &query);
        assert_eq!(draw.status, read.status);
        assert_eq!(draw.out.starts_with("<svg"), draw.status == 0);
        let words = &tree[..4 * parsed.records as usize];
        let mut printout = vec![0; 1_000_000];
        let printed = second::print::print(&query, words, &mut printout);
        let print = [&["read", &name, "--print"], &few[..]].concat();
        let (out, _, status) = bytes_in(&folder, &print, &query);
        if (parsed.code, printed.code) == (0, 0) {
            let printout = &printout[..printed.number as usize];
            assert_eq!((out, status), ([printout, b"\n"].concat(), 0));
            printouts += 1;
        } else {
            assert_eq!(status, 1);
        }
        let checked = second::check::check(&image);
        let check = desk_in(&folder, &["check", &name], b"");
        assert_eq!(
            check.status,
            i32::from(checked.code != 0),
            "{number}: {}",
            check.out
        );
        if checked.code != 0 {
            let condition = format!("refused: K{} fails", checked.numbers[0]);
            assert!(check.out.starts_with(&condition), "{}", check.out);
        }
        assert_eq!(desk_in(&folder, &["show", &name, "--json"], b"").status, 0);
    }
    assert!(printouts > 10, "{printouts}");
}

#[test]
fn generated_packs_that_fail_each_condition() {
    let folder = folder("failing");
    let mut mix = Mix::new(6, Kinds::CHECK, true);
    let mut seen = [0; 7];
    while seen[1..].iter().any(|&count| count < 6) {
        for case in mix.bundle() {
            let Case::Check { image } = case else {
                continue;
            };
            let Ok(pack) = shape::pack(&image) else {
                continue;
            };
            let checked = second::check::check(&image);
            let [condition, first, second] = checked.numbers;
            if seen[condition as usize] >= 6 || text_of(&pack).len() > 65_535 {
                continue;
            }
            seen[condition as usize] += 1;
            let name = format!("{condition}-{}.pack", seen[condition as usize]);
            fs::write(folder.join(&name), text_of(&pack)).expect("the pack is written");
            let run = desk_in(&folder, &["check", &name, "--json"], b"");
            let numbers = format!(
                "\"code\":{},\"condition\":{condition},\"first\":{first},\"second\":{second}",
                checked.code
            );
            assert!(run.out.contains(&numbers), "{name}: {}", run.out);
        }
    }
}

#[test]
fn damaged_pack_texts() {
    let folder = folder("damaged");
    let text = fs::read(packs().join("small.pack")).expect("the pack is there");
    for at in 0..text.len() {
        let mut damaged = text.clone();
        match at % 3 {
            0 => damaged[at] ^= 1,
            1 => damaged[at] = 0xff,
            _ => damaged.truncate(at),
        }
        let name = format!("{}.pack", at % 7);
        fs::write(folder.join(&name), &damaged).expect("the pack is written");
        let mut image = [0; 300];
        let good = second::text::read(&damaged, &mut image).code == 0;
        let run = desk_in(&folder, &["show", &name], b"");
        assert_eq!(run.status, i32::from(!good), "byte {at}: {}", run.out);
    }
}

#[test]
fn queries_of_any_bytes() {
    let mut number: u64 = 88_172_645_463_325_252;
    for length in 0..60 {
        let query: Vec<u8> = (0..length)
            .map(|_| {
                number ^= number << 13;
                number ^= number >> 7;
                number ^= number << 17;
                (number >> 20) as u8
            })
            .collect();
        desk(&["read", "packs/profile.pack"], &query);
    }
}

#[test]
fn a_printout_has_the_bytes_as_they_are() {
    let run = |words: &[&str]| bytes_in(&run::top(), words, b"\"\xff\"");
    let (out, _, status) = run(&["read", "packs/json.pack", "--print"]);
    assert_eq!((&out[..], status), (&b"(2 11:[\"\xff\"])\n"[..], 0));
    let (out, _, status) = run(&["read", "packs/json.pack", "--print", "--json"]);
    let out = String::from_utf8(out).expect("JSON is UTF-8");
    assert_eq!(status, 0);
    let bytes = "\"printout\":[40,50,32,49,49,58,91,34,255,34,93,41],";
    assert!(out.contains(bytes), "{out}");
}

#[test]
fn names_of_any_bytes_and_names_from_elsewhere() {
    let folder = folder("names");
    fs::write(
        folder.join("odd.names"),
        b"2 \x1b[31mred\n1\n\xff\xfe 3\n64 <S>&\n99999999999999999999 x\n",
    )
    .expect("the names are written");
    let odd = folder.join("odd.names");
    let odd = odd.to_str().expect("a plain path");
    let run = desk(&["read", "packs/small.pack", "tax", "--names", odd], b"");
    assert_eq!(run.status, 0);
    assert!(
        run.out.starts_with("<S>& ─ \\u{1b}[31mred  tax\n"),
        "{}",
        run.out
    );
    let drawn = desk(&["draw", "packs/small.pack", "tax", "--names", odd], b"");
    assert!(drawn.out.contains("&lt;S&gt;&amp;"), "{}", drawn.out);
}

#[test]
fn a_list_as_long_as_a_query_can_be() {
    let query = format!("[{}1]", "1,".repeat(32_000));
    let read = desk(&["read", "packs/json.pack"], query.as_bytes());
    // Two leaves and two nodes for each number are more than a tree has room for.
    assert_eq!(read.status, 1);
    assert!(read.out.contains("(code 11)"), "{}", &read.out[..200]);
    let query = format!("[{}1]", "1,".repeat(16_000));
    let read = desk(&["read", "packs/json.pack"], query.as_bytes());
    assert_eq!(read.status, 0);
    assert!(read.out.contains("records below"));
    let drawn = desk(&["draw", "packs/json.pack"], query.as_bytes());
    assert_eq!(drawn.status, 0);
}

#[test]
fn an_endless_input_ends() {
    if Path::new("/dev/zero").exists() {
        let query = desk(&["read", "packs/small.pack", "--file", "/dev/zero"], b"");
        assert!(query.out.contains("(code 6)"));
        let pack = desk(&["check", "/dev/zero"], b"");
        assert!(pack.out.contains("(code 2)"));
    }
}

#[test]
fn a_picture_goes_where_it_is_wanted() {
    let path = folder("picture").join("tree.svg");
    let place = path.to_str().expect("a plain path");
    let run = desk(
        &["draw", "packs/small.pack", "tax by day", "-o", place],
        b"",
    );
    assert_eq!((run.status, run.out.as_str()), (0, ""));
    let printed = desk(&["draw", "packs/small.pack", "tax by day"], b"");
    assert_eq!(
        fs::read_to_string(&path).expect("the picture is there"),
        printed.out
    );
}
