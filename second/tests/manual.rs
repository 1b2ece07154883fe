//! The numbers that docs/MANUAL.md shows are those that this program gives: the small pack, the scans of section 2.3, the run of
//! section 6.2 step by step, and the marked runs of section 6.3; the lines of form 2 and the sizes of section 1.7; and so are the two runs of
//! README.md.

use second::image::Pack;
use second::marked::{image_of, marked_parses, small_image, SMALL_PACK};
use second::readq::readq;
use second::scan::scan;
use second::sets;
use second::text::{text_in, Form};

const QUERY: &str = "tax by day";

fn file(name: &str) -> String {
    let path = format!("{}/../{name}", env!("CARGO_MANIFEST_DIR"));
    std::fs::read_to_string(path).expect("the file is there")
}

/// The manual from a heading on, up to the next one.
fn section(heading: &str) -> String {
    let manual = file("docs/MANUAL.md");
    let start = manual.find(heading).expect("the heading is there") + heading.len();
    let rest = &manual[start..];
    rest[..rest.find("\n##").unwrap_or(rest.len())].to_string()
}

/// What stands between the first two fences.
fn block(section: &str) -> &str {
    section.split("```\n").nth(1).expect("a block")
}

/// The rows of the table whose heading begins so, each as its cells without backticks.
fn table(section: &str, heading: &str) -> Vec<Vec<String>> {
    let lines = section
        .lines()
        .skip_while(|line| !line.starts_with(heading));
    let rows = lines.skip(2).take_while(|line| line.starts_with('|'));
    let cells = |row: &str| {
        let cells = row.trim_matches('|').split('|');
        cells.map(|cell| cell.trim().replace('`', "")).collect()
    };
    rows.map(cells).collect()
}

fn numbers(cell: &str) -> Vec<u64> {
    let words = cell.split(|c: char| !c.is_ascii_digit());
    words.filter_map(|word| word.parse().ok()).collect()
}

#[test]
fn the_small_pack() {
    assert_eq!(block(&section("### 6.1")), SMALL_PACK);
    assert_eq!(file("packs/small.pack"), SMALL_PACK);
}

#[test]
fn the_lines_of_form_2() {
    let section = section("### 1.7");
    let rows = table(&section, "| form 1 |");
    assert_eq!(rows.len(), 6);
    let texts = Form::ALL.map(|form| text_in(form, &Pack::new(&small_image())));
    let [one, two] = texts.map(|text| String::from_utf8(text).unwrap());
    let pairs: Vec<(&str, &str)> = one.lines().zip(two.lines()).collect();
    for row in rows {
        let pair = (row[0].as_str(), row[1].as_str());
        assert!(pairs.contains(&pair), "{row:?}");
    }
    // The sizes of the packs in both forms, as the sentence has them.
    let sizes = section[section.find("Of the packs in").unwrap()..].replace(',', "");
    let names = ["small", "json", "profile"];
    let shown = numbers(&sizes);
    let given = names.map(|name| {
        let text = file(&format!("packs/{name}.pack"));
        let image = image_of(&text);
        let two = text_in(Form::Two, &Pack::new(&image));
        [text.len() as u64, two.len() as u64]
    });
    assert_eq!(shown, given.concat());
}

#[test]
fn the_lines_of_readq() {
    assert_eq!(
        block(&section("### 6.2")),
        readq(SMALL_PACK.as_bytes(), QUERY.as_bytes())
    );
}

#[test]
fn the_scans() {
    let rows = table(&section("### 2.3"), "| text | start |");
    assert_eq!(rows.len(), 7);
    for row in rows {
        let [start, set, allowance] = [1, 2, 3].map(|i| numbers(&row[i])[0]);
        let text = row[0].as_bytes();
        let given = scan(&small_image(), text, start as usize, set, allowance as u32);
        let given = [
            given.code,
            given.place,
            given.set as u32,
            given.length,
            given.moves,
        ];
        assert_eq!(numbers(&row[4]), given.map(u64::from), "{row:?}");
    }
}

#[test]
fn the_run_step_by_step() {
    let rows = table(&section("### 6.2"), "| at | what |");
    let mut total = 0;
    let mut records = String::new();
    for row in &rows {
        let valid = numbers(&row[2])
            .iter()
            .fold(sets::EMPTY, |set, &t| set | sets::single(t as usize));
        let place = numbers(&row[0])[0] as usize;
        let given = scan(&small_image(), QUERY.as_bytes(), place, valid, u32::MAX);
        total += u64::from(given.moves);
        assert_eq!(numbers(&row[5]), [given.moves.into(), total], "{row:?}");
        assert_eq!(
            numbers(&row[4]).last().copied().unwrap_or(0),
            given.length.into(),
            "{row:?}"
        );
        if !row[8].is_empty() {
            records.push_str(&format!("rec={}\n", row[8]));
        }
    }
    let printed = readq(SMALL_PACK.as_bytes(), QUERY.as_bytes());
    assert!(printed.ends_with(&format!("records=4\nmoves={total}\n{records}")));
}

#[test]
fn the_marked_runs() {
    let rows = table(&section("### 6.3"), "| | query |");
    assert_eq!(rows.len(), 12);
    for row in rows {
        let marked = marked_parses();
        let case = marked
            .iter()
            .find(|case| numbers(&row[0])[0] == case.number.into());
        let answer = case.expect("a case of that number").answer;
        assert_eq!(numbers(&row[2]), answer.map(u64::from), "{row:?}");
    }
}

#[test]
fn the_runs_of_the_readme() {
    let readme = file("README.md");
    let indented = readme
        .split("\n\n")
        .filter(|part| part.starts_with("    code="));
    let blocks: Vec<String> = indented
        .map(|part| part.replace("    ", "") + "\n")
        .collect();
    let profile = file("packs/profile.pack");
    let runs = [(SMALL_PACK, QUERY), (&profile, "share of group")];
    assert_eq!(
        blocks,
        runs.map(|(pack, query)| readq(pack.as_bytes(), query.as_bytes()))
    );
}
