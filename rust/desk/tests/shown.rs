//! What desk prints, word for word, is stored in `tests/shown/`. `DESK_SHOWN=write cargo test` stores what it prints now.

mod run;

use std::fs;
use std::path::Path;

use run::{desk, packs, Run};
use zhgarelli::Pack;

/// The stored file of a run: the command, what was printed, and the exit status.
fn page(words: &[&str], run: &Run) -> String {
    let quoted = |word: &&str| match word.contains([' ', '"']) || word.is_empty() {
        true => format!("'{word}'"),
        false => word.to_string(),
    };
    let command: Vec<String> = words.iter().map(quoted).collect();
    let parts = [
        format!("$ desk {}\n", command.join(" ")),
        run.out.clone(),
        if run.err.is_empty() {
            String::new()
        } else {
            format!("-- standard error\n{}", run.err)
        },
        format!("-- status {}\n", run.status),
    ];
    parts.concat()
}

/// Whether what is printed now is to be stored.
fn writes() -> bool {
    std::env::var_os("DESK_SHOWN").is_some_and(|wanted| wanted == "write")
}

/// A page is as it is stored.
fn stored(name: &str, page: &str) {
    let stored = Path::new(env!("CARGO_MANIFEST_DIR"))
        .join("tests/shown")
        .join(name);
    if writes() {
        fs::write(&stored, page).expect("the page is stored");
    }
    let expected = fs::read_to_string(&stored).unwrap_or_default();
    assert_eq!(page, expected, "{name} is not as it is stored");
}

fn holds(name: &str, words: &[&str]) {
    holds_with(name, words, b"");
}

/// The command is run at the top of the repository.
fn holds_with(name: &str, words: &[&str], input: &[u8]) {
    stored(name, &page(words, &desk(words, input)));
}

#[test]
fn accepted_queries() {
    holds("read-small", &["read", "packs/small.pack", "tax by day"]);
    holds(
        "read-profile",
        &[
            "read",
            "packs/profile.pack",
            "share of std::sort under main where core = 3",
        ],
    );
    holds(
        "read-empty-node",
        &["read", "packs/profile.pack", "total rate of send"],
    );
    holds(
        "read-depth",
        &[
            "read",
            "packs/json.pack",
            "[[[1, 2], 3], 4]",
            "--depth",
            "5",
        ],
    );
    holds(
        "read-colour",
        &[
            "read",
            "packs/small.pack",
            "tax by day",
            "--color",
            "always",
        ],
    );
    holds(
        "read-json",
        &["read", "packs/small.pack", "tax by day", "--json"],
    );
    holds_with(
        "read-stdin",
        &["read", "packs/json.pack"],
        b"{\"a\":\n [1, true]}\n",
    );
}

#[test]
fn printouts() {
    holds(
        "print",
        &["read", "--print", "packs/small.pack", "tax by day"],
    );
    holds(
        "print-escaped",
        &["read", "--print", "packs/json.pack", r#"["[\\]", -1]"#],
    );
    holds(
        "print-json",
        &["read", "--print", "packs/small.pack", "tax", "--json"],
    );
    holds(
        "print-refused",
        &["read", "--print", "packs/small.pack", "tax day"],
    );
    // A list is as many nodes deep as it has members, and three more.
    let [most, deep] = [252, 253].map(|commas| format!("[{}1]", "1,".repeat(commas)));
    let words = ["read", "--print", "packs/json.pack"];
    assert_eq!(desk(&words, most.as_bytes()).status, 0);
    holds_with("print-deep", &words, deep.as_bytes());
    let json = desk(&[&words[..], &["--json"]].concat(), deep.as_bytes());
    let code = r#"{"code":15,"place":0,"length":0,"terminal":0,"#;
    assert!(json.out.starts_with(code) && json.status == 1);
}

#[test]
fn refused_queries() {
    holds(
        "refused-group",
        &["read", "packs/profile.pack", "share of group"],
    );
    holds("refused-end", &["read", "packs/small.pack", "tax by"]);
    holds("refused-nothing", &["read", "packs/small.pack", "tax ?"]);
    holds("refused-name", &["read", "packs/small.pack", "tax day"]);
    holds("refused-empty", &["read", "packs/small.pack", ""]);
    holds(
        "refused-allowance",
        &["read", "packs/small.pack", "tax", "--allowance", "2"],
    );
    holds(
        "refused-room",
        &["read", "packs/small.pack", "tax", "--room", "1"],
    );
    holds(
        "refused-json",
        &["read", "packs/profile.pack", "share of group", "--json"],
    );
    holds(
        "refused-colour",
        &[
            "read",
            "packs/profile.pack",
            "share of group",
            "--color",
            "always",
        ],
    );
    holds(
        "refused-draw",
        &["draw", "packs/profile.pack", "share of group"],
    );
    holds_with(
        "refused-line-end",
        &["read", "packs/small.pack"],
        b"tax by day\n",
    );
    holds_with(
        "refused-third-line",
        &["read", "packs/json.pack"],
        b"[1,\n 2,\n \xc3\xa9\xff,\n 3]",
    );
    let long = ["[", &"1, ".repeat(300), "], ", &"2, ".repeat(300)].concat();
    holds_with(
        "refused-in-a-long-line",
        &["read", "packs/json.pack"],
        long.as_bytes(),
    );
    let deep = "[".repeat(600);
    holds_with(
        "refused-stack",
        &["read", "packs/json.pack"],
        deep.as_bytes(),
    );
    holds_with(
        "refused-long",
        &["read", "packs/json.pack"],
        &[b' '; 65_536],
    );
}

#[test]
fn checks_and_tables() {
    holds("check", &["check", "packs/profile.pack"]);
    holds("check-json", &["check", "packs/small.pack", "--json"]);
    holds("show", &["show", "packs/small.pack"]);
    holds("show-profile", &["show", "packs/profile.pack"]);
    holds(
        "show-state",
        &[
            "show",
            "packs/profile.pack",
            "--state",
            "11",
            "--scan",
            "60",
        ],
    );
    holds(
        "show-json",
        &[
            "show",
            "packs/small.pack",
            "--json",
            "--state",
            "1",
            "--scan",
            "2",
        ],
    );
}

#[test]
fn pictures() {
    holds(
        "draw",
        &["draw", "packs/profile.pack", " top 10 of malloc  by core "],
    );
    holds(
        "draw-empty-node",
        &["draw", "packs/profile.pack", "total rate of send"],
    );
}

/// The picture that the README shows.
#[test]
fn the_picture_of_the_readme() {
    let words = [
        "draw",
        "packs/profile.pack",
        "top 10 of malloc group by core",
    ];
    let path = run::top().join("docs/tree.svg");
    let drawn = desk(&words, b"");
    if writes() {
        fs::write(&path, &drawn.out).expect("the picture is stored");
    }
    assert_eq!(drawn.out, fs::read_to_string(path).unwrap_or_default());
}

/// The runs of desk that the README shows: `$ desk`, and the lines up to the next run, as they are printed.
#[test]
fn the_runs_of_the_readme() {
    let readme = fs::read_to_string(run::top().join("README.md")).expect("the README is there");
    let indented: Vec<&str> = readme.split("\n    $ desk read ").skip(1).collect();
    assert!(indented.len() >= 2);
    for run in indented {
        let (command, rest) = run.split_once('\n').expect("something is printed");
        let (pack, query) = command.split_once(" '").expect("a pack and a query");
        let printed = desk(&["read", pack, query.trim_end_matches('\'')], b"").out;
        let shown: Vec<&str> = rest
            .lines()
            .map(|line| line.strip_prefix("    ").unwrap_or(line))
            .collect();
        let shown = shown.join("\n");
        assert!(
            shown.starts_with(printed.trim_end()),
            "{command}: the README shows\n{shown}\nand desk prints\n{printed}"
        );
    }
}

#[test]
fn help_and_wrong_use() {
    holds("help", &["--help"]);
    holds("wrong-nothing", &[]);
    holds("wrong-command", &["parse", "packs/small.pack"]);
    holds("wrong-option", &["read", "packs/small.pack", "--fast"]);
    holds(
        "wrong-number",
        &[
            "read",
            "packs/small.pack",
            "tax",
            "--allowance",
            "4294967296",
        ],
    );
    holds(
        "wrong-missing-number",
        &["read", "packs/small.pack", "--room"],
    );
    holds("wrong-many", &["read", "packs/small.pack", "tax", "by"]);
    holds("wrong-pair", &["check", "packs/small.pack", "--state", "1"]);
    holds(
        "wrong-print",
        &["draw", "--print", "packs/small.pack", "tax"],
    );
    holds("wrong-file", &["read", "packs/none.pack", "tax"]);
    holds("wrong-folder", &["read", "packs", "tax"]);
    holds("wrong-state", &["show", "packs/small.pack", "--state", "5"]);
    holds(
        "wrong-output",
        &["draw", "packs/small.pack", "tax", "-o", "none/tree.svg"],
    );
}

/// The small pack with one line changed, and what desk says of it.
fn changed(name: &str, old: &str, new: &str, words: &[&str]) {
    let text = fs::read_to_string(packs().join("small.pack")).expect("the pack is there");
    changed_text(name, &text, old, new, words);
}

/// The same of its text of form 2.
fn changed_form2(name: &str, old: &str, new: &str, words: &[&str]) {
    let text = fs::read_to_string(packs().join("small.pack")).expect("the pack is there");
    let pack = Pack::read(text).expect("the pack is good");
    let text = String::from_utf8(pack.write_form2().expect("it is short")).expect("text");
    changed_text(name, &text, old, new, words);
}

fn changed_text(name: &str, text: &str, old: &str, new: &str, words: &[&str]) {
    assert_eq!(text.matches(old).count(), 1, "{old} stands once");
    let folder = run::folder(name);
    fs::copy(packs().join("small.names"), folder.join("changed.names"))
        .expect("the names are there");
    fs::write(folder.join("changed.pack"), text.replace(old, new)).expect("the pack is written");
    let whole = [&words[..1], &["changed.pack"], &words[1..]].concat();
    stored(name, &page(&whole, &run::desk_in(&folder, &whole, b"")));
}

#[test]
fn packs_that_fail() {
    let reject = "scan=0000000000000002,0000000000000004,0000000000000006";
    let both = "scan=0000000000000006,0000000000000000,0000000000000006";
    changed("fails-k1", reject, both, &["check"]);
    changed(
        "fails-k2",
        reject,
        "scan=0000000000000002,0000000000000004,0000000000000004",
        &["check"],
    );
    changed(
        "fails-k2-move",
        "scan=0000000000000004,0000000000000000,0000000000000004",
        "scan=0000000000000004,0000000000000000,000000000000000c",
        &["check"],
    );
    // A blank is a name too.
    let blank = "scan=0000000000000008,0000000000000000,0000000000000008";
    let name_too = "scan=000000000000000c,0000000000000000,000000000000000c";
    changed("fails-k3-layout", blank, name_too, &["check"]);
    changed("refused-layout", blank, name_too, &["read", " tax"]);
    changed("fails-k4", "act=0,0,8,0", "act=0,0,2,0", &["check"]);
    changed("fails-k4-symbols", "act=0,0,8,0", "act=0,0,6,0", &["check"]);
    changed("fails-k5-goto", "goto=5", "goto=0", &["check"]);
    changed(
        "fails-k5-symbol",
        "prod=0,1,2\n",
        "prod=0,1,1\n",
        &["check"],
    );
    changed(
        "fails-k5-short",
        "prod=0,1,2\n",
        "prod=0,2,2,2\n",
        &["check"],
    );
    changed("fails-k6", "act=3,6,0,0", "act=1,6,0,0", &["check"]);
    changed(
        "fails-k6-start",
        "act=0,0,4,0",
        "act=1,0,4,0",
        &["check", "--json"],
    );
    changed("fails-shape", "prod=0,1,2\n", "prod=0,1,9\n", &["check"]);
    changed(
        "fails-shape-json",
        "act=1,0,0,0",
        "act=1,0,0,4",
        &["read", "tax", "--json"],
    );
    changed("fails-form", "dom=0000000000000002", "dom=2", &["check"]);
    changed("fails-form-line", "class=98,98,1\n", "", &["read", "tax"]);
    changed_form2("fails-form2", "act=0:3,1:6", "act=1:6,0:3", &["check"]);
    changed_form2(
        "fails-form2-shape",
        "act=0:3,1:6",
        "act=0:3,1:12",
        &["check"],
    );
    changed("stuck", "goto=5", "goto=0", &["read", "tax"]);
}

#[test]
fn packs_with_two_terminals_for_one_word() {
    let text = fs::read_to_string(packs().join("small.pack")).expect("the pack is there");
    let both = text.replace(
        "scan=0000000000000002,0000000000000004,0000000000000006",
        "scan=0000000000000006,0000000000000000,0000000000000006",
    );
    let folder = run::folder("several");
    // Nothing outranks, so K1 holds and K3 fails.
    let both = both
        .replace("act=0,0,8,0", "act=0,8,8,0")
        .replace("dom=0000000000000002", "dom=0000000000000000");
    fs::write(folder.join("both.pack"), both).expect("the pack is written");
    let check = run::desk_in(&folder, &["check", "both.pack"], b"");
    assert!(
        check
            .out
            .contains("K3 fails for parse state 2 and scan state 2"),
        "{}",
        check.out
    );
    assert!(
        check.out.contains("Parse state 2 looks for t1 and t2"),
        "{}",
        check.out
    );
    let read = run::desk_in(&folder, &["read", "both.pack", "tax by by"], b"");
    assert_eq!(read.status, 1);
    assert!(
        read.out
            .contains("Found `by` at byte 7, which is t1 and t2"),
        "{}",
        read.out
    );
}
